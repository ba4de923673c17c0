//! Merges with rows of wrong lengths, and with more than one thing wrong.

use crate::comparisons::holding_some;
use crate::files::{image, File};
use crate::merging::{merging, some_other};
use crate::random::Random;
use crate::sink::Sink;
use crate::sites::{changed, spoiled};
use crate::wrong::wrong_row;
use crate::wrong_sites::REFUSALS;
use second::raw::{Case, LONGEST_ROW};

/// The living file right or wrong in every way, with a right row and a wrong
/// one, and so the other file: each with each.
pub fn orders(random: &mut Random, sink: &mut Sink) -> Result<(), String> {
    let living = image(random);
    let other = some_other(random, &living);
    let ways = [&[0][..], &REFUSALS].concat();
    for &of_living in &ways {
        for &of_other in &ways {
            let first = right_or_not(random, &living, of_living);
            let second = right_or_not(random, &other, of_other);
            let case = merging(random, &first, &second);
            sink.ask(with_wrong_row(random, &case))?;
            sink.ask(case)?;
        }
    }
    Ok(())
}

fn right_or_not(random: &mut Random, file: &File, refusal: u16) -> File {
    match refusal {
        0 => file.clone(),
        _ => spoiled(random, file, refusal),
    }
}

/// The same merge with a row that has too few counts or too many.
fn with_wrong_row(random: &mut Random, case: &Case) -> Case {
    let mut wrong = case.clone();
    while wrong.row.len() == usize::from(case.state.cap) {
        wrong_row(random, &mut wrong.row);
    }
    wrong
}

/// Rows of every length, where the files go together and where they clash.
pub fn rows(random: &mut Random, sink: &mut Sink) -> Result<(), String> {
    let (living, other) = of_far_sizes(random);
    let clashing = changed(random, &living, [0, 1, 1]);
    let (cap, pages) = (living.state.cap, living.state.pages);
    let near = [0, 1, cap - 1, cap + 1, 2 * cap, pages, other.state.cap];
    let lengths = near.map(usize::from);
    for length in [&lengths[..], &[128, LONGEST_ROW]].concat() {
        for other in [&other, &clashing] {
            let mut case = merging(random, &living, other);
            case.row.resize(length, 7);
            sink.ask(case)?;
        }
    }
    Ok(())
}

/// Two files of which the second has two pages more than the first or still
/// more. The first may grow.
fn of_far_sizes(random: &mut Random) -> (File, File) {
    loop {
        let (one, other) = (holding_some(random), image(random));
        if one.state.pages < one.state.cap && one.state.cap + 1 < other.state.cap {
            return (one, other);
        }
    }
}
