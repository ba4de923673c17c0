//! Comparisons and merges of files of which the first, the second or both are
//! wrong.

use crate::breaks::break_page;
use crate::comparisons::holding_some;
use crate::editions::SOME_WRONG;
use crate::fault_ways::fault;
use crate::files::{image, of_other_edition, File};
use crate::loose::loosen;
use crate::merging::of_two;
use crate::random::Random;
use crate::sink::Sink;
use crate::sites::{comparison, spoiled};
use crate::wrong::{wrong_edition, wrong_row};
use second::answer::{BROKEN, NOT_THE_IMAGE, OUT_OF_RANGE, WRONG_AREA};
use second::differ::CLOSING_BYTES;
use second::image::standing;
use second::page::{judge, PAGE_BYTES};
use second::raw::{Case, COMPARE_KIND, LONGEST_STRING, STATE_BYTES};
use second::state::State;

pub const REFUSALS: [u16; 4] = [OUT_OF_RANGE, WRONG_AREA, BROKEN, NOT_THE_IMAGE];

/// A call of this kind with the wrong file as the first or as the second.
fn placed(random: &mut Random, kind: u16, wrong: &File, right: &File, first: bool) -> Case {
    if first {
        of_two(random, kind, wrong, right)
    } else {
        of_two(random, kind, right, wrong)
    }
}

/// Makes what is lent beside the files wrong: the room of a comparison too
/// short for any list, or the row of a merge.
fn spoil_the_lent(random: &mut Random, case: &mut Case) {
    if case.kind == COMPARE_KIND {
        case.room.truncate(random.index(CLOSING_BYTES));
    } else {
        wrong_row(random, &mut case.row);
    }
}

/// One file wrong in every way, with a right room or row and with a wrong one.
pub fn either_wrong(random: &mut Random, kind: u16, sink: &mut Sink) -> Result<(), String> {
    let (one, other) = (image(random), image(random));
    for first in [true, false] {
        for refusal in REFUSALS {
            let wrong = spoiled(random, &one, refusal);
            let mut case = placed(random, kind, &wrong, &other, first);
            sink.ask(case.clone())?;
            spoil_the_lent(random, &mut case);
            sink.ask(case)?;
        }
    }
    Ok(())
}

/// Both files wrong, in every way with every other.
pub fn both_wrong(random: &mut Random, sink: &mut Sink) -> Result<(), String> {
    let (one, other) = (image(random), image(random));
    for of_first in REFUSALS {
        for of_second in REFUSALS {
            let first = spoiled(random, &one, of_first);
            let second = spoiled(random, &other, of_second);
            let mut case = comparison(random, &first, &second);
            if random.one_in(4) {
                spoil_the_lent(random, &mut case);
            }
            sink.ask(case)?;
        }
    }
    Ok(())
}

/// Each rule for the numbers of a state broken by itself, editions that there
/// aren't, and areas that aren't as long as the state says.
pub fn wrong_numbers(random: &mut Random, kind: u16, sink: &mut Sink) -> Result<(), String> {
    let (good, other) = of_two_sizes(random);
    let first = random.one_in(2);
    for rule in 0..8 {
        let mut wrong = good.clone();
        wrong.state = breaking(random, good.state, rule);
        let case = placed(random, kind, &wrong, &other, first);
        sink.ask(case)?;
    }
    for &edition in SOME_WRONG {
        let mut wrong = good.clone();
        wrong.state.edition = edition;
        let case = placed(random, kind, &wrong, &other, false);
        sink.ask(case)?;
    }
    let right = good.area.len();
    let near = [
        0,
        right - 1,
        right + 1,
        right - PAGE_BYTES,
        right + PAGE_BYTES,
    ];
    for length in [&near[..], &[other.area.len()]].concat() {
        let mut wrong = good.clone();
        wrong
            .area
            .resize(length.min(LONGEST_STRING - STATE_BYTES), 0);
        let case = placed(random, kind, &wrong, &other, first);
        sink.ask(case)?;
    }
    Ok(())
}

/// Two images that are lent different numbers of pages.
fn of_two_sizes(random: &mut Random) -> (File, File) {
    loop {
        let (one, other) = (image(random), image(random));
        if one.state.cap != other.state.cap {
            return (one, other);
        }
    }
}

/// A state that breaks this rule and no other.
fn breaking(random: &mut Random, good: State, rule: usize) -> State {
    let mut state = good;
    match rule {
        0 => state.n0 = 0,
        1 => state.groups = 0,
        2 => state.sweeps = random.pick(&[0, 9, 256, 65535]),
        3 => state.cap = random.pick(&[4097, 65535]),
        4 => state.edition = wrong_edition(random),
        5 => state.pages = good.n0 * good.groups - 1,
        6 => state.pages = good.cap + 1,
        _ => state.records = 12 * u32::from(good.cap) + 1,
    }
    state
}

/// Broken pages at the start, between and at the end of either file, more than
/// one of them, and good pages that are no image of r records.
pub fn wrong_pages(random: &mut Random, kind: u16, sink: &mut Sink) -> Result<(), String> {
    let (good, other) = (of_three_pages(random), image(random));
    let last = usize::from(good.state.cap) - 1;
    let middle = random.within(1, last as u64 - 1) as usize;
    for first in [true, false] {
        let pages = [&[0][..], &[middle], &[last], &[middle, last], &[0, middle]];
        for pages in pages {
            let wrong = broken_at(random, &good, pages);
            let case = placed(random, kind, &wrong, &other, first);
            sink.ask(case)?;
        }
        let held = good.state.records;
        let most = good.state.most_records() as u32;
        for records in [held - 1, held + 1, held - 2, most] {
            let mut wrong = good.clone();
            wrong.state.records = records;
            let case = placed(random, kind, &wrong, &other, first);
            sink.ask(case)?;
        }
        let wrong = no_image(random, &good);
        let case = placed(random, kind, &wrong, &other, first);
        sink.ask(case)?;
    }
    Ok(())
}

/// An image of two records or more on three pages or more.
fn of_three_pages(random: &mut Random) -> File {
    loop {
        let file = holding_some(random);
        if file.state.cap >= 3 {
            return file;
        }
    }
}

/// The same file with just these pages broken.
fn broken_at(random: &mut Random, good: &File, pages: &[usize]) -> File {
    let mut file = good.clone();
    for &page in pages {
        let area = file.area.clone();
        let part = PAGE_BYTES * page..PAGE_BYTES * (page + 1);
        while judge(file.state, &file.area, page).is_some() {
            file.area[part.clone()].copy_from_slice(&area[part.clone()]);
            break_page(random, file.state, &mut file.area, page);
        }
    }
    file
}

/// The same file with its records on other pages, as many as r says, as far as
/// some tries find such a place for them.
fn no_image(random: &mut Random, good: &File) -> File {
    for _ in 0..100 {
        let mut file = good.clone();
        loosen(random, &mut file);
        let counted = standing(&file.area).len() == file.state.records as usize;
        if counted && fault(file.site()).refusal == NOT_THE_IMAGE {
            return file;
        }
    }
    good.clone()
}

/// No file at all, one taken for the other edition, and bytes that are none:
/// as the first file, as the second, and as both.
pub fn no_files(random: &mut Random, kind: u16, sink: &mut Sink) -> Result<(), String> {
    let (one, other) = (image(random), image(random));
    let mut none = other.clone();
    (none.state, none.area) = (State::default(), Vec::new());
    let mut misread = one.clone();
    misread.state = of_other_edition(one.state);
    let mut noise = other.clone();
    noise.area = random.bytes(other.area.len());
    for wrong in [&none, &misread, &noise] {
        for first in [true, false] {
            let case = placed(random, kind, wrong, &one, first);
            sink.ask(case)?;
        }
    }
    let mut case = of_two(random, kind, &one, &other);
    let length = random.within(STATE_BYTES as u64, 300) as usize;
    case.second = random.bytes(length);
    sink.ask(case)?;
    let case = of_two(random, kind, &none, &none);
    sink.ask(case).map(|_| ())
}
