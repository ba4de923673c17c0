//! Comparisons of files that are alike, nearly alike or not at all, with rooms
//! of every length. Those of wrong files are told beside them.

use crate::files::{image, long_run, File};
use crate::other_numbers::same_records;
use crate::random::Random;
use crate::sink::Sink;
use crate::sites::{
    any_records, changed, comparison, empty, laid_out, records, some_comparison, with_any_numbers,
    MOST_PAGES,
};
use crate::values::other;
use crate::wrong_sites::{both_wrong, either_wrong, no_files, wrong_numbers, wrong_pages};
use second::image::standing;
use second::page::{Record, SLOTS};
use second::raw::{Case, COMPARE_KIND, LONGEST_STRING};

/// Some comparisons. Each scene goes through all of its ways, so that none has
/// to be waited for.
pub fn comparisons(random: &mut Random, sink: &mut Sink) -> Result<(), String> {
    match random.index(15) {
        0 => mixtures(random, sink),
        1 => same_records(random, sink),
        2 => fillings(random, sink),
        3 => rooms(random, sink),
        4 => near(random, sink),
        5 => overfull(random, sink),
        6 => largest(random, sink),
        7 => lived(random, sink),
        8 => any_two(random, sink),
        9 => either_wrong(random, COMPARE_KIND, sink),
        10 => both_wrong(random, sink),
        11 | 12 => wrong_numbers(random, COMPARE_KIND, sink),
        13 => wrong_pages(random, COMPARE_KIND, sink),
        _ => no_files(random, COMPARE_KIND, sink),
    }
}

/// Asks for a comparison of two files both ways round.
pub fn both_ways(
    random: &mut Random,
    one: &File,
    two: &File,
    sink: &mut Sink,
) -> Result<(), String> {
    for (first, second) in [(one, two), (two, one)] {
        let case = comparison(random, first, second);
        sink.ask(case)?;
    }
    Ok(())
}

/// An image of two records or more that isn't full.
pub fn holding_some(random: &mut Random) -> File {
    loop {
        let file = image(random);
        if file.held.len() >= 2 && !file.state.at_most_records() {
            return file;
        }
    }
}

/// An image that has no slot free.
pub fn full(random: &mut Random) -> File {
    loop {
        let mut file = image(random);
        file.fill_up(random);
        if file.state.at_most_records() {
            return file;
        }
    }
}

/// Each mixture of the three kinds of differences, mostly with few of each.
fn mixtures(random: &mut Random, sink: &mut Sink) -> Result<(), String> {
    let file = holding_some(random);
    let half = file.held.len() / 2;
    for kinds in 0..8 {
        let most = random.pick(&[1, 1, 4, 60]);
        let mut some = || random.within(1, most) as usize;
        let counts = [1, 2, 4].map(|kind| match kinds & kind {
            0 => 0,
            2 => some(),
            _ => some().min(half),
        });
        let second = changed(random, &file, counts);
        both_ways(random, &file, &second, sink)?;
    }
    Ok(())
}

/// Files with no records, some, and as many as there may be, each with each.
fn fillings(random: &mut Random, sink: &mut Sink) -> Result<(), String> {
    let of_each = |random: &mut Random| [empty(random), holding_some(random), full(random)];
    let (firsts, seconds) = (of_each(random), of_each(random));
    for first in &firsts {
        for second in &seconds {
            let case = comparison(random, first, second);
            sink.ask(case)?;
        }
    }
    Ok(())
}

/// Rooms of every length, for files that differ and for ones that don't.
fn rooms(random: &mut Random, sink: &mut Sink) -> Result<(), String> {
    let file = holding_some(random);
    let differs = changed(random, &file, [1, 2, 1]);
    let case = comparison(random, &file, &differs);
    let right = case.room.len();
    let short = [1, 4, 16, 20, 28].map(|less| right - less);
    let long = [0, 1, random.index(300)].map(|more| right + more);
    let lengths = [&[0, 1, 15, 16, 20, 28][..], &short, &long].concat();
    with_rooms(random, &case, &lengths, sink)?;
    let equal = with_any_numbers(random, &records(&file));
    let case = comparison(random, &file, &equal);
    with_rooms(random, &case, &[0, 1, 15, 16, 17, LONGEST_STRING], sink)
}

/// Asks for the same comparison with rooms of these lengths.
fn with_rooms(
    random: &mut Random,
    case: &Case,
    lengths: &[usize],
    sink: &mut Sink,
) -> Result<(), String> {
    for &length in lengths {
        let room = random.bytes(length);
        sink.ask(Case {
            room,
            ..case.clone()
        })?;
    }
    Ok(())
}

/// Values of one key, and keys of either file, that differ in one byte.
fn near(random: &mut Random, sink: &mut Sink) -> Result<(), String> {
    for byte in 0..8 {
        let count = random.within(2, 8) as usize;
        let first = any_records(random, count);
        let mut second = first.clone();
        second[0].key ^= random.within(1, 255) << (8 * byte);
        second[1].value ^= random.within(1, 255) << (8 * byte);
        if second[1..].iter().all(|record| record.key != second[0].key) {
            let first = with_any_numbers(random, &first);
            let second = with_any_numbers(random, &second);
            let case = comparison(random, &first, &second);
            sink.ask(case)?;
        }
    }
    Ok(())
}

/// Runs of full pages, with differences at their far end.
fn overfull(random: &mut Random, sink: &mut Sink) -> Result<(), String> {
    let (file, last) = long_run(random);
    let mut far = standing(&file.area);
    far.retain(|(page, _)| *page == last);
    let mut others = records(&file);
    if let [(_, gone), .., (_, other_value)] = far[..] {
        others.retain(|record| *record != gone);
        for record in others.iter_mut().filter(|record| **record == other_value) {
            record.value = other(random, record.value);
        }
    }
    if let Some(second) = laid_out(random, file.state, &others) {
        both_ways(random, &file, &second, sink)?;
    }
    let second = with_any_numbers(random, &others);
    both_ways(random, &file, &second, sink)?;
    let (second, _) = long_run(random);
    both_ways(random, &file, &second, sink)
}

/// Files of as many pages as there may be. The first list fills the longest
/// room to its last byte and the second is too long for it by four; then all
/// records differ, and none.
fn largest(random: &mut Random, sink: &mut Sink) -> Result<(), String> {
    let most = SLOTS * usize::from(MOST_PAGES);
    let in_both = random.index(200);
    for [only_in_one, two_values, the_same] in [[815, 3, in_both], [818, 1, in_both]] {
        let gone = random.within(300, 500) as usize;
        let first = any_records(random, gone + two_values + the_same);
        let first = large(random, &first);
        let second = changed(random, &first, [gone, only_in_one - gone, two_values]);
        let mut case = comparison(random, &first, &second);
        case.room = random.bytes(LONGEST_STRING);
        sink.ask(case)?;
    }
    let [first, second] = [any_records(random, most), any_records(random, most)];
    let [first, second] = [large(random, &first), large(random, &second)];
    both_ways(random, &first, &second, sink)?;
    let same = with_any_numbers(random, &records(&first));
    both_ways(random, &first, &same, sink)
}

/// A file of these records on as many pages as there may be.
pub fn large(random: &mut Random, records: &[Record]) -> File {
    let mut state = with_any_numbers(random, records).state;
    state.cap = MOST_PAGES;
    let file = laid_out(random, state, records);
    file.expect("more pages have room as well")
}

/// A file and what becomes of it, in between and in the end.
fn lived(random: &mut Random, sink: &mut Sink) -> Result<(), String> {
    let mut file = image(random);
    let before = file.clone();
    for _ in 0..random.within(2, 4) {
        for _ in 0..random.within(1, 3) {
            let (kind, key) = (
                random.pick(&[258, 258, 260, 261, 263]),
                file.some_key(random),
            );
            file.call(kind, key, random.value(), sink)?;
        }
        both_ways(random, &before, &file, sink)?;
    }
    Ok(())
}

/// Files that have nothing to do with each other, or more or less.
fn any_two(random: &mut Random, sink: &mut Sink) -> Result<(), String> {
    for _ in 0..2 {
        let (first, second) = (image(random), image(random));
        both_ways(random, &first, &second, sink)?;
        let case = some_comparison(random, &first);
        sink.ask(case)?;
    }
    Ok(())
}

#[cfg(test)]
mod tests;
