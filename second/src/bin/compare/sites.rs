//! Second files to compare a file with or to merge into it: the same, with the
//! same records, with a few others, with any, and with something wrong.

use crate::breaks::break_page;
use crate::fault_ways::fault;
use crate::files::{image, parameters_for, File};
use crate::keys::{extreme, Keys};
use crate::loose::{loosen, wrong_count};
use crate::random::Random;
use crate::values::other;
use crate::wrong::{wrong_length, wrong_state};
use second::answer::{BROKEN, OUT_OF_RANGE, WRONG_AREA};
use second::differ::{whole_list, Site, CLOSING_BYTES};
use second::image::{lay_out, standing};
use second::page::{Record, PAGE_BYTES, SLOTS};
use second::raw::{state_bytes, Case, COMPARE_KIND, LONGEST_STRING, STATE_BYTES};
use second::state::State;
use std::collections::BTreeSet;

/// The most pages that a second file can be lent.
pub const MOST_PAGES: u16 = ((LONGEST_STRING - STATE_BYTES) / PAGE_BYTES) as u16;

impl File {
    /// The file as a call on two files takes it.
    pub fn site(&self) -> Site<'_> {
        Site {
            state: self.state,
            area: &self.area,
        }
    }
}

/// A comparison of two files with a room as long as the list, or as long as
/// there may be.
pub fn comparison(random: &mut Random, first: &File, second: &File) -> Case {
    let mut case = Case {
        kind: COMPARE_KIND,
        state: first.state,
        area: first.area.clone(),
        second: [state_bytes(second.state), second.area.clone()].concat(),
        row: vec![random.next() as u32; random.index(3)],
        ..Case::default()
    };
    let length = list_length(&case).min(LONGEST_STRING);
    case.room = random.bytes(length);
    case
}

/// How long the list of a comparison is, and for want of one the shortest.
pub fn list_length(case: &Case) -> usize {
    let second = case.second_file();
    let list = second.and_then(|second| whole_list(case.first_file(), second).ok());
    list.map_or(CLOSING_BYTES, |list| list.len())
}

/// A comparison with a file of any kind, mostly with a room that fits.
pub fn some_comparison(random: &mut Random, file: &File) -> Case {
    let second = relative(random, file);
    let mut case = comparison(random, file, &second);
    let right = case.room.len();
    let length = match random.index(8) {
        0 => random.index(right),
        1 => right + random.within(1, 50) as usize,
        _ => right,
    };
    if length != right {
        case.room = random.bytes(length.min(LONGEST_STRING));
    }
    case
}

/// A file that has more or less to do with another one.
pub fn relative(random: &mut Random, file: &File) -> File {
    match random.index(8) {
        0 => file.clone(),
        1 => with_any_numbers(random, &records(file)),
        2 => image(random),
        3 => empty(random),
        _ => {
            let most = random.pick(&[1, 3, 30]);
            let counts = [0; 3].map(|_: usize| random.index(most + 1));
            changed(random, file, counts)
        }
    }
}

/// A file with no records.
pub fn empty(random: &mut Random) -> File {
    let cap = random.within(1, 4) as u16;
    let state = parameters_for(random, cap);
    File::empty(random, state)
}

/// The records of a file, each key once, with the value that stands first.
pub fn records(file: &File) -> Vec<Record> {
    let mut seen = BTreeSet::new();
    let standing = standing(&file.area).into_iter();
    let records = standing.map(|(_, record)| record);
    records.filter(|record| seen.insert(record.key)).collect()
}

/// So many records of different keys.
pub fn any_records(random: &mut Random, count: usize) -> Vec<Record> {
    let mut keys = BTreeSet::new();
    let mut records = Vec::new();
    while records.len() < count {
        let any = [random.next(), extreme(random), random.within(0, 5000)];
        let key = random.pick(&any);
        if keys.insert(key) {
            let value = random.value();
            records.push(Record { key, value });
        }
    }
    records
}

/// A file with these numbers and records, None where they have no room there.
pub fn laid_out(random: &mut Random, state: State, records: &[Record]) -> Option<File> {
    let area = lay_out(state, records)?;
    let state = State {
        records: records.len() as u32,
        ..state
    };
    Some(File {
        state,
        area,
        held: records.iter().map(|record| record.key).collect(),
        keys: Keys::new(random, state),
    })
}

/// A file with these records and any numbers.
pub fn with_any_numbers(random: &mut Random, records: &[Record]) -> File {
    let least = records.len().div_ceil(SLOTS).clamp(1, MOST_PAGES.into()) as u64;
    for more in 0..8 {
        let most = (least + more).min(MOST_PAGES.into());
        let cap = random.within(least, most) as u16;
        let state = parameters_for(random, cap);
        if let Some(file) = laid_out(random, state, records) {
            return file;
        }
    }
    // With one home, the lowest, all records have room.
    let mut state = parameters_for(random, least as u16);
    (state.n0, state.groups, state.pages) = (1, 1, 1);
    laid_out(random, state, records).expect("one home has room for all")
}

/// A file like another one, with so many of its records gone, so many come and
/// so many with another value, as far as there are as many; with the same
/// numbers or any.
pub fn changed(random: &mut Random, file: &File, counts: [usize; 3]) -> File {
    let [gone, come, other_value] = counts;
    let mut records = records(file);
    let held: BTreeSet<u64> = records.iter().map(|record| record.key).collect();
    shuffle(random, &mut records);
    records.drain(..gone.min(held.len()));
    for record in records.iter_mut().take(other_value) {
        record.value = other(random, record.value);
    }
    let mut come_keys = BTreeSet::new();
    let most = usize::from(MOST_PAGES) * SLOTS - records.len();
    while come_keys.len() < come.min(most) {
        let key = new_key(random, file);
        if !held.contains(&key) && come_keys.insert(key) {
            let value = random.value();
            records.push(Record { key, value });
        }
    }
    let alike = random.one_in(2);
    let same_numbers = alike.then(|| laid_out(random, file.state, &records));
    let file = same_numbers.flatten();
    file.unwrap_or_else(|| with_any_numbers(random, &records))
}

/// Any key, or one that differs from a held one in a single bit.
fn new_key(random: &mut Random, file: &File) -> u64 {
    match random.index(4) {
        0 => random.next(),
        1 => extreme(random),
        2 if !file.held.is_empty() => random.pick(&file.held) ^ (1 << random.index(64)),
        _ => random.within(0, 5000),
    }
}

pub fn shuffle<T>(random: &mut Random, all: &mut [T]) {
    for end in (1..all.len()).rev() {
        all.swap(end, random.index(end + 1));
    }
}

/// The same file with something wrong, so that a check gives this refusal.
pub fn spoiled(random: &mut Random, good: &File, refusal: u16) -> File {
    loop {
        let mut file = good.clone();
        match refusal {
            OUT_OF_RANGE => file.state = wrong_state(random, good.state),
            WRONG_AREA => wrong_length(random, &mut file.area),
            BROKEN => {
                let address = random.index(usize::from(good.state.cap));
                break_page(random, good.state, &mut file.area, address);
            }
            _ if random.one_in(2) => wrong_count(random, &mut file.state),
            _ => loosen(random, &mut file),
        }
        let short_enough = file.area.len() <= LONGEST_STRING - STATE_BYTES;
        if fault(file.site()).refusal == refusal && short_enough {
            return file;
        }
    }
}

#[cfg(test)]
mod tests {
    use super::*;
    use second::answer::NOT_THE_IMAGE;

    /// Every refusal can be brought about on every file, empty and full.
    #[test]
    fn files_are_spoiled_as_they_should_be() {
        let mut random = Random::new(10, 0);
        for _ in 0..200 {
            let file = image(&mut random);
            for refusal in [OUT_OF_RANGE, WRONG_AREA, BROKEN, NOT_THE_IMAGE] {
                let spoiled = spoiled(&mut random, &file, refusal);
                let case = comparison(&mut random, &file, &spoiled);
                let mut after = case.clone();
                let told = after.answer().expect("agrees").map(|(answer, _)| answer);
                assert_eq!(told.map(|answer| answer.refusal), Some(refusal));
            }
        }
    }

    /// As many differences of each kind come as were asked for.
    #[test]
    fn files_are_changed_as_they_should_be() {
        let mut random = Random::new(11, 0);
        for round in 0..200 {
            let file = image(&mut random);
            let counts = [0, 1, 2].map(|at| (round >> at & 1) * random.index(5));
            let second = changed(&mut random, &file, counts);
            let [gone, come, other_value] = counts;
            let gone = gone.min(file.held.len());
            let other_value = other_value.min(file.held.len() - gone);
            let case = comparison(&mut random, &file, &second);
            let length = 20 * (gone + come) + 28 * other_value + 16;
            assert_eq!(case.room.len(), length);
        }
    }
}
