//! Merges of files whose records go together, clash, or find no room. Those of
//! wrong files and with wrong rows are told beside them.

use crate::comparisons::{full, holding_some, large};
use crate::files::{image, parameters, parameters_for, File};
use crate::merging::{merging, new_records, some_merge, some_other};
use crate::other_numbers::{three_groups, with_other_number};
use crate::random::Random;
use crate::sink::Sink;
use crate::sites::{any_records, changed, laid_out, records, shuffle};
use crate::sites::{with_any_numbers, MOST_PAGES};
use crate::values::offered;
use crate::wrong_merges::{orders, rows};
use crate::wrong_sites::{no_files, wrong_numbers, wrong_pages};
use second::home::home;
use second::page::{Record, SLOTS};
use second::raw::MERGE_KIND;
use second::state::State;

/// The most records that another file can hold.
const MOST_RECORDS: usize = SLOTS * MOST_PAGES as usize;

/// Some merges. Each scene goes through all of its ways, so that none has to be
/// waited for.
pub fn merges(random: &mut Random, sink: &mut Sink) -> Result<(), String> {
    match random.index(23) {
        0 | 1 => overlaps(random, sink),
        2 => fillings(random, sink),
        3 | 4 => other_numbers(random, sink),
        5 | 6 => clashes(random, sink),
        7 => near(random, sink),
        8 | 9 => nearly_full(random, sink),
        10..=12 => high_homes(random, sink),
        13 => largest(random, sink),
        14 | 15 => lived(random, sink),
        16 => any_two(random, sink),
        17 => orders(random, sink),
        18 => rows(random, sink),
        19 => wrong_pages(random, MERGE_KIND, sink),
        20 => no_files(random, MERGE_KIND, sink),
        _ => wrong_numbers(random, MERGE_KIND, sink),
    }
}

/// Asks for a merge of the second file into the first.
fn ask(random: &mut Random, living: &File, other: &File, sink: &mut Sink) -> Result<(), String> {
    let case = merging(random, living, other);
    sink.ask(case).map(|_| ())
}

/// Asks for a merge of two files either way round.
fn either_way(random: &mut Random, one: &File, two: &File, sink: &mut Sink) -> Result<(), String> {
    ask(random, one, two, sink)?;
    ask(random, two, one, sink)
}

/// Files of which either, both or none has records that the other lacks, with
/// all of the others in both.
fn overlaps(random: &mut Random, sink: &mut Sink) -> Result<(), String> {
    let file = holding_some(random);
    let all = file.held.len();
    let most = random.pick(&[1, 4, 12]);
    let (gone, come) = (
        random.within(1, all as u64 - 1) as usize,
        random.within(1, most) as usize,
    );
    for counts in [[0, 0], [gone, 0], [0, come], [gone, come], [all, come]] {
        let [gone, come] = counts;
        let other = changed(random, &file, [gone, come, 0]);
        either_way(random, &file, &other, sink)?;
    }
    Ok(())
}

/// Files with no records, some, and as many as there may be, each with each:
/// all are of one set, so that all have room.
fn fillings(random: &mut Random, sink: &mut Sink) -> Result<(), String> {
    let full = full(random);
    let all = records(&full);
    let mut some = all.clone();
    shuffle(random, &mut some);
    some.truncate(random.within(1, all.len() as u64 - 1) as usize);
    let none = File::empty(
        random,
        State {
            records: 0,
            ..full.state
        },
    );
    let some = laid_out(random, full.state, &some).expect("fewer have room as well");
    let files = [none, some, full];
    for living in &files {
        for other in &files {
            ask(random, living, other, sink)?;
            // The same records with other numbers.
            let other = with_any_numbers(random, &records(other));
            ask(random, living, &other, sink)?;
        }
    }
    Ok(())
}

/// Two sets that mostly have room together, in files that differ in one number
/// after the other and then in several.
fn other_numbers(random: &mut Random, sink: &mut Sink) -> Result<(), String> {
    let count = random.within(6, 40) as usize;
    let all = any_records(random, count);
    let (one, two) = (&all[..2 * count / 3], &all[count / 3..]);
    let living = loop {
        let state = three_groups(random);
        if let Some(file) = laid_out(random, state, one) {
            break file;
        }
    };
    for number in 0..7 {
        if let Some(other) = with_other_number(random, &living, two, number) {
            either_way(random, &living, &other, sink)?;
        }
    }
    if let Some(other) = laid_out(random, living.state, two) {
        either_way(random, &living, &other, sink)?;
    }
    Ok(())
}

/// One clash and several, among records that are in both or in one file alone,
/// and in files that have no room for all of these.
fn clashes(random: &mut Random, sink: &mut Sink) -> Result<(), String> {
    let few = holding_some(random);
    for clashes in [1, 2, 5] {
        let most = random.pick(&[0, 2, 10]);
        let [gone, come] = [0; 2].map(|_: usize| random.index(most + 1));
        let gone = gone.min(few.held.len() - 1);
        let other = changed(random, &few, [gone, come, clashes]);
        either_way(random, &few, &other, sink)?;
    }
    let many = full(random);
    let (gone, come) = (random.index(4), random.within(5, 20) as usize);
    let other = changed(random, &many, [gone, come, 1]);
    either_way(random, &many, &other, sink)
}

/// Values of one key, and keys of either file, that differ in one byte.
fn near(random: &mut Random, sink: &mut Sink) -> Result<(), String> {
    for byte in 0..8 {
        let count = random.within(2, 8) as usize;
        let first = any_records(random, count);
        let living = with_any_numbers(random, &first);
        let off = random.within(1, 255) << (8 * byte);
        let mut second = first.clone();
        second[0].value ^= off;
        let other = with_any_numbers(random, &second);
        ask(random, &living, &other, sink)?;
        let mut second = first;
        second[0].key ^= off;
        if second[1..].iter().all(|record| record.key != second[0].key) {
            let other = with_any_numbers(random, &second);
            ask(random, &living, &other, sink)?;
        }
    }
    Ok(())
}

/// Nearly full files, and others with as many new records as there are slots
/// free, one less and one more. Their lowest home leaves them every free slot.
/// Then all of these at once, into a file that is empty.
fn nearly_full(random: &mut Random, sink: &mut Sink) -> Result<(), String> {
    let full = full(random);
    let mut held = records(&full);
    shuffle(random, &mut held);
    let free = random.index(5).min(held.len());
    let living = laid_out(random, full.state, &held[free..]).expect("fewer have room as well");
    let new = new_records(random, &full, 0, free + 1);
    for count in [free.saturating_sub(1), free, free + 1] {
        let new = &new[..count.min(new.len())];
        let other = with_any_numbers(random, new);
        ask(random, &living, &other, sink)?;
        // The same with some records that are in both.
        let shared = &held[held.len() - random.index(held.len() - free + 1)..];
        let other = with_any_numbers(random, &[shared, new].concat());
        ask(random, &living, &other, sink)?;
    }
    let none = State {
        records: 0,
        ..full.state
    };
    let none = File::empty(random, none);
    let too_many = [&held[..], &new[..1.min(new.len())]].concat();
    let other = with_any_numbers(random, &too_many[..too_many.len().min(MOST_RECORDS)]);
    either_way(random, &none, &other, sink)
}

/// Records of the last home: as many as there is room for from there on, and
/// one more, whatever is free below.
fn high_homes(random: &mut Random, sink: &mut Sink) -> Result<(), String> {
    let mut state = parameters(random);
    let first = state.n0 * state.groups;
    // Few lent pages beyond the last home ask for few records.
    state.pages = state.cap.saturating_sub(random.index(2) as u16).max(first);
    let last = u64::from(state.pages) - 1;
    let some = random.index(2 * SLOTS);
    let mut living = File::empty(random, state);
    for _ in 0..some {
        let key = living.keys.draw(random, state);
        living.add(random, key);
    }
    let above = SLOTS * usize::from(state.cap + 1 - state.pages);
    let bound = |record: &&Record| home(state, record.key) == last;
    let held = records(&living);
    let free = above - held.iter().filter(bound).count().min(above);
    let new = new_records(random, &living, last, free + 1);
    for count in [free, free + 1] {
        let new = &new[..count.min(new.len())];
        let shared = &held[..random.index(held.len() + 1)];
        let other = with_any_numbers(random, &[shared, new].concat());
        either_way(random, &living, &other, sink)?;
    }
    Ok(())
}

/// Files of as many pages as there may be: a set that fills the living one,
/// one record more, and the same set in both.
fn largest(random: &mut Random, sink: &mut Sink) -> Result<(), String> {
    let all = any_records(random, MOST_RECORDS + 1);
    let half = random.within(100, 600) as usize;
    // With one home, the lowest, all slots are free for all records.
    let mut state = parameters_for(random, MOST_PAGES);
    (state.n0, state.groups, state.pages) = (1, 1, 1);
    let living = laid_out(random, state, &all[..half]).expect("one home has room for all");
    for end in [MOST_RECORDS, MOST_RECORDS + 1] {
        let shared = random.index(half);
        let start = (half - shared).max(end - MOST_RECORDS);
        let other = large(random, &all[start..end]);
        ask(random, &living, &other, sink)?;
    }
    let same = large(random, &all[..MOST_RECORDS]);
    either_way(random, &living, &same, sink)
}

/// A file that takes in others between calls of all kinds, which ask for the
/// keys that were brought in.
fn lived(random: &mut Random, sink: &mut Sink) -> Result<(), String> {
    let mut file = image(random);
    for _ in 0..random.within(1, 4) {
        let other = some_other(random, &file);
        let case = merging(random, &file, &other);
        file.keep(case, sink)?;
        for _ in 0..random.within(1, 4) {
            let kind = random.pick(&[258, 259, 260, 261, 263]);
            let key = if random.one_in(2) && !other.held.is_empty() {
                random.pick(&other.held)
            } else {
                file.some_key(random)
            };
            let value = offered(random, &file.area, key);
            file.call(kind, key, value, sink)?;
        }
    }
    file.call(262, 0, 0, sink)
}

/// Files that have nothing to do with each other, or more or less.
fn any_two(random: &mut Random, sink: &mut Sink) -> Result<(), String> {
    for _ in 0..2 {
        let (one, two) = (image(random), image(random));
        either_way(random, &one, &two, sink)?;
        let case = some_merge(random, &one);
        sink.ask(case)?;
    }
    Ok(())
}

#[cfg(test)]
mod tests;
