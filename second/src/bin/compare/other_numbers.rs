//! Files that hold the same records, or nearly so, and differ in one number of
//! their states: comparisons of them, and merges.

use crate::comparisons::both_ways;
use crate::files::File;
use crate::random::Random;
use crate::sink::Sink;
use crate::sites::{any_records, comparison, laid_out, with_any_numbers};
use crate::values::other;
use second::page::Record;
use second::state::State;

/// The same records, and others, in files that differ in one number after the
/// other and then in several.
pub fn same_records(random: &mut Random, sink: &mut Sink) -> Result<(), String> {
    let count = random.within(6, 40) as usize;
    let records = any_records(random, count);
    let file = loop {
        let state = three_groups(random);
        if let Some(file) = laid_out(random, state, &records) {
            break file;
        }
    };
    let mut others = records.clone();
    let at = random.index(others.len());
    others[at].value = other(random, others[at].value);
    for number in 0..7 {
        let Some(same) = with_other_number(random, &file, &records, number) else {
            continue;
        };
        let differs = laid_out(random, same.state, &others);
        for second in [Some(same), differs].into_iter().flatten() {
            let case = comparison(random, &file, &second);
            sink.ask(case)?;
        }
    }
    both_ways(random, &file, &file, sink)
}

/// A state with three groups, of which at least two have grown once. Two sweeps
/// take them in another order than any other number does.
pub fn three_groups(random: &mut Random) -> State {
    let n0 = random.within(1, 2);
    let pages = 4 + 2 * n0 + random.within(0, 1);
    let cap = pages + random.within(1, 2);
    let sweeps = random.within(1, 8);
    let edition = random.within(1, 2);
    let [n0, sweeps, pages, cap, edition] = [n0, sweeps, pages, cap, edition].map(|n| n as u16);
    State {
        n0,
        groups: 3,
        sweeps,
        pages,
        cap,
        edition,
        records: 0,
    }
}

/// The same records with another n0, N, s, P, cap or edition, or with any
/// numbers, and with other bytes; None where a few tries found none.
pub fn with_other_number(
    random: &mut Random,
    file: &File,
    records: &[Record],
    number: u16,
) -> Option<File> {
    for _ in 0..12 {
        let mut state = file.state;
        match number {
            0 => state.n0 = 3 - state.n0,
            1 => state.groups = random.within(1, 6 / u64::from(state.n0)) as u16,
            2 => state.sweeps = random.pick(&[1, 2, 2, 3, 8]),
            3 => state.pages = random.within(6, u64::from(state.cap)) as u16,
            4 => state.cap = random.within(state.pages.into(), 12) as u16,
            5 => state.edition = 3 - state.edition,
            _ => return Some(with_any_numbers(random, records)),
        }
        let other = laid_out(random, state, records);
        if let Some(other) = other.filter(|other| other.area != file.area) {
            return Some(other);
        }
    }
    None
}
