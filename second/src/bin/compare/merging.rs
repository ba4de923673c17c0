//! Merges to ask for: a living file with its row, and other files whose records
//! go into it, don't, or only just do.

use crate::files::{image, File};
use crate::keys::key_with_home;
use crate::random::Random;
use crate::sites::{changed, comparison, empty, relative};
use second::home::home;
use second::page::{Record, PAGE_BYTES};
use second::raw::{state_bytes, Case, MERGE_KIND};
use std::collections::BTreeSet;

/// States that tell of more pages than this are wide ones.
const WIDE: usize = 128;

/// A merge of the other file into the living one, with a row that has a count
/// for each page of the living file.
pub fn merging(random: &mut Random, living: &File, other: &File) -> Case {
    let cap = usize::from(living.state.cap);
    // No area is as long as a wide state asks for, and no row needs to be.
    let counts = if cap <= WIDE {
        cap
    } else {
        living.area.len() / PAGE_BYTES
    };
    Case {
        kind: MERGE_KIND,
        state: living.state,
        area: living.area.clone(),
        second: [state_bytes(other.state), other.area.clone()].concat(),
        row: (0..counts).map(|_| random.next() as u32).collect(),
        ..Case::default()
    }
}

/// A call of this kind on two files: a merge, or else a comparison.
pub fn of_two(random: &mut Random, kind: u16, first: &File, second: &File) -> Case {
    if kind == MERGE_KIND {
        merging(random, first, second)
    } else {
        comparison(random, first, second)
    }
}

/// A merge of a file of any kind into this one.
pub fn some_merge(random: &mut Random, file: &File) -> Case {
    let other = some_other(random, file);
    merging(random, file, &other)
}

/// A file to be merged into another one, mostly without a clash.
pub fn some_other(random: &mut Random, file: &File) -> File {
    let most = random.pick(&[1, 3, 20]);
    let [gone, come, clashes] = [0; 3].map(|_: usize| random.index(most + 1));
    match random.index(8) {
        0 => relative(random, file),
        1 => empty(random),
        2 => image(random),
        3 => changed(random, file, [gone, come, clashes]),
        _ => changed(random, file, [gone, come, 0]),
    }
}

/// So many records, or fewer where such are hard to find, with keys that the
/// file doesn't hold and that would live on this page of it.
pub fn new_records(random: &mut Random, file: &File, page: u64, count: usize) -> Vec<Record> {
    let mut keys: BTreeSet<u64> = file.held.iter().copied().collect();
    let mut records = Vec::new();
    for _ in 0..4 * count {
        if records.len() == count {
            break;
        }
        let key = key_with_home(random, file.state, page);
        if home(file.state, key) == page && keys.insert(key) {
            let value = random.value();
            records.push(Record { key, value });
        }
    }
    records
}
