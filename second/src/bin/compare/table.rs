//! How often each call gave each refusal.

use crate::comparison_ways::{self, COMPARISON_PAIRS};
use crate::editions::{self, EDITION_PAIRS};
use crate::fault_ways::FAULT_PAIRS;
use crate::list_ways::LIST_PAIRS;
use crate::log_ways::{self, LOG_WAYS};
use crate::merge_ways::MERGE_PAIRS;
use crate::shrink_ways::{self, SHRINK_PAIRS};
use crate::ways::{self, Pair, RUN_PAIRS};
use second::raw::{COMPARE_KIND, MERGE_KIND, RUN_KIND};
use std::collections::BTreeMap;
use std::fmt;

/// The kind under which refusals 10 and 11 of the log program are counted.
pub const PROGRAM: u16 = 0;

/// The pairs of call and refusal that the rules make possible for raw calls;
/// what a run, a shrink, a comparison or a merge can be like and what the
/// editions do is told beside them.
pub const CALL_PAIRS: [(u16, &[u16]); 11] = [
    (256, &[0]),
    (257, &[0, 1, 2]),
    (258, &[0, 1, 2, 4, 6, 7, 9, 13]),
    (259, &[0, 1, 2, 4, 5]),
    (260, &[0, 1, 2, 4, 5, 9]),
    (261, &[0, 1, 2, 3, 4, 7, 8, 9]),
    (262, &[0, 1, 2, 4, 9]),
    (263, &[0, 1, 2, 4, 9, 14]),
    (RUN_KIND, &[0, 10, 15]),
    (COMPARE_KIND, &[0, 1, 2, 4, 9, 15]),
    (MERGE_KIND, &[0, 1, 2, 3, 4, 7, 9, 13]),
];

/// Those for logs; what their formats can be like is told beside them. The
/// program lends an area and a row of the right length and writes images only,
/// so 2, 3, 4 and 9 can't come.
const COMMAND_PAIRS: [(u16, &[u16]); 8] = [
    (PROGRAM, &[10, 11]),
    (257, &[0, 1, 12]),
    (258, &[0, 1, 6, 7, 13]),
    (259, &[0, 1, 5]),
    (260, &[0, 1, 5]),
    (261, &[0, 1, 7, 8]),
    (262, &[0, 1]),
    (263, &[0, 1, 14]),
];

/// All pairs that have to come among raw calls, in their order.
pub fn raw_pairs() -> Vec<(u16, &'static [u16])> {
    let ways = [&RUN_PAIRS[..], &EDITION_PAIRS, &SHRINK_PAIRS].concat();
    let of_two = [&LIST_PAIRS[..], &COMPARISON_PAIRS, &FAULT_PAIRS].concat();
    [&CALL_PAIRS[..], &ways, &of_two, &MERGE_PAIRS].concat()
}

/// All pairs that have to come among logs.
pub fn log_pairs() -> Vec<(u16, &'static [u16])> {
    [&COMMAND_PAIRS[..], &LOG_WAYS].concat()
}

#[derive(Default)]
pub struct Table {
    counts: BTreeMap<Pair, u64>,
    /// Answers to due, no and yes.
    due: [u64; 2],
    most_read: u32,
    most_moved: u32,
}

pub fn name(kind: u16) -> &'static str {
    match kind {
        PROGRAM => "program",
        256 => "due",
        257 => "format",
        258 => "put",
        259 => "find",
        260 => "remove",
        261 => "grow",
        262 => "check",
        263 => "shrink",
        RUN_KIND => "pay run",
        COMPARE_KIND => "comparison",
        MERGE_KIND => "merge",
        way => way_name(way),
    }
}

/// The rows that tell what calls were like.
fn way_name(way: u16) -> &'static str {
    match way {
        ways::ITEM => "put in a run",
        ways::ITEMS => "items from",
        ways::ITEMS_REFUSED => "without room",
        ways::EMPTY_ROOM => "empty room",
        ways::SHORT_ROOM => "room short",
        ways::LONG_ROOM => "room long",
        ways::CUT => "put cut at",
        ways::OVER => "bytes over",
        ways::FIRST_HEAD => "first head",
        ways::MIDDLE_HEAD => "middle head",
        ways::LAST_HEAD => "last head",
        ways::BOTH => "and the room",
        editions::FIRST => "edition 1",
        editions::SECOND => "edition 2",
        editions::ALONE => "edition only",
        editions::WRONG => "no edition",
        editions::ASKED => "asked bytes",
        editions::LOW => "low bytes",
        shrink_ways::CAME_DOWN => "came down",
        shrink_ways::WENT_UP => "went up",
        shrink_ways::STEP => "page of step",
        shrink_ways::FILLED => "records",
        shrink_ways::FIRST_SIZE => "at n0 x N",
        shrink_ways::ROW => "row lent",
        log_ways::SHORT_FORMAT => "format of 12",
        log_ways::LONG_FIRST => "of 14 with 1",
        log_ways::LONG_SECOND => "of 14 with 2",
        log_ways::LONG_OTHER => "with another",
        log_ways::WRONG_LENGTH => "wrong length",
        log_ways::CUT_FORMAT => "of 14 cut at",
        log_ways::SHRINK_LENGTH => "shrink of",
        of_two => comparison_ways::name(of_two),
    }
}

impl Table {
    pub fn count(&mut self, kind: u16, refusal: u16) {
        *self.counts.entry((kind, refusal)).or_default() += 1;
    }

    pub fn count_due(&mut self, kind: u16, due: bool) {
        if kind == 256 {
            self.due[usize::from(due)] += 1;
        }
    }

    /// Notes how far a call reached.
    pub fn note(&mut self, read: u32, moved: u32) {
        self.most_read = self.most_read.max(read);
        self.most_moved = self.most_moved.max(moved);
    }

    pub fn add(&mut self, other: &Table) {
        for (&pair, &count) in &other.counts {
            *self.counts.entry(pair).or_default() += count;
        }
        self.due = [self.due[0] + other.due[0], self.due[1] + other.due[1]];
        self.note(other.most_read, other.most_moved);
    }

    /// The possible pairs that never came.
    pub fn missing(&self, pairs: &[(u16, &[u16])]) -> Vec<Pair> {
        let all = pairs
            .iter()
            .flat_map(|(kind, refusals)| refusals.iter().map(move |&refusal| (*kind, refusal)));
        all.filter(|pair| !self.counts.contains_key(pair)).collect()
    }

    /// Pairs that came though the rules don't make them possible.
    pub fn beyond(&self, pairs: &[(u16, &[u16])]) -> Vec<Pair> {
        let possible = |&(kind, refusal): &Pair| {
            let mut known = pairs.iter();
            known.any(|(known, refusals)| *known == kind && refusals.contains(&refusal))
        };
        self.counts
            .keys()
            .copied()
            .filter(|pair| !possible(pair))
            .collect()
    }
}

impl fmt::Display for Table {
    fn fmt(&self, out: &mut fmt::Formatter) -> fmt::Result {
        let mut last = None;
        for (&(kind, refusal), count) in &self.counts {
            if last != Some(kind) {
                write!(
                    out,
                    "{}{:12}",
                    if last.is_some() { "\n" } else { "" },
                    name(kind)
                )?;
                last = Some(kind);
            }
            write!(out, "  {refusal}: {count}")?;
        }
        if self.due != [0, 0] {
            write!(
                out,
                "\ndue answered no {} times and yes {} times",
                self.due[0], self.due[1]
            )?;
        }
        let (read, moved) = (self.most_read, self.most_moved);
        write!(
            out,
            "\nmost pages read in a call: {read}; most records moved: {moved}"
        )
    }
}

#[cfg(test)]
mod tests {
    use super::*;

    /// A 7 is waited for from a growth. From a shrink it isn't, and where one
    /// comes it is told like any other answer that a shrink doesn't have.
    #[test]
    fn no_shrink_finds_no_room() {
        let mut table = Table::default();
        for pairs in [raw_pairs(), log_pairs()] {
            let missing = table.missing(&pairs);
            assert!(missing.contains(&(261, 7)) && missing.contains(&(263, 14)));
            assert!(!missing.contains(&(263, 7)));
        }
        for (kind, refusal) in [(261, 7), (263, 7), (263, 8), (263, 14)] {
            table.count(kind, refusal);
        }
        for pairs in [raw_pairs(), log_pairs()] {
            assert_eq!(table.beyond(&pairs), [(263, 7), (263, 8)]);
        }
    }
}
