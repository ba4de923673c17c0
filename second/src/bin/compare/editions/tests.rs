use super::*;
use crate::cases::{asking_for, scene};
use crate::random::Random;
use crate::session::command;
use crate::sink::Sink;
use crate::table::CALL_PAIRS;
use crate::ENOUGH_CALLS;
use std::collections::BTreeMap;

/// Two pages grown to, with 24 records told: key 0 lives on page 1 in both
/// editions, key 1 on page 1 in the first and on page 0 in the second.
fn state(edition: u16) -> State {
    State {
        n0: 1,
        groups: 1,
        sweeps: 1,
        pages: 2,
        cap: 2,
        edition,
        records: 24,
    }
}

fn case(kind: u16, edition: u16, key: u64) -> Case {
    Case {
        kind,
        state: state(edition),
        a: key,
        ..Case::default()
    }
}

#[test]
fn accepted_calls_count_where_the_edition_does() {
    for (edition, row) in [(1, FIRST), (2, SECOND)] {
        for kind in [258, 259, 260] {
            assert_eq!(pairs(&case(kind, edition, 1), 0), [(row, kind)]);
            assert_eq!(pairs(&case(kind, edition, 0), 0), []);
            assert_eq!(pairs(&case(kind, edition, 1), 4), []);
        }
        assert_eq!(pairs(&case(256, edition, 0), 0), [(row, 256)]);
        assert_eq!(pairs(&case(257, edition, 0), 0), [(row, 257)]);
        for kind in [261, 262, 263] {
            let holding = |key| Case {
                area: second::image::page_bytes(0, &[second::page::Record { key, value: 7 }]),
                ..case(kind, edition, 0)
            };
            assert_eq!(pairs(&holding(1), 0), [(row, kind)]);
            assert_eq!(pairs(&holding(0), 0), []);
        }
    }
}

/// A run of keys 0 and 1 whose items got these refusals.
fn run_of_two(edition: u16, refusals: [u8; 2]) -> Case {
    let mut room = vec![0; 56];
    (room[4], room[28 + 4]) = (refusals[0], refusals[1]);
    Case {
        second: [command(258, &[0, 5]), command(258, &[1, 5])].concat(),
        room,
        ..case(RUN_KIND, edition, 0)
    }
}

#[test]
fn a_run_counts_by_its_items() {
    assert_eq!(pairs(&run_of_two(1, [0, 0]), 0), [(FIRST, RUN_KIND)]);
    assert_eq!(pairs(&run_of_two(2, [7, 0]), 0), [(SECOND, RUN_KIND)]);
    assert_eq!(pairs(&run_of_two(2, [0, 7]), 0), []);
    let wrong = [(ALONE, RUN_KIND), (WRONG, 3)];
    assert_eq!(pairs(&run_of_two(3, [1, 1]), 0), wrong);
    assert_eq!(pairs(&run_of_two(3, [0, 0]), 10), []);
    let empty = Case {
        room: Vec::new(),
        ..case(RUN_KIND, 3, 0)
    };
    assert_eq!(pairs(&empty, 0), []);
}

#[test]
fn a_wrong_edition_is_told_where_it_is_alone() {
    for kind in [258, 259, 260, 261, 262, 263] {
        let wrong = [(ALONE, kind), (WRONG, 65535)];
        assert_eq!(pairs(&case(kind, 65535, 1), 1), wrong);
        assert_eq!(pairs(&case(kind, 9, 1), 1), [(ALONE, kind)]);
        let mut too_many = case(kind, 9, 1);
        too_many.state.records = 25;
        assert_eq!(pairs(&too_many, 1), []);
    }
    assert_eq!(pairs(&case(256, 0, 0), 0), [(ALONE, 256), (WRONG, 0)]);
    let mut not_due = case(256, 0, 0);
    not_due.state.records = 1;
    assert_eq!(pairs(&not_due, 0), []);
}

#[test]
fn a_wrongly_asked_edition_is_told_by_its_bytes() {
    let asked = |edition: u64| {
        let (a, _) = asking_for(state(1));
        let format = Case {
            b: edition,
            ..case(257, 3, a)
        };
        let pairs = pairs(&format, 1);
        assert!(pairs.is_empty() || pairs[0] == (ALONE, 257));
        pairs.into_iter().skip(1).collect::<Vec<Pair>>()
    };
    assert_eq!(asked(0), [(ASKED, 0)]);
    assert_eq!(asked(3), [(ASKED, 1)]);
    assert_eq!(asked(257), [(ASKED, 2), (LOW, 1)]);
    assert_eq!(asked(65537), [(ASKED, 3), (LOW, 1), (LOW, 2)]);
    let low = [(ASKED, 5), (LOW, 1), (LOW, 2), (LOW, 4)];
    assert_eq!(asked(1 << 32 | 2), low);
    assert_eq!(asked(u64::MAX), [(ASKED, 8)]);
    assert_eq!(asked(2), []);
    let format = Case {
        b: 3,
        ..case(257, 1, 0)
    };
    assert_eq!(pairs(&format, 1), []);
}

/// Each call gets each of its refusals in both editions, and about as many
/// calls are made in the one as in the other.
#[test]
fn all_that_can_come_comes_in_both_editions() {
    let mut sink = Sink::new(7, ENOUGH_CALLS);
    let mut piece = 0;
    let mut seen: BTreeMap<(u16, u16, u16), u64> = BTreeMap::new();
    while !sink.full() {
        let made = scene(&mut Random::new(7, piece), &mut sink);
        assert_eq!(made, Ok(()));
        piece += 1;
        for asked in sink.asked.drain(..) {
            let case = Case::parse(&asked.record).expect("a record");
            let told = (case.state.edition, case.kind, two(&asked.reply, 6));
            *seen.entry(told).or_default() += 1;
        }
    }
    let calls = |edition: u16| -> u64 {
        let of_edition = seen.iter().filter(|(told, _)| told.0 == edition);
        of_edition.map(|(_, count)| count).sum()
    };
    let share = 100 * calls(1) / (calls(1) + calls(2));
    assert!((40..=60).contains(&share), "{share} of a hundred");
    for (kind, refusals) in CALL_PAIRS {
        for &refusal in refusals {
            for edition in EDITIONS {
                assert!(
                    seen.contains_key(&(edition, kind, refusal)),
                    "{edition}: {kind} with {refusal}"
                );
            }
        }
    }
}
