use super::*;
use crate::calls::Call;
use crate::test_files::{copy, grown, holding, site};
use crate::trial::Trial;

mod refusals;
mod set_by_set;

/// What a row holds before a merge, so that counts not written show.
const UNTOUCHED: u32 = 0xa7a7_a7a7;

const TOP: u64 = 1 << 63;

/// These keys, each with its tenfold.
fn tenfold(keys: impl IntoIterator<Item = u64>) -> Vec<(u64, u64)> {
    let pair = |key: u64| (key, key.wrapping_mul(10));
    keys.into_iter().map(pair).collect()
}

/// Merges and gives the answer and the row; the living file is left as the
/// merge leaves it.
fn merged(living: &mut Trial, other: &Trial, row_length: usize) -> (Merged, Vec<u32>) {
    let mut row = vec![UNTOUCHED; row_length];
    let state = living.state;
    let merged =
        witness::witnessed(state, &mut living.area, site(other), &mut row).expect("agrees");
    living.state = merged.answer.state;
    (merged, row)
}

/// An accepted merge: what the living file becomes and its row, once all else
/// that the answer tells was seen to be right.
fn accepted(living: &Trial, other: &Trial) -> (Trial, Vec<u32>) {
    let mut after = copy(living);
    let cap = usize::from(living.state.cap);
    let (merged, row) = merged(&mut after, other, cap);
    let state = State {
        records: after.state.records,
        ..living.state
    };
    let read = cap + usize::from(other.state.cap);
    assert_eq!(merged, Answer::accepted(state, read).into());
    (after, row)
}

/// The records of a file, by key.
fn held(file: &Trial) -> Vec<(u64, u64)> {
    let standing = crate::image::standing(&file.area).into_iter();
    let mut held: Vec<(u64, u64)> = standing
        .map(|(_, record)| (record.key, record.value))
        .collect();
    held.sort_unstable();
    held
}

/// The rules' own figure: grown to two pages, keys 0 to 11 all live on page 1.
#[test]
fn both_sets_make_one_image() {
    let living = grown([1, 1, 1], 2, 1, 1, &tenfold([0, 2, 4, 6, 8, 10]));
    let other = holding(1, &tenfold([1, 3, 5, 7, 9, 11]));
    let (after, row) = accepted(&living, &other);
    assert_eq!(
        (after.keys_on(0), after.keys_on(1)),
        (vec![], (0..12).collect())
    );
    assert_eq!((row, after.state.records), (vec![0, 12], 12));
    // At one page they live on page 0, in either file.
    let living = holding(2, &tenfold([0, 2, 4, 6, 8, 10]));
    let (after, row) = accepted(&living, &other);
    assert_eq!(
        (after.keys_on(0), after.keys_on(1)),
        ((0..12).collect(), vec![])
    );
    assert_eq!(row, [12, 0]);
}

/// What is left is the file that has had all records put, whatever its numbers
/// and those of the other.
#[test]
fn the_living_file_keeps_its_numbers() {
    let (few, more) = (
        tenfold(0..20),
        tenfold((0..20).map(|key| 1_000_003 * key + 50)),
    );
    let of = |records: &[(u64, u64)]| {
        [
            grown([1, 1, 1], 4, 1, 0, records),
            grown([1, 1, 1], 12, 2, 5, records),
            grown([2, 3, 4], 20, 1, 0, records),
            grown([2, 3, 5], 20, 2, 9, records),
            grown([4, 4, 8], 64, 2, 40, records),
        ]
    };
    let all = of(&[&few[..], &more].concat());
    for (living, all) in of(&few).iter().zip(&all) {
        for other in &of(&more) {
            let (after, row) = accepted(living, other);
            assert!(after.area == all.area && after.state == all.state);
            assert_eq!(row.iter().sum::<u32>(), 40);
        }
    }
}

/// Twelve records fill the page; to merge any of them again asks for no room,
/// and the row counts each once.
#[test]
fn a_record_in_both_counts_once() {
    let full = holding(1, &tenfold(0..12));
    for keys in [vec![], vec![0], vec![3, 7, 11], (0..12).collect()] {
        let other = holding(3, &tenfold(keys));
        let (after, row) = accepted(&full, &other);
        assert!(after.area == full.area && after.state == full.state);
        assert_eq!(row, [12]);
    }
    let living = holding(2, &tenfold(0..15));
    let (after, row) = accepted(&living, &holding(2, &tenfold(5..24)));
    assert_eq!((after.state.records, row), (24, vec![24, 0]));
    assert_eq!(held(&after), tenfold(0..24));
}

#[test]
fn an_empty_file_changes_no_page() {
    let empty = [holding(1, &[]), grown([2, 3, 5], 20, 2, 9, &[])];
    for living in [holding(2, &[]), holding(2, &tenfold(0..24))] {
        for other in &empty {
            let (after, row) = accepted(&living, other);
            assert!(after.area == living.area && after.state == living.state);
            assert_eq!(row, [living.state.records, 0]);
        }
    }
    // The other way round all records are taken over.
    let (after, row) = accepted(&holding(2, &[]), &holding(5, &tenfold(0..24)));
    assert_eq!((held(&after), row), (tenfold(0..24), vec![24, 0]));
}

/// Whichever bit it is: another value clashes, and another key is another
/// record.
#[test]
fn every_bit_of_a_value_and_of_a_key_counts() {
    let one = holding(1, &[(7, 30)]);
    for bit in 0..64 {
        let mut living = copy(&one);
        let other = holding(1, &[(7, 30 ^ 1 << bit)]);
        let (told, row) = merged(&mut living, &other, 1);
        assert_eq!((told.answer.refusal, told.answer.value), (CLASH, 7));
        assert_eq!(row, [UNTOUCHED]);
        let key = 7 ^ 1 << bit;
        let (after, _) = accepted(&one, &holding(1, &[(key, 30)]));
        let mut both = vec![(7, 30), (key, 30)];
        both.sort_unstable();
        assert_eq!(held(&after), both);
    }
}

/// "After an accepted merge the records it added count as put": they are found,
/// said again, clashed with, moved up and down and taken out.
#[test]
fn calls_go_on_after_a_merge() {
    let living = holding(3, &tenfold(0..10));
    let (mut after, _) = accepted(&living, &holding(2, &tenfold(8..20)));
    let mut told = |call| {
        let answer = after.ask(call).expect("agrees");
        (answer.refusal, answer.value)
    };
    for key in 0..20 {
        let value = 10 * key;
        assert_eq!(told(Call::Find { key }), (0, value));
        assert_eq!(told(Call::Put { key, value }), (6, value));
        assert_eq!(told(Call::Put { key, value: 1 }), (CLASH, value));
    }
    for call in [Call::Grow, Call::Grow, Call::Shrink, Call::Check] {
        assert_eq!(told(call), (0, 0), "{call:?}");
    }
    for key in 0..20 {
        assert_eq!(told(Call::Remove { key }), (0, 0));
        assert_eq!(told(Call::Find { key }), (5, 0));
    }
    assert_eq!(after.state.records, 0);
}

/// A merge may make a growth due: at one page ten records are.
#[test]
fn due_is_that_of_both_sets() {
    let living = holding(2, &tenfold(0..5));
    assert!(!living.state.due());
    assert!(!accepted(&living, &holding(1, &tenfold(4..9))).0.state.due());
    assert!(accepted(&living, &holding(1, &tenfold(5..10)))
        .0
        .state
        .due());
}
