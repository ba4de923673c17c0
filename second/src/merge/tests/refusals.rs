//! What a merge is refused with, and which of it is told.

use super::*;
use crate::answer::{BROKEN, NOT_THE_IMAGE, OUT_OF_RANGE, WRONG_AREA};
use crate::test_files::{broken, wrong, REFUSALS};

const ANY: [u16; 5] = [0, OUT_OF_RANGE, WRONG_AREA, BROKEN, NOT_THE_IMAGE];

/// Refusal, page, value, pages read and file of a merge that is refused, once
/// the living file and the row were seen to be kept.
fn refused(living: &Trial, other: &Trial, row_length: usize) -> (u16, u16, u64, u32, u16) {
    let mut after = copy(living);
    let (merged, row) = merged(&mut after, other, row_length);
    assert!(after.area == living.area && after.state == living.state);
    assert!(row.iter().all(|&count| count == UNTOUCHED));
    let Answer {
        refusal,
        page,
        value,
        read,
        moved,
        ..
    } = merged.answer;
    assert!(refusal != 0 && moved == 0);
    (refusal, page, value, read, merged.file)
}

/// The living file has two pages and the other three; they clash in key 5.
/// Whatever is wrong with the row or the other file, the living one's state and
/// length are told.
#[test]
fn state_and_area_of_the_living_file_come_first() {
    for refusal in [OUT_OF_RANGE, WRONG_AREA] {
        for other in ANY {
            for row in [0, 1, 2, 3] {
                let told = refused(&wrong(2, 9, refusal), &wrong(3, 8, other), row);
                assert_eq!(told, (refusal, 0, 0, 0, 1), "{other} and {row}");
            }
        }
    }
}

/// A row that is too short or too long is told before any page is judged.
#[test]
fn the_row_comes_before_the_pages() {
    for living in [0, BROKEN, NOT_THE_IMAGE] {
        for other in ANY {
            for row in [0, 1, 3, 5, 100] {
                let told = refused(&wrong(2, 9, living), &wrong(3, 8, other), row);
                assert_eq!(told, (WRONG_ROW, 0, 0, 0, 1), "{living}, {other} and {row}");
            }
        }
    }
}

#[test]
fn the_pages_of_the_living_file_come_before_the_other() {
    for other in ANY {
        let of = |living| refused(&wrong(2, 9, living), &wrong(3, 8, other), 2);
        assert_eq!(of(BROKEN), (BROKEN, 1, 0, 2, 1));
        assert_eq!(of(NOT_THE_IMAGE), (NOT_THE_IMAGE, 0, 0, 2, 1));
    }
}

/// Behind a right living file the pages of both are counted, but where none of
/// the other was judged.
#[test]
fn the_other_file_comes_before_the_clash() {
    let expected = [
        (OUT_OF_RANGE, 0, 0, 0, 2),
        (WRONG_AREA, 0, 0, 0, 2),
        (BROKEN, 2, 0, 5, 2),
        (NOT_THE_IMAGE, 0, 0, 5, 2),
    ];
    for (refusal, expected) in REFUSALS.into_iter().zip(expected) {
        let told = refused(&wrong(2, 9, 0), &wrong(3, 8, refusal), 2);
        assert_eq!(told, expected);
    }
    let told = refused(&wrong(2, 9, 0), &wrong(3, 8, 0), 2);
    assert_eq!(told, (CLASH, 0, 5, 5, 0));
}

/// The lowest broken page is told, and no page behind it is judged.
#[test]
fn the_lowest_broken_page_of_either_file() {
    for low in 0..4 {
        let one = broken(5, &[low, 4]);
        let (page, read) = (low as u16, low as u32 + 1);
        let told = refused(&one, &broken(6, &[0]), 5);
        assert_eq!(told, (BROKEN, page, 0, read, 1));
        let told = refused(&broken(6, &[]), &one, 6);
        assert_eq!(told, (BROKEN, page, 0, 6 + read, 2));
    }
}

/// No file at all is out of range, whichever of the two it is.
#[test]
fn no_file_at_all() {
    let none = Trial {
        state: State::default(),
        area: Vec::new(),
    };
    let file = wrong(2, 9, 0);
    assert_eq!(refused(&none, &file, 0), (OUT_OF_RANGE, 0, 0, 0, 1));
    assert_eq!(refused(&file, &none, 2), (OUT_OF_RANGE, 0, 0, 0, 2));
    assert_eq!(refused(&none, &none, 2), (OUT_OF_RANGE, 0, 0, 0, 1));
}

/// Of several clashes the lowest is told, as an unsigned number: neither the
/// one that either file keeps first nor the one with the lowest low bytes.
#[test]
fn the_lowest_clash_is_told() {
    let keys = [TOP + 1, 256, 1 << 32, TOP, u64::MAX, 1];
    let of = |keys: &[u64], value: u64| -> Vec<(u64, u64)> {
        keys.iter().map(|&key| (key, value)).collect()
    };
    let mut left = keys.to_vec();
    left.sort_unstable();
    while let Some(&lowest) = left.first() {
        // The key below has the same value in both, and the one above it is in
        // one file alone.
        let apart: [&[(u64, u64)]; 2] = [&[(0, 5), (3, 4)], &[(0, 5), (2, 4)]];
        let one = grown([2, 3, 2], 6, 1, 0, &[apart[0], &of(&left, 7)].concat());
        let two = grown([1, 4, 1], 9, 2, 5, &[apart[1], &of(&left, 8)].concat());
        assert_eq!(refused(&one, &two, 6), (CLASH, 0, lowest, 15, 0));
        assert_eq!(refused(&two, &one, 9), (CLASH, 0, lowest, 15, 0));
        left.remove(0);
    }
}

/// Key 0 may clash like any other, and is told as a value of 0.
#[test]
fn key_nought_may_clash() {
    let (one, two) = (holding(1, &[(0, 0)]), holding(1, &[(0, 1), (1, 1)]));
    assert_eq!(refused(&one, &two, 1), (CLASH, 0, 0, 2, 0));
    assert_eq!(refused(&two, &one, 1), (CLASH, 0, 0, 2, 0));
}

/// A clash comes before want of room.
#[test]
fn a_clash_in_a_full_file() {
    let full = holding(1, &tenfold(0..12));
    let other = holding(2, &[(12, 0), (11, 1), (13, 0)]);
    assert_eq!(refused(&full, &other, 1), (CLASH, 0, 11, 3, 0));
}

/// Refusal and row of a merge that finds no room, once nothing else was seen
/// to change.
fn no_room(living: &Trial, other: &Trial) -> Vec<u32> {
    let mut after = copy(living);
    let cap = usize::from(living.state.cap);
    let (merged, row) = merged(&mut after, other, cap);
    let read = cap + usize::from(other.state.cap);
    assert_eq!(merged, Answer::refused(living.state, NO_ROOM, read).into());
    assert!(after.area == living.area);
    row
}

/// One record too many, wherever the thirteenth comes from; the row counts it.
#[test]
fn no_room_in_a_full_file() {
    for in_living in 1..=12 {
        let living = holding(1, &tenfold(0..in_living));
        let other = holding(2, &tenfold(0..13));
        assert_eq!(no_room(&living, &other), [13]);
        let without = holding(2, &tenfold(0..12));
        assert_eq!(accepted(&living, &without).1, [12]);
    }
    let (empty, more) = (holding(2, &[]), holding(4, &tenfold(0..25)));
    assert_eq!(no_room(&empty, &more), [25, 0]);
}

/// Grown to two pages, keys 0 to 12 all live on the second one, which has no
/// place for a thirteenth though the first is empty.
#[test]
fn no_room_though_a_page_is_empty() {
    let living = grown([1, 1, 1], 2, 1, 1, &tenfold(0..6));
    assert_eq!(accepted(&living, &holding(2, &tenfold(6..12))).1, [0, 12]);
    let other = holding(2, &tenfold(6..13));
    assert_eq!(no_room(&living, &other), [0, 13]);
    // The other file, not grown, has room for all of them.
    let (after, row) = accepted(&other, &living);
    assert_eq!((after.keys_on(0).len(), after.keys_on(1).len()), (12, 1));
    assert_eq!(row, [13, 0]);
}
