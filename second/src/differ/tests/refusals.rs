//! What is wrong with either file, and which of it is told.

use super::*;
use crate::test_files::{self, broken, REFUSALS};

/// The record of every file has the same value, so that right ones don't differ.
fn wrong(cap: u16, refusal: u16) -> Trial {
    test_files::wrong(cap, 9, refusal)
}

/// Refusal, page, pages read and file of a comparison that is refused, once
/// nothing else was seen to be told and the room to be kept.
fn refused(first: &Trial, second: &Trial, room_length: usize) -> (u16, u16, u32, u16) {
    let (compared, room) = compared(first, second, room_length);
    let Answer {
        refusal,
        page,
        read,
        ..
    } = compared.answer;
    let told = Answer {
        page,
        ..Answer::refused(first.state, refusal, read as usize)
    };
    assert_eq!((compared.answer, compared.taken), (told, 0));
    assert_eq!(room, vec![UNTOUCHED; room_length]);
    (refusal, page, read, compared.file)
}

/// The first file has two pages and the second three. Whatever is wrong with
/// the second or the room, the first is told.
#[test]
fn the_first_file_comes_first() {
    let expected = [
        (OUT_OF_RANGE, 0, 0, 1),
        (WRONG_AREA, 0, 0, 1),
        (BROKEN, 1, 2, 1),
        (NOT_THE_IMAGE, 0, 2, 1),
    ];
    for (refusal, expected) in REFUSALS.into_iter().zip(expected) {
        for other in [&REFUSALS[..], &[0]].concat() {
            for room in [0, 15, 16, 200] {
                let told = refused(&wrong(2, refusal), &wrong(3, other), room);
                assert_eq!(told, expected, "then {other}, room {room}");
            }
        }
    }
}

/// Behind a right first file: pages of both are counted where pages were
/// judged, and the room isn't looked at.
#[test]
fn the_second_file_comes_before_the_room() {
    let expected = [
        (OUT_OF_RANGE, 0, 0, 2),
        (WRONG_AREA, 0, 0, 2),
        (BROKEN, 2, 5, 2),
        (NOT_THE_IMAGE, 0, 5, 2),
    ];
    for (refusal, expected) in REFUSALS.into_iter().zip(expected) {
        for room in [0, 15, 16, 200] {
            let told = refused(&wrong(2, 0), &wrong(3, refusal), room);
            assert_eq!(told, expected, "room {room}");
        }
    }
    let (first, second) = (wrong(2, 0), wrong(3, 0));
    assert_eq!(refused(&first, &second, 15), (WRONG_ROOM, 0, 5, 0));
}

/// The lowest broken page is told, and no page behind it is judged.
#[test]
fn the_lowest_broken_page_of_either_file() {
    for low in 0..4 {
        let one = broken(5, &[low, 4]);
        let told = (BROKEN, low as u16, low as u32 + 1, 1);
        assert_eq!(refused(&one, &broken(6, &[0]), 0), told);
        assert_eq!(refused(&one, &wrong(6, 0), 99), told);
        let told = (BROKEN, low as u16, 6 + low as u32 + 1, 2);
        assert_eq!(refused(&wrong(6, 0), &one, 99), told);
    }
}

/// Each file is judged by its own numbers: of the cap, the edition and the
/// size that the other has nothing may be taken over.
#[test]
fn each_file_is_judged_by_its_own_numbers() {
    let keys: Vec<(u64, u64)> = (0..12).map(|key| (key, key)).collect();
    let one = grown([1, 1, 1], 2, 1, 1, &keys);
    let two = grown([1, 1, 1], 2, 2, 1, &keys);
    assert_eq!(list(&one, &two), hex(NOTHING));
    let exchanged = |state_of: &Trial, area_of: &Trial| Trial {
        state: state_of.state,
        area: area_of.area.clone(),
    };
    // At two pages all twelve live on page 1 in edition 1, so that none may lie
    // on page 0. In edition 2 key 1 lives on page 0, and on page 1 it may not
    // stand behind key 0, which lives there.
    assert_eq!(refused(&one, &exchanged(&one, &two), 99), (BROKEN, 0, 3, 2));
    let told = refused(&two, &exchanged(&two, &one), 99);
    assert_eq!(told, (BROKEN, 1, 4, 2));
    let (small, large) = (wrong(2, 0), wrong(3, 0));
    assert_eq!(list(&small, &large), hex(NOTHING));
    let told = refused(&small, &exchanged(&large, &small), 99);
    assert_eq!(told, (WRONG_AREA, 0, 0, 2));
    let told = refused(&exchanged(&large, &small), &small, 99);
    assert_eq!(told, (WRONG_AREA, 0, 0, 1));
}

/// A state that is out of range is told before its area, which may be empty,
/// and no file at all is out of range.
#[test]
fn no_file_at_all() {
    let none = || Trial {
        state: State::default(),
        area: Vec::new(),
    };
    let file = wrong(2, 0);
    assert_eq!(refused(&none(), &file, 99), (OUT_OF_RANGE, 0, 0, 1));
    assert_eq!(refused(&file, &none(), 99), (OUT_OF_RANGE, 0, 0, 2));
    assert_eq!(refused(&none(), &none(), 0), (OUT_OF_RANGE, 0, 0, 1));
    let no_area = Trial {
        area: Vec::new(),
        ..wrong(2, 0)
    };
    assert_eq!(refused(&file, &no_area, 99), (WRONG_AREA, 0, 0, 2));
}
