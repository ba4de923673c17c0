use super::*;
use crate::answer::{BROKEN, CLASH, NOT_THE_IMAGE, NO_ROOM, OUT_OF_RANGE, REPEAT, WRONG_AREA};
use crate::bytes::{eight, four, two};
use crate::commands::hex;
use crate::trial::Trial;

mod one_by_one;

/// What the room holds before a run, so that bytes not written show.
const UNTOUCHED: u8 = 0xa7;

/// The records of a run, from keys and values.
fn records(items: &[(u64, u64)]) -> Vec<u8> {
    let record = |&(key, value): &(u64, u64)| {
        let numbers = [key.to_le_bytes(), value.to_le_bytes()].concat();
        [hex("1400 0201"), numbers].concat()
    };
    items.iter().flat_map(record).collect()
}

/// Makes a run with a room that fits, and gives the replies once the run's
/// own answer was seen to say nothing but that it was accepted.
fn replies(file: &mut Trial, items: &[(u64, u64)]) -> Vec<u8> {
    let mut room = vec![UNTOUCHED; 28 * items.len()];
    let answer = pay_run(file.state, &mut file.area, &records(items), &mut room).expect("agrees");
    assert_eq!(answer, Answer::accepted(answer.state, 0));
    file.state = answer.state;
    room
}

/// Refusal, page, value, pages read, moved, P and due of each reply.
fn told(replies: &[u8]) -> Vec<(u16, u16, u64, u32, u32, u16, u16)> {
    let one = |reply: &[u8]| {
        assert_eq!(reply[..4], hex("1C00 0102"));
        let (refusal, page, value) = (two(reply, 4), two(reply, 6), eight(reply, 8));
        let (read, moved) = (four(reply, 16), four(reply, 20));
        (
            refusal,
            page,
            value,
            read,
            moved,
            two(reply, 24),
            two(reply, 26),
        )
    };
    replies.chunks(28).map(one).collect()
}

#[test]
fn replies_and_pages_byte_by_byte() {
    let mut file = Trial::of_ones(2).expect("agrees");
    let room = replies(&mut file, &[(5, 9), (5, 9), (5, 8), (3, 1)]);
    let expected = "1C00 0102 0000 0000 0000000000000000 01000000 00000000 0100 0000
        1C00 0102 0600 0000 0900000000000000 01000000 00000000 0100 0000
        1C00 0102 0D00 0000 0900000000000000 01000000 00000000 0100 0000
        1C00 0102 0000 0000 0000000000000000 01000000 00000000 0100 0000";
    assert_eq!(room, hex(expected));
    let used = "0001 1100 00000000 0200 000000000000
        1400 0100 0300000000000000 0100000000000000
        1400 0100 0500000000000000 0900000000000000";
    let unused = "0001 1100 01000000 0000 000000000000";
    let empty = "1400 0000 0000000000000000 0000000000000000";
    let pages = format!("{used}{}{unused}{}", empty.repeat(10), empty.repeat(12));
    assert_eq!(file.area, hex(&pages));
    assert_eq!(file.state.records, 2);
}

/// One page has room for twelve; 5r passes 48 at the tenth.
#[test]
fn a_refused_item_stops_none_after_it() {
    let mut file = Trial::of_ones(1).expect("agrees");
    let mut items: Vec<(u64, u64)> = (0..13).map(|key| (key, 100 + key)).collect();
    items.extend([(5, 105), (5, 106), (13, 1), (11, 111)]);
    let mut expected: Vec<_> = (0..12)
        .map(|at| (0, 0, 0, 1, 0, 1, u16::from(at >= 9)))
        .collect();
    expected.extend([
        (NO_ROOM, 0, 0, 1, 0, 1, 1),
        (REPEAT, 0, 105, 1, 0, 1, 1),
        (CLASH, 0, 105, 1, 0, 1, 1),
        (NO_ROOM, 0, 0, 1, 0, 1, 1),
        (REPEAT, 0, 111, 1, 0, 1, 1),
    ]);
    assert_eq!(told(&replies(&mut file, &items)), expected);
    assert_eq!(file.state.records, 12);
}

/// Twelve keys downward fill page 0; the next lower one sends key 12 up, and
/// key 13 then stands behind it.
#[test]
fn every_item_meets_what_those_before_it_left() {
    let mut file = Trial::of_ones(2).expect("agrees");
    let items: Vec<(u64, u64)> = (0..13).rev().chain(13..15).map(|key| (key, 7)).collect();
    let told = told(&replies(&mut file, &items));
    let walked: Vec<_> = told.iter().map(|one| (one.0, one.3, one.4)).collect();
    assert_eq!(walked[..12], [(0, 1, 0); 12]);
    assert_eq!(walked[12..], [(0, 2, 1), (0, 2, 0), (0, 2, 0)]);
    assert_eq!(file.keys_on(1), [12, 13, 14]);
}

#[test]
fn a_bad_state_and_a_wrong_area_show_in_each_item() {
    let items = [(0, 0), (u64::MAX, 1)];
    let mut none = Trial {
        state: State::default(),
        area: Vec::new(),
    };
    let refused = (OUT_OF_RANGE, 0, 0, 0, 0, 0, 0);
    assert_eq!(told(&replies(&mut none, &items)), [refused; 2]);
    let mut of_none = Trial::of_ones(3).expect("agrees");
    (of_none.state.edition, of_none.state.records) = (3, 30);
    let refused = (OUT_OF_RANGE, 0, 0, 0, 0, 1, 0);
    assert_eq!(told(&replies(&mut of_none, &items)), [refused; 2]);
    let mut short = Trial::of_ones(3).expect("agrees");
    short.state.pages = 2;
    short.area.pop();
    let before = short.area.clone();
    let refused = (WRONG_AREA, 0, 0, 0, 0, 2, 0);
    assert_eq!(told(&replies(&mut short, &items)), [refused; 2]);
    assert_eq!((short.area, short.state.records), (before, 0));
}

/// Page 0 is full of even keys and page 1 broken: what comes to page 1 is
/// refused, and what doesn't is answered.
#[test]
fn a_broken_page_refuses_only_those_who_meet_it() {
    let mut file = Trial::of_ones(2).expect("agrees");
    let even: Vec<(u64, u64)> = (0..12).map(|half| (2 * half, half)).collect();
    replies(&mut file, &even);
    file.area[256 + 10] = 1;
    let before = file.area.clone();
    let broken = (BROKEN, 1, 0, 2, 0, 1, 1);
    assert_eq!(
        told(&replies(&mut file, &[(24, 0), (6, 3), (5, 0), (6, 4)])),
        [
            broken,
            (REPEAT, 0, 3, 1, 0, 1, 1),
            broken,
            (CLASH, 0, 3, 1, 0, 1, 1)
        ]
    );
    assert_eq!((file.area, file.state.records), (before, 12));
}

/// r says eleven of twelve though the page is empty: one put more is counted.
#[test]
fn nine_comes_once_the_count_has_no_more_room() {
    let mut file = Trial::of_ones(1).expect("agrees");
    file.state.records = 11;
    let told = told(&replies(&mut file, &[(4, 40), (3, 30), (4, 40), (4, 41)]));
    let refusals: Vec<u16> = told.iter().map(|one| one.0).collect();
    assert_eq!(refusals, [0, NOT_THE_IMAGE, REPEAT, CLASH]);
    assert_eq!((file.state.records, file.keys_on(0)), (12, vec![4]));
}

/// The refusal of a run that is refused as a whole, once nothing was seen to
/// change by it.
fn refused(bytes: &[u8], room_length: usize) -> u16 {
    let mut file = Trial::of_ones(2).expect("agrees");
    file.put_up_to(4).expect("agrees");
    let (mut area, mut room) = (file.area.clone(), vec![UNTOUCHED; room_length]);
    let answer = pay_run(file.state, &mut area, bytes, &mut room).expect("agrees");
    assert_eq!(answer, Answer::refused(file.state, answer.refusal, 0));
    assert!(area == file.area && room.iter().all(|&byte| byte == UNTOUCHED));
    answer.refusal
}

const THREE: [(u64, u64); 3] = [(7, 70), (0, 0), (1, 11)];

#[test]
fn every_byte_of_every_head_counts() {
    for head in [0, 20, 40] {
        for at in head..head + 4 {
            for change in 1..=255 {
                let mut bytes = records(&THREE);
                bytes[at] ^= change;
                assert_eq!(refused(&bytes, 84), 10, "byte {at}, {change}");
            }
        }
    }
    for other in [
        "0C00 0101",
        "0C00 0301",
        "0400 0601",
        "0400 0701",
        "1C00 0102",
    ] {
        let bytes = [records(&THREE[..2]), hex(other), vec![0; 16]].concat();
        assert_eq!(refused(&bytes, 84), 10, "{other}");
    }
}

#[test]
fn bytes_that_are_no_whole_record() {
    let whole = records(&THREE);
    for cut in (0..60).filter(|cut| cut % 20 != 0) {
        for room in [0, 28 * (cut / 20), 28 * (cut / 20 + 1), 84] {
            assert_eq!(refused(&whole[..cut], room), 10, "{cut} bytes, room {room}");
        }
    }
    for more in 1..20 {
        for byte in [0, 20, UNTOUCHED] {
            let bytes = [&whole[..], &vec![byte; more]].concat();
            assert_eq!(refused(&bytes, 84), 10, "{more} more");
        }
    }
}

#[test]
fn a_room_of_any_other_length() {
    for items in 0..4 {
        let bytes = records(&THREE[..items]);
        for room in (0..140).filter(|room| *room != 28 * items) {
            assert_eq!(refused(&bytes, room), 15, "{items} items, room {room}");
        }
    }
    let mut bytes = records(&THREE);
    bytes[42] ^= 1;
    for room in [0, 83, 84, 85] {
        assert_eq!(refused(&bytes, room), 10, "room {room}");
    }
}

#[test]
fn an_empty_run_is_accepted_whatever_the_file() {
    for (cap, area) in [(0, 0), (2, 512), (2, 511)] {
        let mut file = Trial {
            state: State {
                cap,
                ..State::default()
            },
            area: vec![UNTOUCHED; area],
        };
        let (state, before) = (file.state, file.area.clone());
        assert_eq!(replies(&mut file, &[]), []);
        assert!(file.state == state && file.area == before);
    }
}
