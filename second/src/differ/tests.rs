use super::*;
use crate::answer::{BROKEN, NOT_THE_IMAGE};
use crate::calls::Call;
use crate::commands::hex;
use crate::test_files::{copy, grown, holding, site};
use crate::trial::Trial;

mod refusals;
mod swapped;

/// What the room holds before a comparison, so that bytes not written show.
const UNTOUCHED: u8 = 0xa7;

/// The list of two files with the same records.
const NOTHING: &str = "1000 0403 00000000 00000000 00000000";

const TOP: u64 = 1 << 63;

/// Compares two files and gives the answer and the whole room.
fn compared(first: &Trial, second: &Trial, room_length: usize) -> (Compared, Vec<u8>) {
    let mut room = vec![UNTOUCHED; room_length];
    let compared = witness::witnessed(site(first), site(second), &mut room).expect("agrees");
    (compared, room)
}

/// The list of two files that pass their checks, once all else that an
/// accepted comparison tells was seen to be right.
fn list(first: &Trial, second: &Trial) -> Vec<u8> {
    let (compared, mut room) = compared(first, second, 20_000);
    let read = usize::from(first.state.cap) + usize::from(second.state.cap);
    assert_eq!(compared.answer, Answer::accepted(first.state, read));
    assert_eq!(compared.file, 0);
    room.truncate(compared.taken as usize);
    room
}

/// Two files that differ in all three ways, with keys at both ends.
fn two_files() -> (Trial, Trial) {
    let first = holding(2, &[(3, 4), (5, 6), (7, 8), (TOP, 1)]);
    let second = holding(3, &[(0, u64::MAX), (5, 6), (7, 9), (u64::MAX, 0)]);
    (first, second)
}

const THEIR_LIST: &str = "1400 0203 0000000000000000 FFFFFFFFFFFFFFFF
    1400 0103 0300000000000000 0400000000000000
    1C00 0303 0700000000000000 0800000000000000 0900000000000000
    1400 0103 0000000000000080 0100000000000000
    1400 0203 FFFFFFFFFFFFFFFF 0000000000000000
    1000 0403 02000000 02000000 01000000";

#[test]
fn a_list_byte_by_byte() {
    let (first, second) = two_files();
    assert_eq!(list(&first, &second), hex(THEIR_LIST));
    let other_way = "1400 0103 0000000000000000 FFFFFFFFFFFFFFFF
        1400 0203 0300000000000000 0400000000000000
        1C00 0303 0700000000000000 0900000000000000 0800000000000000
        1400 0203 0000000000000080 0100000000000000
        1400 0103 FFFFFFFFFFFFFFFF 0000000000000000
        1000 0403 02000000 02000000 01000000";
    assert_eq!(list(&second, &first), hex(other_way));
}

#[test]
fn each_kind_by_itself() {
    let none = holding(1, &[]);
    let one = holding(1, &[(0x0102_0304_0506_0708, 0x1112_1314_1516_1718)]);
    let other = holding(1, &[(0x0102_0304_0506_0708, 0)]);
    let record = "0807060504030201 1817161514131211";
    let closing = "1000 0403 01000000 00000000 00000000";
    let expected = format!("1400 0103 {record} {closing}");
    assert_eq!(list(&one, &none), hex(&expected));
    let closing = "1000 0403 00000000 01000000 00000000";
    let expected = format!("1400 0203 {record} {closing}");
    assert_eq!(list(&none, &one), hex(&expected));
    let closing = "1000 0403 00000000 00000000 01000000";
    let expected = format!("1C00 0303 {record} 0000000000000000 {closing}");
    assert_eq!(list(&one, &other), hex(&expected));
    for file in [&none, &one, &other] {
        assert_eq!(list(file, file), hex(NOTHING));
    }
}

/// Thirty records in files of all kinds: of either edition, at their first
/// size and grown, with few pages and many.
fn same_records() -> Vec<Trial> {
    let records: Vec<(u64, u64)> = (0..30).map(|key| (key * 1_000_003, key)).collect();
    vec![
        holding(3, &records),
        holding(4, &records),
        grown([1, 1, 1], 3, 2, 0, &records),
        grown([1, 1, 1], 12, 1, 5, &records),
        grown([1, 1, 1], 12, 2, 5, &records),
        grown([2, 3, 4], 20, 1, 0, &records),
        grown([2, 3, 5], 20, 2, 9, &records),
        grown([4, 4, 8], 64, 2, 40, &records),
    ]
}

#[test]
fn the_same_records_differ_nowhere() {
    let files = same_records();
    for first in &files {
        for second in &files {
            assert_eq!(list(first, second), hex(NOTHING));
        }
    }
    // They are other bytes all the same.
    let areas: BTreeSet<&[u8]> = files.iter().map(|file| &file.area[..]).collect();
    assert!(areas.len() >= 6, "{}", areas.len());
}

/// One record more, less or with another value shows alone, wherever the two
/// files keep it.
#[test]
fn one_difference_among_many_records() {
    // 14000043, which is D59FAB.
    let more = (14 * 1_000_003 + 1, 5);
    for mut second in same_records() {
        for first in same_records() {
            let (key, value) = more;
            second.ask(Call::Put { key, value }).expect("agrees");
            let expected = "1400 0203 AB9FD50000000000 0500000000000000
                1000 0403 00000000 01000000 00000000";
            assert_eq!(list(&first, &second), hex(expected));
            second.ask(Call::Remove { key }).expect("agrees");
        }
    }
}

/// With n0 and N 2 keys 4, 1, 2 and 3 lie on pages 0 to 3, in that order.
#[test]
fn the_order_of_the_pages_is_not_that_of_the_list() {
    let first = grown([2, 2, 1], 4, 1, 0, &[(1, 1), (2, 2), (3, 3), (4, 4)]);
    assert_eq!(
        [0, 1, 2, 3].map(|page| first.keys_on(page)[0]),
        [4, 1, 2, 3]
    );
    let only = |key: u8| format!("1400 0103 0{key}00000000000000 0{key}00000000000000");
    let expected: String = (1..=4).map(only).collect();
    let closing = "1000 0403 04000000 00000000 00000000";
    assert_eq!(list(&first, &holding(1, &[])), hex(&(expected + closing)));
}

/// Keys that are low as signed numbers, by their low bytes or by their first
/// byte stand where their whole size puts them.
#[test]
fn keys_rise_as_unsigned_numbers() {
    let keys = [1, 256, 1 << 32, TOP - 1, TOP, TOP + 1, u64::MAX];
    let records: Vec<(u64, u64)> = keys.iter().map(|&key| (key, 0)).collect();
    let list = list(&holding(1, &records), &holding(1, &[]));
    let listed: Vec<Vec<u8>> = list.chunks(20).map(|record| record.to_vec()).collect();
    let expected =
        keys.map(|key| [hex("1400 0103"), key.to_le_bytes().into(), vec![0; 8]].concat());
    assert_eq!(listed[..7], expected);
    assert_eq!(listed[7], hex("1000 0403 07000000 00000000 00000000"));
}

/// Whichever bit it is: another value is told with both, and another key is
/// another record.
#[test]
fn every_bit_of_a_value_and_of_a_key_counts() {
    let numbers = |numbers: &[u64]| -> Vec<u8> {
        numbers
            .iter()
            .flat_map(|number| number.to_le_bytes())
            .collect()
    };
    let one = holding(1, &[(7, 30)]);
    for bit in 0..64 {
        let (value, key) = (30 ^ 1 << bit, 7 ^ 1 << bit);
        let told = [hex("1C00 0303"), numbers(&[7, 30, value])].concat();
        let closing = hex("1000 0403 00000000 00000000 01000000");
        let expected = [told, closing].concat();
        assert_eq!(list(&one, &holding(1, &[(7, value)])), expected);
        let first = [hex("1400 0103"), numbers(&[7, 30])].concat();
        let second = [hex("1400 0203"), numbers(&[key, 30])].concat();
        let closing = hex("1000 0403 01000000 01000000 00000000");
        let told = if key < 7 {
            [second, first]
        } else {
            [first, second]
        };
        let expected = [told.concat(), closing].concat();
        assert_eq!(list(&one, &holding(1, &[(key, 30)])), expected);
    }
}

/// The count of a kind takes four bytes: 300 are 12C.
#[test]
fn counts_have_four_bytes() {
    let many: Vec<(u64, u64)> = (0..300).map(|key| (key, key)).collect();
    let list = list(&holding(25, &many), &holding(1, &[(299, 0), (300, 300)]));
    assert_eq!(list.len(), 299 * 20 + 28 + 20 + 16);
    let closing = "1C00 0303 2B01000000000000 2B01000000000000 0000000000000000
        1400 0203 2C01000000000000 2C01000000000000
        1000 0403 2B010000 01000000 01000000";
    assert_eq!(list[299 * 20..], hex(closing));
}

#[test]
fn the_room_is_long_enough_or_stays() {
    let (first, second) = two_files();
    let whole = hex(THEIR_LIST);
    assert_eq!(whole.len(), 124);
    for length in 0..124 {
        let (compared, room) = compared(&first, &second, length);
        let refused = Answer::refused(first.state, WRONG_ROOM, 5);
        assert_eq!(compared, refused.into(), "room of {length}");
        assert_eq!(room, vec![UNTOUCHED; length]);
    }
    for length in 124..250 {
        let (compared, room) = compared(&first, &second, length);
        assert_eq!((compared.answer.refusal, compared.taken), (0, 124));
        assert_eq!(room[..124], whole);
        assert_eq!(room[124..], vec![UNTOUCHED; length - 124]);
    }
}

/// Files with nothing between them still need room for the closing record.
#[test]
fn equal_files_need_sixteen_bytes() {
    let (file, _) = two_files();
    for length in [0, 1, 15] {
        let (compared, room) = compared(&file, &file, length);
        assert_eq!((compared.answer.refusal, compared.taken), (WRONG_ROOM, 0));
        assert_eq!(room, vec![UNTOUCHED; length]);
    }
    for length in [16, 17, 36] {
        let (compared, room) = compared(&file, &file, length);
        assert_eq!((compared.answer.refusal, compared.taken), (0, 16));
        assert_eq!(room, [hex(NOTHING), vec![UNTOUCHED; length - 16]].concat());
    }
}
