//! Merges: the other file in its string, the living one and its row written.

use super::*;
use crate::trial::Trial;
use of_two::{case_of, changed, check_every_cut, longest, page, two_sizes};

/// Keys 5 and 6 in edition 2 merged into a file of edition 1 with keys 5 and 7,
/// with a row of one count and something in every field that isn't looked at.
fn record_of_two(value_of_five: u8) -> Vec<u8> {
    [
        hex("55020000 0A01 0100 0100 0100 0100 0100 0100 02000000"),
        hex("0B00000000000080 0C00000000000080 0D00000000000080"),
        hex("00010000"),
        page(&[(5, 9), (7, 1)]),
        hex("10010000 0100 0100 0100 0100 0100 0200 02000000"),
        page(&[(5, value_of_five), (6, 2)]),
        hex("04000000 18191A1B 03000000 060606"),
    ]
    .concat()
}

/// All is as it should be but for the room, which comes back as it came.
#[test]
fn a_merge_byte_by_byte() {
    let reply = [
        hex("49010000 0102 0000 0000 0000000000000000 00000000 02000000 00000000 0000 00000000"),
        hex("0100 0100 0100 0100 0100 0100 03000000 0000 00010000"),
        page(&[(5, 9), (6, 2), (7, 1)]),
        hex("04000000 03000000 03000000 060606"),
    ]
    .concat();
    assert_eq!(written(&record_of_two(9)), reply);
}

/// A clash tells the key in the value's place, and all else comes back as it
/// came.
#[test]
fn a_clash_byte_by_byte() {
    let reply = [
        hex("49010000 0102 0D00 0000 0500000000000000 00000000 02000000 00000000 0000 00000000"),
        hex("0100 0100 0100 0100 0100 0100 02000000 0000 00010000"),
        page(&[(5, 9), (7, 1)]),
        hex("04000000 18191A1B 03000000 060606"),
    ]
    .concat();
    assert_eq!(written(&record_of_two(8)), reply);
}

/// A merge of two files with a row of the right length.
fn merge_of(living: &Trial, other: &Trial) -> Case {
    Case {
        row: vec![7; living.state.cap.into()],
        room: vec![6; 5],
        ..case_of(266, living, other)
    }
}

/// Refusal, page, value, pages read and file of a reply. What a refusal leaves
/// has to be as it came, but for the row of a 7.
fn told(case: &Case) -> (u16, u16, u64, u32, u16) {
    let reply = written(&case.record());
    let refusal = two(&reply, 6);
    let mut after = case.clone();
    let answered = after.answer().expect("agrees with itself");
    assert_eq!(answered.map(|(_, reply)| reply), Some(reply.clone()));
    assert_eq!((four(&reply, 18), four(&reply, 26)), (0, 0));
    assert_eq!(four(&reply, 32), 0);
    if ![0, 7].contains(&refusal) {
        assert_eq!(&after, case);
    }
    let (page, value, read) = (two(&reply, 8), eight(&reply, 10), four(&reply, 22));
    (refusal, page, value, read, two(&reply, 30))
}

#[test]
fn every_refusal_tells_its_file() {
    let (living, other) = two_sizes();
    let good = merge_of(&living, &other);
    assert_eq!(told(&good), (0, 0, 0, 5, 0));
    let with = |change| told(&changed(&good, change));
    assert_eq!(with(|case| case.state.n0 = 0), (1, 0, 0, 0, 1));
    assert_eq!(with(|case| case.area.truncate(511)), (2, 0, 0, 0, 1));
    assert_eq!(with(|case| case.row.push(7)), (3, 0, 0, 0, 1));
    assert_eq!(with(|case| case.row.truncate(1)), (3, 0, 0, 0, 1));
    assert_eq!(with(|case| case.row.clear()), (3, 0, 0, 0, 1));
    assert_eq!(with(|case| case.area[256] ^= 1), (4, 1, 0, 2, 1));
    assert_eq!(with(|case| case.state.records = 3), (9, 0, 0, 2, 1));
    // The other file's n0, its last byte, its last page and its r.
    assert_eq!(with(|case| case.second[0] = 0), (1, 0, 0, 0, 2));
    assert_eq!(with(|case| case.second.truncate(783)), (2, 0, 0, 0, 2));
    assert_eq!(with(|case| case.second[16 + 512] ^= 1), (4, 2, 0, 5, 2));
    assert_eq!(with(|case| case.second[12] = 3), (9, 0, 0, 5, 2));
    // The value of its first key.
    assert_eq!(with(|case| case.second[16 + 28] = 3), (13, 0, 1, 5, 0));
}

/// 24 records have room on two pages and 25 don't: the row tells them, and the
/// state and due are those of the living file afterwards.
#[test]
fn a_merge_without_room_writes_the_row() {
    let (mut living, mut other) = two_sizes();
    living.put_all(10..20).expect("agrees");
    other.put_all(15..30).expect("agrees");
    let case = merge_of(&living, &other);
    assert_eq!(told(&case), (0, 0, 0, 5, 0));
    let reply = written(&case.record());
    assert_eq!((four(&reply, 48), two(&reply, 52)), (23, 1));
    assert_eq!(
        reply[reply.len() - 21..],
        hex("08000000 17000000 00000000 05000000 0606060606")
    );
    other.put_all(30..32).expect("agrees");
    let case = merge_of(&living, &other);
    assert_eq!(told(&case), (7, 0, 0, 5, 0));
    let reply = written(&case.record());
    assert_eq!((four(&reply, 48), reply[58..570] == case.area), (12, true));
    assert_eq!(
        reply[reply.len() - 21..],
        hex("08000000 19000000 00000000 05000000 0606060606")
    );
}

#[test]
fn another_file_too_short_for_its_state_ends_the_run() {
    let (living, other) = two_sizes();
    check_every_cut(&merge_of(&living, &other), |case| told(case).0);
}

/// The longest files have 64 pages: 768 records in all, of which half are in
/// both.
#[test]
fn the_longest_strings_are_merged() {
    let case = merge_of(&longest(0..576), &longest(192..768));
    assert_eq!(
        (case.second.len(), told(&case)),
        (16_400, (0, 0, 0, 128, 0))
    );
    let case = merge_of(&longest(0..576), &longest(192..769));
    assert_eq!(told(&case), (7, 0, 0, 128, 0));
}
