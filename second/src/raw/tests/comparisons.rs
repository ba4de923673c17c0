//! Comparisons: the second file in its string, and the list in the room.

use super::*;
use crate::trial::Trial;
use of_two::{case_of, changed, check_every_cut, longest, page, two_sizes};

/// A file of one page with n0, N and s all 1, with this key and value.
fn one_record(edition: u64, key: u64, value: u64) -> Trial {
    let mut file = Trial::of_edition(edition, 1).expect("agrees");
    let put = file.ask(Call::Put { key, value }).expect("agrees");
    assert_eq!(put.refusal, 0);
    file
}

/// A page 0 with one record of key 5 and this value.
fn five(value: u8) -> Vec<u8> {
    page(&[(5, value)])
}

/// Key 5 with 9 in edition 1 and with 8 in edition 2, in a room of fifty bytes;
/// with something in every field that isn't looked at.
fn record_of_two() -> Vec<u8> {
    [
        hex("84020000 0901 0100 0100 0100 0100 0100 0100 01000000"),
        hex("0B00000000000080 0C00000000000080 0D00000000000080"),
        hex("00010000"),
        five(9),
        hex("10010000 0100 0100 0100 0100 0100 0200 01000000"),
        five(8),
        hex("04000000 18191A1B 32000000"),
        vec![6; 50],
    ]
    .concat()
}

#[test]
fn a_comparison_byte_by_byte() {
    let reply = [
        hex("78010000 0102 0000 0000 0000000000000000 00000000 02000000 00000000 0000 2C000000"),
        hex("0100 0100 0100 0100 0100 0100 01000000 0000 00010000"),
        five(9),
        hex("04000000 18191A1B 32000000"),
        hex("1C00 0303 0500000000000000 0900000000000000 0800000000000000"),
        hex("1000 0403 00000000 00000000 01000000"),
        vec![6; 6],
    ]
    .concat();
    assert_eq!(written(&record_of_two()), reply);
}

/// With a room one byte too short all comes back as it came.
#[test]
fn a_comparison_without_room_byte_by_byte() {
    let mut record = record_of_two();
    record.truncate(record.len() - 7);
    record[0] -= 7;
    let room = record.len() - 43 - 4;
    record[room] = 43;
    let reply = [
        hex("71010000 0102 0F00 0000 0000000000000000 00000000 02000000 00000000 0000 00000000"),
        hex("0100 0100 0100 0100 0100 0100 01000000 0000 00010000"),
        five(9),
        hex("04000000 18191A1B 2B000000"),
        vec![6; 43],
    ]
    .concat();
    assert_eq!(written(&record), reply);
}

/// A comparison of two files, with a room that is always long enough.
fn comparison(first: &Trial, second: &Trial) -> Case {
    Case {
        row: vec![7; 2],
        room: vec![6; 99],
        ..case_of(265, first, second)
    }
}

/// Refusal, page, pages read, file and bytes taken of a reply. All else that a
/// reply tells has to be as it came, the room too where nothing was taken.
fn told(case: &Case) -> (u16, u16, u32, u16, u32) {
    let reply = written(&case.record());
    let unchanged = [
        state_bytes(case.state),
        vec![u8::from(case.state.due()), 0],
        string(&case.area),
        string(&row_bytes(&case.row)),
        (case.room.len() as u32).to_le_bytes().to_vec(),
    ];
    let behind = [&unchanged.concat()[..], &case.room].concat();
    let taken = four(&reply, 32);
    let (start, end) = (36, reply.len() - case.room.len());
    assert_eq!(reply[start..end], behind[..end - start]);
    assert_eq!(reply[end + taken as usize..], case.room[taken as usize..]);
    assert_eq!((eight(&reply, 10), four(&reply, 18)), (0, 0));
    assert_eq!(four(&reply, 26), 0);
    let (refusal, page, read) = (two(&reply, 6), two(&reply, 8), four(&reply, 22));
    (refusal, page, read, two(&reply, 30), taken)
}

fn string(bytes: &[u8]) -> Vec<u8> {
    [&(bytes.len() as u32).to_le_bytes()[..], bytes].concat()
}

#[test]
fn every_refusal_tells_its_file() {
    let (first, second) = two_sizes();
    let good = comparison(&first, &second);
    assert_eq!(told(&good), (0, 0, 5, 0, 20 + 20 + 16));
    let with = |change| told(&changed(&good, change));
    assert_eq!(with(|case| case.state.n0 = 0), (1, 0, 0, 1, 0));
    assert_eq!(with(|case| case.area.truncate(511)), (2, 0, 0, 1, 0));
    assert_eq!(with(|case| case.area[256] ^= 1), (4, 1, 2, 1, 0));
    assert_eq!(with(|case| case.state.records = 3), (9, 0, 2, 1, 0));
    // The second file's n0, its last byte, its last page and its r.
    assert_eq!(with(|case| case.second[0] = 0), (1, 0, 0, 2, 0));
    assert_eq!(with(|case| case.second.truncate(783)), (2, 0, 0, 2, 0));
    assert_eq!(with(|case| case.second[16 + 512] ^= 1), (4, 2, 5, 2, 0));
    assert_eq!(with(|case| case.second[12] = 3), (9, 0, 5, 2, 0));
    assert_eq!(with(|case| case.room.truncate(55)), (15, 0, 5, 0, 0));
    assert_eq!(with(|case| case.room.clear()), (15, 0, 5, 0, 0));
    assert_eq!(with(|case| case.room.truncate(56)), (0, 0, 5, 0, 56));
}

/// The reply's due is the first file's: ten records on one page are due, one
/// isn't.
#[test]
fn state_and_due_are_the_first_files() {
    let (mut many, few) = (one_record(2, 100, 1), one_record(1, 100, 1));
    many.put_all(0..9).expect("agrees");
    let room = vec![6; 16 + 9 * 20];
    for (first, second, due) in [(&many, &few, 1), (&few, &many, 0)] {
        let case = Case {
            room: room.clone(),
            ..comparison(first, second)
        };
        assert_eq!(told(&case), (0, 0, 2, 0, 196));
        let reply = written(&case.record());
        assert_eq!((two(&reply, 52), two(&reply, 46)), (due, 1 + due));
    }
}

/// The second file's state has the order of the first's: no byte of it may
/// change without a refusal that tells the second file.
#[test]
fn the_second_state_is_laid_out_as_the_first() {
    let (first, second) = two_sizes();
    let good = comparison(&first, &second);
    let state = hex("0100 0100 0100 0100 0300 0100 02000000");
    assert_eq!(good.second[..16], state);
    for at in 0..16 {
        let mut case = good.clone();
        case.second[at] ^= 0x80;
        let refusal = if at == 8 { 2 } else { 1 };
        assert_eq!(told(&case), (refusal, 0, 0, 2, 0), "byte {at}");
    }
    let record = Case::parse(&record_of_two()).expect("a record");
    let site = record.second_file().expect("a whole state");
    assert_eq!((site.state.edition, site.state.records), (2, 1));
    assert_eq!(site.area, five(8));
}

#[test]
fn a_second_file_too_short_for_its_state_ends_the_run() {
    let (first, second) = two_sizes();
    check_every_cut(&comparison(&first, &second), |case| told(case).0);
}

/// The longest second file has 64 pages, and the longest room 16,400 bytes.
#[test]
fn the_longest_strings_are_compared() {
    // 768 records in each, of which none is in both: 1536 differences.
    let mut case = comparison(&longest(0..768), &longest(768..1536));
    case.room = vec![6; 16_400];
    assert_eq!(case.second.len(), 16_400);
    assert_eq!(told(&case), (15, 0, 128, 0, 0));
    // 409 in the one and 410 in the other: 16,396 bytes.
    let mut case = comparison(&longest(0..409), &longest(768..1178));
    case.room = vec![6; 16_400];
    assert_eq!(told(&case), (0, 0, 128, 0, 819 * 20 + 16));
}
