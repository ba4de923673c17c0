use super::*;
use crate::commands::hex;

mod comparisons;
mod editions;
mod merges;
mod of_two;

/// What a state that isn't looked at has for its edition.
const NO_EDITION: u16 = 0x7776;

/// A format of two pages and edition 1 with something in every field.
fn format_case() -> Case {
    Case {
        kind: 257,
        state: State {
            edition: NO_EDITION,
            ..State::default()
        },
        a: number(&[1, 0, 1, 0, 1, 0, 2, 0]),
        b: 1,
        c: 3,
        area: vec![7; 512],
        second: vec![8; 9],
        row: vec![5],
        room: vec![6; 3],
    }
}

fn written(input: &[u8]) -> Vec<u8> {
    let mut output = Vec::new();
    run(&mut &input[..], &mut output).expect("slices don't fail");
    output
}

#[test]
fn a_record_reads_back() {
    let case = format_case();
    assert_eq!(Case::parse(&case.record()), Some(case.clone()));
    assert_eq!(Case::parse(&case.record()[1..]), None);
    for kind in [265, 266] {
        let of_two = Case {
            kind,
            ..case.clone()
        };
        assert_eq!(of_two.call(), None);
    }
}

/// A check that finds its area too short, or its edition wrong, byte by byte.
#[test]
fn every_field_has_its_place() {
    for (edition, refusal, due) in [(1, 2, 1), (2, 2, 1), (0, 1, 0), (3, 1, 0), (0xab02, 1, 0)] {
        let [low, high] = u16::to_le_bytes(edition);
        check_every_field([low, high], refusal, due);
    }
}

fn check_every_field([low, high]: [u8; 2], refusal: u8, due: u8) {
    let record = [
        &[74, 0, 0, 0, 6, 1][..],
        &[2, 0, 3, 0, 4, 0, 30, 0, 40, 0, low, high, 0x23, 1, 0, 0],
        &[11, 0, 0, 0, 0, 0, 0, 0x80],
        &[12, 0, 0, 0, 0, 0, 0, 0x80],
        &[13, 0, 0, 0, 0, 0, 0, 0x80],
        &[1, 0, 0, 0, 21],
        &[2, 0, 0, 0, 22, 23],
        &[4, 0, 0, 0, 24, 25, 26, 27],
        &[5, 0, 0, 0, 28, 29, 30, 31, 32],
    ]
    .concat();
    let reply = [
        &[76, 0, 0, 0, 1, 2, refusal, 0, 0, 0][..],
        &[0, 0, 0, 0, 0, 0, 0, 0],
        &[0, 0, 0, 0, 0, 0, 0, 0, 0, 0, 0, 0, 0, 0, 0, 0, 0, 0],
        &[2, 0, 3, 0, 4, 0, 30, 0, 40, 0, low, high, 0x23, 1, 0, 0],
        &[due, 0],
        &[1, 0, 0, 0, 21],
        &[4, 0, 0, 0, 24, 25, 26, 27],
        &[5, 0, 0, 0, 28, 29, 30, 31, 32],
    ]
    .concat();
    assert_eq!(written(&record), reply);
    let read = Case::parse(&record).expect("a record");
    assert_eq!((read.a, read.b, read.c), (TOP + 11, TOP + 12, TOP + 13));
    assert_eq!(read.state.edition.to_le_bytes(), [low, high]);
    assert_eq!(read.row, vec![0x1b1a_1918]);
}

const TOP: u64 = 1 << 63;

/// Makes a call on what the one before left, and gives its reply.
fn next(case: &mut Case, kind: u16, a: u64) -> Vec<u8> {
    (case.kind, case.a, case.b) = (kind, a, 100 + a);
    let answered = case.answer().expect("agrees with itself");
    answered.expect("a known kind").1
}

/// What a format of two pages and this edition leaves.
fn formatted(edition: u64) -> Case {
    let mut case = Case {
        b: edition,
        ..format_case()
    };
    let answered = case.answer().expect("agrees with itself");
    assert_eq!(answered.map(|(answer, _)| answer.refusal), Some(0));
    case
}

/// The rules' own figure: with thirteen keys there is no room to grow, with
/// twelve all of them move.
#[test]
fn the_numbers_of_an_answer_have_their_places() {
    let mut case = formatted(1);
    for key in 0..13 {
        next(&mut case, 258, key);
    }
    case.row = vec![9; 2];
    let refused = next(&mut case, 261, 0);
    assert_eq!((two(&refused, 6), four(&refused, 22)), (7, 2));
    next(&mut case, 260, 12);
    let found = next(&mut case, 259, 4);
    assert_eq!((eight(&found, 10), four(&found, 22)), (104, 1));
    assert_eq!((four(&found, 48), two(&found, 52)), (12, 1));
    assert_eq!((two(&found, 42), two(&found, 46)), (1, 1));
    let grown = next(&mut case, 261, 0);
    assert_eq!((two(&grown, 6), four(&grown, 26)), (0, 12));
    assert_eq!((two(&grown, 42), two(&grown, 52)), (2, 0));
}

/// Twelve keys go up and come back with the same bytes; the row stays as it
/// was, though it is as long as grow's. Then a shrink finds nothing to give
/// back.
#[test]
fn a_shrink_tells_what_it_gave_back() {
    let mut case = formatted(1);
    for key in 0..12 {
        next(&mut case, 258, key);
    }
    let before = case.clone();
    case.row = vec![9; 2];
    next(&mut case, 261, 0);
    assert_eq!(case.row, [0, 12]);
    let shrunk = next(&mut case, 263, 0);
    assert_eq!((two(&shrunk, 6), two(&shrunk, 42)), (0, 1));
    assert_eq!((four(&shrunk, 22), four(&shrunk, 26)), (2, 12));
    assert_eq!((two(&shrunk, 8), eight(&shrunk, 10)), (0, 0));
    assert_eq!((case.row.clone(), case.state), (vec![0, 12], before.state));
    assert!(case.area == before.area);
    let refused = next(&mut case, 263, 0);
    assert_eq!((two(&refused, 6), two(&refused, 42)), (14, 1));
    assert_eq!((four(&refused, 22), four(&refused, 26)), (0, 0));
    assert!(case.area == before.area && case.state == before.state);
}

/// A run of one put on a fresh file of two pages, with something in every
/// field that a run doesn't look at.
fn run_case() -> Case {
    Case {
        kind: 264,
        second: hex("1400 0201 0500000000000000 0900000000000000"),
        room: vec![6; 28],
        ..formatted(2)
    }
}

/// The room comes back with the log's reply, the row as it was, and the run's
/// own answer tells no more than the state after it.
#[test]
fn a_run_writes_its_replies_to_the_room() {
    let reply = written(&run_case().record());
    let head = "62020000 0102 0000 0000 0000000000000000 00000000 00000000 00000000 0000 00000000
        0100 0100 0100 0100 0200 0200 01000000 0000 00020000";
    assert_eq!(reply[..58], hex(head));
    let record = "1400 0100 0500000000000000 0900000000000000";
    assert_eq!(reply[58 + 16..58 + 36], hex(record));
    let behind = "04000000 05000000
        1C000000 1C00 0102 0000 0000 0000000000000000 01000000 00000000 0100 0000";
    assert_eq!(reply[58 + 512..], hex(behind));
}

/// Refused runs give back all they were given, whatever the state.
#[test]
fn a_refused_run_changes_nothing() {
    let good = run_case();
    for (cut, room, refusal) in [(19, 28, 10), (20, 27, 15), (0, 28, 15), (1, 0, 10)] {
        for state in [good.state, State::default()] {
            let mut case = Case {
                state,
                second: good.second[..cut].to_vec(),
                room: vec![6; room],
                ..good.clone()
            };
            let before = case.clone();
            let answered = case.answer().expect("agrees with itself");
            let told = answered.map(|(answer, _)| answer);
            assert_eq!(told, Some(Answer::refused(state, refusal, 0)));
            assert_eq!(case, before, "{cut} bytes, room {room}");
        }
    }
}

#[test]
fn heads_stand_where_they_are_told() {
    let case = format_case();
    let record = case.record();
    let lengths = case.string_heads().map(|at| four(&record, at));
    assert_eq!(lengths, [512, 9, 4, 3]);
}

#[test]
fn fields_not_looked_at_change_nothing() {
    let idle = Case {
        c: 0,
        second: Vec::new(),
        ..format_case()
    };
    assert_eq!(written(&idle.record()), written(&format_case().record()));
    let formatted = written(&idle.record());
    assert_eq!(formatted[formatted.len() - 7..], [3, 0, 0, 0, 6, 6, 6]);
}

/// How many replies come where this stands between two right records.
fn replies_around(middle: &[u8]) -> usize {
    let good = format_case().record();
    let output = written(&[&good, middle, &good].concat());
    let mut rest = &output[..];
    let mut replies = 0;
    while !rest.is_empty() {
        rest = &rest[four(rest, 0) as usize..];
        replies += 1;
    }
    replies
}

/// This record with the four-byte number at a place changed.
fn with_change(case: &Case, at: usize, change: u32) -> Vec<u8> {
    let mut wrong = case.record();
    let now = four(&wrong, at).wrapping_add(change);
    wrong[at..at + 4].copy_from_slice(&now.to_le_bytes());
    wrong
}

#[test]
fn answering_ends_at_what_is_no_record() {
    let case = format_case();
    assert_eq!(replies_around(&[]), 2);
    assert_eq!(replies_around(&case.record()), 3);
    let mut wrong: Vec<Vec<u8>> = Vec::new();
    for kind in [0, 255, 265, 266, 267, 513, 65535] {
        let unknown = Case {
            kind,
            ..case.clone()
        };
        wrong.push(unknown.record());
    }
    wrong.extend((0..62u32).map(|length| length.to_le_bytes().to_vec()));
    for at in [&[0], &case.string_heads()[..]].concat() {
        for change in [1, 4, 255, 256, 1 << 16, 1 << 31, u32::MAX] {
            wrong.push(with_change(&case, at, change));
        }
    }
    for (number, record) in wrong.iter().enumerate() {
        assert_eq!(replies_around(record), 1, "wrong record {number}");
    }
}

/// Strings of these lengths, with how many replies come around them.
#[test]
fn strings_have_a_greatest_length_and_rows_whole_counts() {
    let mut lengths = vec![([LONGEST_STRING; RECORD_STRINGS], 3)];
    for string in 0..RECORD_STRINGS {
        for (length, replies) in [(16_400, 3), (16_401, 1), (16_404, 1), (65_536, 1)] {
            let mut one = [0; RECORD_STRINGS];
            one[string] = length;
            lengths.push((one, replies));
        }
    }
    lengths.extend((0..9).map(|row| ([0, 0, row, 0], if row % 4 == 0 { 3 } else { 1 })));
    for (lengths, replies) in lengths {
        let strings = lengths.map(|length| vec![1; length]);
        let record = format_case().record_with(strings.each_ref().map(Vec::as_slice));
        assert_eq!(replies_around(&record), replies, "{lengths:?}");
    }
}

#[test]
fn a_record_cut_off_has_no_reply() {
    let good = format_case().record();
    let one = written(&good);
    for cut in 0..good.len() {
        assert_eq!(written(&[&good[..], &good[..cut]].concat()), one, "{cut}");
    }
}
