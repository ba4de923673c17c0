use super::*;
use crate::test_files::file;
use second::answer::BROKEN;
use second::trial::Trial;

mod refusals;

/// A file of edition 1 with n0, N and s all 1 and these records.
fn ones(cap: u16, records: &[(u64, u64)]) -> Trial {
    file([1, 1, 1], cap, 1, 0, records)
}

/// These keys, each with the value 0.
fn noughts(keys: impl IntoIterator<Item = u64>) -> Vec<(u64, u64)> {
    keys.into_iter().map(|key| (key, 0)).collect()
}

/// A merge with a row of the right length.
fn case(living: &Trial, other: &Trial) -> Case {
    Case {
        kind: MERGE_KIND,
        state: living.state,
        area: living.area.clone(),
        second: [state_bytes(other.state), other.area.clone()].concat(),
        row: vec![7; living.state.cap.into()],
        ..Case::default()
    }
}

fn reply(case: &Case) -> (Case, Vec<u8>) {
    let mut after = case.clone();
    let answered = after.answer().expect("agrees with itself");
    let (_, reply) = answered.expect("a record");
    (after, reply)
}

/// The pairs of a merge, those of these rows.
fn of(asked: &Case, rows: &[u16]) -> Vec<Pair> {
    let (after, reply) = reply(asked);
    let mut pairs = pairs(asked, &after, &reply);
    pairs.retain(|(row, _)| rows.contains(row));
    pairs
}

/// The same for two files.
fn told(living: &Trial, other: &Trial, rows: &[u16]) -> Vec<Pair> {
    of(&case(living, other), rows)
}

#[test]
fn fillings_are_told() {
    let files = [0, 5, 12].map(|count| ones(1, &noughts(0..count)));
    for (first, living) in (0..).zip(&files) {
        for (second, other) in (0..).zip(&files) {
            let expected = [(FILLED, 3 * first + second)];
            assert_eq!(told(living, other, &[FILLED]), expected);
        }
    }
}

#[test]
fn what_is_in_both_is_told() {
    let shared = |one: &[u64], two: &[u64]| {
        let [one, two] = [one, two].map(|keys| ones(1, &noughts(keys.to_vec())));
        told(&one, &two, &[SHARED])
    };
    assert_eq!(shared(&[1, 2], &[3, 4]), [(SHARED, 0)]);
    assert_eq!(shared(&[1, 2], &[2, 3]), [(SHARED, 1)]);
    assert_eq!(shared(&[1, 2], &[2]), [(SHARED, 2)]);
    assert_eq!(shared(&[2], &[1, 2]), [(SHARED, 3)]);
    assert_eq!(shared(&[1, 2], &[1, 2]), [(SHARED, 4)]);
    assert_eq!(shared(&[], &[1, 2]), []);
    assert_eq!(shared(&[1, 2], &[]), []);
}

/// Only where something is added do the numbers of the states count.
#[test]
fn other_numbers_are_told() {
    let living = file([1, 4, 2], 8, 1, 2, &noughts(0..6));
    let with = |keys: std::ops::Range<u64>| {
        [
            file([1, 4, 2], 8, 1, 2, &noughts(keys.clone())),
            file([1, 3, 2], 8, 1, 3, &noughts(keys.clone())),
            file([1, 4, 1], 8, 1, 2, &noughts(keys.clone())),
            file([1, 4, 2], 8, 1, 3, &noughts(keys.clone())),
            file([1, 4, 2], 9, 1, 2, &noughts(keys.clone())),
            file([1, 4, 2], 8, 2, 2, &noughts(keys.clone())),
            file([1, 4, 1], 9, 1, 2, &noughts(keys)),
        ]
    };
    for (number, other) in [0, 2, 3, 4, 5, 6, 7].into_iter().zip(with(3..9)) {
        assert_eq!(told(&living, &other, &[NUMBERS]), [(NUMBERS, number)]);
    }
    for other in with(3..6) {
        assert_eq!(told(&living, &other, &[NUMBERS]), []);
    }
}

#[test]
fn what_only_just_has_room_is_told() {
    let rows = [JUST];
    let living = ones(2, &noughts(0..20));
    let with = |keys| told(&living, &ones(2, &noughts(keys)), &rows);
    assert_eq!(with(20..23), []);
    assert_eq!(with(20..24), [(JUST, 0)]);
    assert_eq!(with(18..24), [(JUST, 0), (JUST, 2)]);
    assert_eq!(with(10..22), [(JUST, 2)]);
    assert_eq!(with(10..20), []);
    // Twelve keys that live on the second page of two.
    let grown = file([1, 1, 1], 2, 1, 1, &noughts(0..6));
    let with = |keys| told(&grown, &ones(1, &noughts(keys)), &rows);
    assert_eq!(with(6..12), [(JUST, 1)]);
    assert_eq!(with(6..11), []);
    assert_eq!(with(0..6), []);
}

/// With three pages to start with, keys 0, 3, 6 and so on live on the first.
#[test]
fn records_that_go_up_are_told() {
    let start = [3, 1, 1];
    let living = file(start, 4, 1, 0, &noughts([1, 4, 5]));
    let with = |keys: Vec<u64>| {
        let other = file(start, 5, 1, 0, &noughts(keys));
        told(&living, &other, &[WENT_UP])
    };
    assert_eq!(with(vec![]), []);
    assert_eq!(with(vec![7]), [(WENT_UP, 0)]);
    let firsts = |count: u64| -> Vec<u64> { (0..count).map(|number| 3 * number).collect() };
    assert_eq!(with(firsts(24)), [(WENT_UP, 1)]);
    assert_eq!(with(firsts(36)), [(WENT_UP, 2)]);
    let none = file(start, 4, 1, 0, &[]);
    let other = file(start, 4, 1, 0, &noughts(firsts(24)));
    assert_eq!(told(&none, &other, &[WENT_UP]), []);
}

#[test]
fn the_largest_are_told() {
    let large = |keys| ones(64, &noughts(keys));
    let few = ones(1, &noughts(0..2));
    let rows = [LARGEST];
    assert_eq!(told(&large(0..5), &few, &rows), [(LARGEST, 0)]);
    assert_eq!(told(&few, &large(0..5), &rows), [(LARGEST, 1)]);
    let both = [(LARGEST, 0), (LARGEST, 1)];
    assert_eq!(told(&large(0..400), &large(300..767), &rows), both);
    let all = told(&large(0..400), &large(300..768), &rows);
    assert_eq!(all, [&both[..], &[(LARGEST, 2)]].concat());
}

/// The second of two merges, where the first had the files turned round.
fn turned_round(one: &Trial, two: &Trial) -> Option<Pair> {
    let (before, now) = (case(one, two), case(two, one));
    let [(_, its_reply), (_, reply)] = [&before, &now].map(reply);
    turned(&before.record(), &its_reply, &now, &reply)
}

#[test]
fn a_merge_turned_round_is_told() {
    let (small, large) = (ones(1, &noughts(0..6)), ones(2, &noughts(4..13)));
    let alike = ones(1, &noughts(5..9));
    assert_eq!(turned_round(&small, &alike), Some((TURNED, 1)));
    let fewer = ones(2, &noughts(4..12));
    assert_eq!(turned_round(&small, &fewer), Some((TURNED, 0)));
    assert_eq!(turned_round(&small, &large), Some((TURNED, 2)));
    assert_eq!(turned_round(&large, &small), Some((TURNED, 3)));
    let full = ones(1, &noughts(6..18));
    assert_eq!(turned_round(&small, &full), Some((TURNED, 4)));
    let clashing = ones(3, &[(5, 1)]);
    assert_eq!(turned_round(&small, &clashing), Some((TURNED, 5)));
    assert_eq!(turned_round(&small, &small), None);
    let (now, (_, reply)) = (case(&small, &fewer), reply(&case(&small, &fewer)));
    assert_eq!(turned(&now.record(), &reply, &now, &reply), None);
    let compared = Case { kind: 265, ..now };
    assert_eq!(turned(&compared.record(), &reply, &compared, &reply), None);
}

/// Every row has a name of its own that the table has room for.
#[test]
fn every_row_has_a_name() {
    let names: Vec<&str> = MERGE_PAIRS
        .iter()
        .filter_map(|(row, _)| name(*row))
        .collect();
    assert_eq!((names[0], names[23]), ("about file", "other's ed."));
    let different: std::collections::BTreeSet<&str> = names.iter().copied().collect();
    assert_eq!(different.len(), 24);
    assert!(names.iter().all(|name| name.len() <= 12));
    assert_eq!(name(1105), None);
    assert!(MERGE_PAIRS.is_sorted_by_key(|(row, _)| *row));
}

/// Only few of the many pairs are stored, and each file's refusals among them.
#[test]
fn not_all_that_is_told_is_stored() {
    let all = MERGE_PAIRS.iter();
    let pairs = all.flat_map(|(row, ways)| ways.iter().map(|&way| (*row, way)));
    let stored: Vec<Pair> = pairs.filter(|&pair| !only_told(pair)).collect();
    assert_eq!(stored.len(), 9 + 5 + 2 + 2);
    assert!(stored.contains(&(FILE, 24)) && stored.contains(&(TIGHT, 0)));
    assert!(!only_told((MERGE_KIND, BROKEN)) && only_told((TOGETHER, 434)));
}
