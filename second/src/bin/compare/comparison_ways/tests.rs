use super::*;
use crate::table::raw_pairs;
use crate::test_files::file;
use second::calls::Call;
use second::trial::Trial;

fn small(records: &[(u64, u64)]) -> Trial {
    file([1, 1, 1], 1, 1, 0, records)
}

fn case(first: &Trial, second: &Trial, room: usize) -> Case {
    Case {
        kind: COMPARE_KIND,
        state: first.state,
        area: first.area.clone(),
        second: [state_bytes(second.state), second.area.clone()].concat(),
        room: vec![7; room],
        ..Case::default()
    }
}

/// The pairs of an answered comparison, those of these rows.
fn of(first: &Trial, second: &Trial, room: usize, rows: &[u16]) -> Vec<Pair> {
    let mut case = case(first, second, room);
    let answered = case.answer().expect("agrees with itself");
    let refusal = answered.map_or(0, |(answer, _)| answer.refusal);
    let mut pairs = pairs(&case, refusal);
    pairs.retain(|(row, _)| rows.contains(row));
    pairs
}

/// A list of 36 bytes, and one of 16.
#[test]
fn rooms_are_told() {
    let rows = [ROOM_LEFT, ROOM_SHORT, SHORT_ROOM, EQUAL_ROOM];
    let (one, none) = (small(&[(5, 9)]), small(&[]));
    let differs = |room| of(&one, &none, room, &rows);
    assert_eq!(differs(36), [(ROOM_LEFT, 0)]);
    assert_eq!(differs(37), [(ROOM_LEFT, 1)]);
    assert_eq!(differs(38), [(ROOM_LEFT, 2)]);
    assert_eq!(differs(500), [(ROOM_LEFT, 2)]);
    assert_eq!(differs(35), [(ROOM_SHORT, 1)]);
    assert_eq!(differs(32), [(ROOM_SHORT, 4)]);
    assert_eq!(differs(20), [(ROOM_SHORT, 16), (SHORT_ROOM, 20)]);
    assert_eq!(differs(16), [(ROOM_SHORT, 20), (SHORT_ROOM, 16)]);
    assert_eq!(differs(28), [(SHORT_ROOM, 28)]);
    assert_eq!(differs(15), [(SHORT_ROOM, 15)]);
    assert_eq!(differs(0), [(SHORT_ROOM, 0)]);
    assert_eq!(differs(30), []);
    let equal = |room| of(&one, &one, room, &rows);
    assert_eq!(equal(16), [(ROOM_LEFT, 0), (EQUAL_ROOM, 16)]);
    assert_eq!(equal(17), [(ROOM_LEFT, 1), (EQUAL_ROOM, 17)]);
    assert_eq!(equal(36), [(ROOM_LEFT, 2)]);
    assert_eq!(
        [0, 1, 15].map(equal),
        [0, 1, 15].map(|room| vec![(EQUAL_ROOM, room)])
    );
    assert_eq!(equal(2), []);
}

/// Twelve records in files that differ in one number, and so in their bytes.
#[test]
fn other_numbers_are_told() {
    let keys = [0, 1, 2, 3, 4, 5, 6, 7, 8, 9, 10, 11].map(|key| (key * 1_000_003, 7));
    let rows = [SAME_SET, OTHER_SET];
    let first = file([1, 4, 2], 8, 1, 2, &keys);
    let others = [
        file([1, 4, 2], 8, 1, 2, &keys),
        file([2, 4, 2], 8, 1, 0, &keys),
        file([1, 3, 2], 8, 1, 3, &keys),
        file([1, 4, 1], 8, 1, 2, &keys),
        file([1, 4, 2], 8, 1, 3, &keys),
        file([1, 4, 2], 9, 1, 2, &keys),
        file([1, 4, 2], 8, 2, 2, &keys),
        file([1, 4, 1], 9, 1, 2, &keys),
    ];
    for (number, second) in (0..).zip(&others) {
        // The n0 that is another brings another P, since it may not be lower.
        let number = if number == 1 { 7 } else { number };
        let same = of(&first, second, 16, &rows);
        assert_eq!(same, [(SAME_SET, number)]);
        let mut second = Trial {
            state: second.state,
            area: second.area.clone(),
        };
        second.ask(Call::Remove { key: 1_000_003 }).expect("agrees");
        let other = of(&first, &second, 36, &rows);
        assert_eq!(other, [(OTHER_SET, number)]);
    }
    let grown = |n0| file([n0, 2, 1], 8, 1, 8 - 2 * n0, &keys);
    assert_eq!(of(&grown(1), &grown(2), 16, &rows), [(SAME_SET, 1)]);
    // Empty files don't count, nor do ones with the same bytes.
    let none = |sweeps| file([1, 1, sweeps], 2, 1, 1, &[]);
    assert_eq!(of(&none(1), &none(1), 16, &rows), []);
    let one = |sweeps| file([1, 1, sweeps], 2, 1, 1, &[(1, 1)]);
    assert_eq!(of(&one(1), &one(2), 16, &rows), []);
}

#[test]
fn fillings_are_told() {
    let keys = |count: u64| -> Vec<(u64, u64)> { (0..count).map(|key| (key, 0)).collect() };
    let files = [0, 5, 12].map(|count| small(&keys(count)));
    for (first, one) in (0..).zip(&files) {
        for (second, two) in (0..).zip(&files) {
            let told = of(one, two, 300, &[FILLED]);
            assert_eq!(told, [(FILLED, 3 * first + second)]);
        }
    }
}

#[test]
fn the_largest_are_told() {
    let large = |count: u64| {
        let keys: Vec<(u64, u64)> = (0..count).map(|key| (key, 0)).collect();
        file([1, 1, 1], 64, 1, 0, &keys)
    };
    let none = small(&[]);
    assert_eq!(of(&large(0), &none, 16, &[LARGEST]), [(LARGEST, 0)]);
    assert_eq!(of(&none, &large(0), 16, &[LARGEST]), [(LARGEST, 1)]);
    assert_eq!(of(&none, &none, 16_400, &[LARGEST]), []);
    // 768 differences take 15,376 bytes; the room may be longer.
    assert_eq!(of(&large(768), &none, 16_400, &[LARGEST]), [(LARGEST, 0)]);
    // All 768 with another value take 21,520.
    let mut other = large(0);
    for key in 0..768 {
        other.ask(Call::Put { key, value: 1 }).expect("agrees");
    }
    assert_eq!(of(&large(768), &other, 16_400, &[LARGEST]), [(LARGEST, 3)]);
    assert_eq!(of(&large(768), &other, 16_399, &[LARGEST]), []);
    assert!(takes_many((LARGEST, 0)) && !takes_many((SWAPPED, 0)));
}

#[test]
fn a_comparison_turned_round_is_told() {
    let (one, two) = (small(&[(5, 9), (6, 1)]), small(&[(5, 8)]));
    let before = case(&one, &two, 16).record();
    let turned = |first: &Trial, second: &Trial| swapped(&before, &case(first, second, 0), 0);
    assert_eq!(turned(&two, &one), Some((SWAPPED, 6)));
    assert_eq!(turned(&one, &two), None);
    assert_eq!(turned(&two, &two), None);
    let back = case(&two, &one, 0);
    assert_eq!(swapped(&before, &back, 15), None);
    let same = case(&one, &one, 0);
    assert_eq!(swapped(&same.record(), &same, 0), None);
    let check = Case { kind: 262, ..back };
    assert_eq!(swapped(&before, &check, 0), None);
}

#[test]
fn every_row_has_a_name() {
    for (row, _) in raw_pairs() {
        assert_ne!(crate::table::name(row), "unknown", "{row}");
    }
    assert_eq!(name(1), "unknown");
}
