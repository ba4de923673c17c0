use super::*;
use second::differ::read_back::read_back;
use second::differ::whole_list;
use second::trial::Trial;

/// A fresh file with these records.
fn file(start: [u16; 3], cap: u16, records: &[(u64, u64)]) -> Trial {
    let mut file = Trial::fresh(start, cap, 1).expect("agrees");
    for &(key, value) in records {
        let put = second::calls::Call::Put { key, value };
        assert_eq!(file.ask(put).map(|answer| answer.refusal), Ok(0));
    }
    file
}

/// The pairs of two files, those of these rows.
fn of(first: &Trial, second: &Trial, rows: &[u16]) -> Vec<Pair> {
    let [first, second] = [first, second].map(|file| Site {
        state: file.state,
        area: &file.area,
    });
    let list = whole_list(first, second).expect("both are right");
    let list = read_back(&list).expect("a list");
    let mut pairs = pairs(first, second, &list);
    pairs.retain(|(row, _)| rows.contains(row));
    pairs
}

/// The same for files of one page with these records.
fn of_small(first: &[(u64, u64)], second: &[(u64, u64)], rows: &[u16]) -> Vec<Pair> {
    let [first, second] = [first, second].map(|records| file([1, 1, 1], 1, records));
    of(&first, &second, rows)
}

#[test]
fn kinds_are_added_up_and_differences_counted() {
    let rows = [KINDS, LISTED];
    let told = |first: &[(u64, u64)], second: &[(u64, u64)], kinds, from| {
        let expected = [(KINDS, kinds), (LISTED, from)];
        assert_eq!(of_small(first, second, &rows), expected);
    };
    told(&[], &[], 0, 0);
    told(&[(1, 1)], &[(1, 1)], 0, 0);
    told(&[(1, 1)], &[], 1, 1);
    told(&[], &[(1, 1)], 2, 1);
    told(&[(1, 1)], &[(2, 1)], 3, 2);
    told(&[(1, 1)], &[(1, 2)], 4, 1);
    told(&[(1, 1), (3, 3)], &[(1, 2)], 5, 2);
    told(&[(1, 1)], &[(1, 2), (0, 0)], 6, 2);
    told(&[(1, 1), (3, 3)], &[(1, 2), (0, 0)], 7, 2);
    let many =
        |keys: std::ops::Range<u64>| -> Vec<(u64, u64)> { keys.map(|key| (key, 0)).collect() };
    told(&many(0..6), &many(6..12), 3, 2);
    told(&many(0..6), &many(6..13), 3, 13);
    let large = file([1, 1, 1], 50, &many(0..600));
    let none = file([1, 1, 1], 1, &[]);
    assert_eq!(of(&none, &large, &rows), [(KINDS, 2), (LISTED, 600)]);
    let takes_many = |number| super::takes_many((LISTED, number));
    assert!(!takes_many(13) && takes_many(100) && takes_many(600));
}

#[test]
fn other_orders_are_told() {
    let rows = [OTHER_ORDER];
    let order = |first: &[(u64, u64)], second: &[(u64, u64)]| -> Vec<u16> {
        let pairs = of_small(first, second, &rows);
        pairs.into_iter().map(|(_, order)| order).collect()
    };
    assert_eq!(order(&[(1, 0), (2, 0)], &[]), []);
    // Signed numbers, with the low bytes rising.
    assert_eq!(order(&[(1, 0), (1 << 63 | 2, 0)], &[]), [0]);
    assert_eq!(order(&[(2, 0), (1 << 32 | 1, 0)], &[]), [1, 2]);
    assert_eq!(order(&[(2, 0), (256, 0)], &[]), [2]);
    // One of the second file before one of the first.
    assert_eq!(order(&[(2, 0)], &[(1, 0)]), [5]);
    // With n0 and N 2 key 4 lies on page 0, before key 1 on page 1.
    let turned = file([2, 2, 1], 4, &[(1, 1), (4, 4)]);
    let none = file([1, 1, 1], 1, &[]);
    assert_eq!(of(&turned, &none, &rows), [(OTHER_ORDER, 3)]);
    assert_eq!(of(&none, &turned, &rows), [(OTHER_ORDER, 4)]);
    let one_left = file([1, 1, 1], 1, &[(4, 4)]);
    assert_eq!(of(&turned, &one_left, &rows), []);
}

/// Key 24 lies on page 2, two above its home and beyond the only page grown
/// to; key 12 lies on page 1.
#[test]
fn places_far_up_are_told() {
    let keys = |last: u64| -> Vec<(u64, u64)> { (0..=last).map(|key| (key, 0)).collect() };
    let [low, middle, high] = [11, 12, 24].map(|last| file([1, 1, 1], 3, &keys(last)));
    assert_eq!(of(&low, &middle, &[FAR]), [(FAR, 3)]);
    assert_eq!(of(&middle, &low, &[FAR]), [(FAR, 1)]);
    assert_eq!(of(&low, &high, &[FAR]), [(FAR, 2), (FAR, 3)]);
    assert_eq!(of(&high, &low, &[FAR]), [(FAR, 0), (FAR, 1)]);
    assert_eq!(of(&high, &high, &[FAR]), []);
    // What lies there but isn't listed doesn't count.
    let mut without = keys(24);
    without.retain(|(key, _)| *key != 3);
    let without = file([1, 1, 1], 4, &without);
    assert_eq!(of(&high, &without, &[FAR]), []);
}

#[test]
fn single_bytes_are_told() {
    for byte in 0..8 {
        let other = 5 ^ (0x81 << (8 * byte));
        let values = of_small(&[(7, 5)], &[(7, other)], &[VALUE_BYTE, KEY_BYTE]);
        assert_eq!(values, [(VALUE_BYTE, byte)]);
        let keys = of_small(&[(5, 7)], &[(other, 7)], &[VALUE_BYTE, KEY_BYTE]);
        assert_eq!(keys, [(KEY_BYTE, byte)]);
    }
    let rows = [VALUE_BYTE, KEY_BYTE];
    assert_eq!(of_small(&[(7, 0)], &[(7, 257)], &rows), []);
    assert_eq!(of_small(&[(0, 0)], &[(257, 0)], &rows), []);
    // Keys of one file aren't compared with each other.
    assert_eq!(of_small(&[(0, 0), (1, 0)], &[], &rows), []);
}

#[test]
fn every_row_has_a_name() {
    for (row, _) in LIST_PAIRS {
        assert!(name(row).is_some(), "{row}");
    }
    assert_eq!(name(1060), None);
}
