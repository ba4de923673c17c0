//! What refused merges are told by.

use super::*;
use second::page::PAGE_BYTES;

#[test]
fn clashes_are_told() {
    let rows = [CLASHES, VALUE_BYTE, CLASH_ROOM];
    let one = ones(1, &[(1, 10), (2, 20), (3, 30), (4, 40)]);
    let with = |other: &[(u64, u64)]| told(&one, &ones(3, other), &rows);
    let room = (CLASH_ROOM, 0);
    assert_eq!(with(&[(3, 31)]), [(CLASHES, 1), (VALUE_BYTE, 0), room]);
    let far = 30 ^ 0xff << 56;
    assert_eq!(with(&[(3, far)]), [(CLASHES, 1), (VALUE_BYTE, 7), room]);
    assert_eq!(with(&[(3, far ^ 1)]), [(CLASHES, 1), room]);
    assert_eq!(with(&[(3, 31), (2, 21)]), [(CLASHES, 2), room]);
    assert_eq!(with(&noughts(1..4)), [(CLASHES, 3), room]);
    assert_eq!(with(&noughts(1..5)), [(CLASHES, 3), room]);
    let many = noughts(4..13);
    let told = with(&many);
    assert_eq!(told, [(CLASHES, 1), (VALUE_BYTE, 0), room]);
    let many = noughts(4..14);
    let told = with(&many);
    assert_eq!(told, [(CLASHES, 1), (VALUE_BYTE, 0), (CLASH_ROOM, 1)]);
}

/// With three pages to start with, 6, 4 and 5 live on pages 0, 1 and 2.
#[test]
fn other_orders_of_clashes_are_told() {
    let apart = |one: &[(u64, u64)], other: &[(u64, u64)]| {
        let living = file([3, 1, 1], 4, 1, 0, one);
        let pairs = told(&living, &ones(1, other), &[LOWEST]);
        pairs.into_iter().map(|(_, way)| way).collect::<Vec<u16>>()
    };
    assert_eq!(apart(&[(4, 1)], &[(4, 0)]), []);
    assert_eq!(apart(&[(4, 1), (6, 1)], &noughts([4, 6])), [3]);
    // The other file has one page and keeps them by key.
    assert_eq!(apart(&[(4, 1), (5, 1)], &noughts([4, 5])), []);
    let turned = |one: &[(u64, u64)], two: &[(u64, u64)]| {
        let other = file([3, 1, 1], 4, 1, 0, two);
        told(&ones(1, one), &other, &[LOWEST])
    };
    assert_eq!(turned(&[(4, 1), (6, 1)], &noughts([4, 6])), [(LOWEST, 4)]);
    let top = 1 << 63;
    let with_three = |key: u64| apart(&[(3, 1), (key, 1)], &noughts([3, key]));
    assert_eq!(with_three(top + 4), [0]);
    assert_eq!(with_three(1 << 32), [1, 2]);
    assert_eq!(with_three(256), [2]);
    // Lower keys that are no clash.
    assert_eq!(apart(&[(1, 0), (4, 1)], &noughts([1, 4])), [5]);
    assert_eq!(apart(&[(1, 0), (4, 1)], &noughts([4])), [6]);
    assert_eq!(apart(&[(4, 1)], &noughts([1, 4])), [7]);
    assert_eq!(apart(&[(9, 0), (4, 1)], &noughts([4, 8])), []);
}

#[test]
fn want_of_room_is_told() {
    let rows = [TIGHT];
    let ways = |living: &Trial, keys: std::ops::Range<u64>| {
        let pairs = told(living, &ones(4, &noughts(keys)), &rows);
        pairs.into_iter().map(|(_, way)| way).collect::<Vec<u16>>()
    };
    let living = ones(1, &noughts(0..6));
    assert_eq!(ways(&living, 6..12), []);
    assert_eq!(ways(&living, 6..13), [1]);
    assert_eq!(ways(&living, 5..13), [1, 3]);
    assert_eq!(ways(&living, 5..14), [2, 3]);
    assert_eq!(ways(&ones(1, &noughts(0..12)), 12..13), [1, 4]);
    assert_eq!(ways(&ones(1, &[]), 0..13), [1, 5]);
    // Thirteen that live on the second page of two.
    let grown = file([1, 1, 1], 2, 1, 1, &noughts(0..6));
    assert_eq!(ways(&grown, 6..13), [0]);
    assert_eq!(ways(&grown, 5..13), [0, 3]);
}

/// The living file is grown to two of four pages, and the other has six.
#[test]
fn wrong_rows_are_told() {
    let living = file([1, 2, 1], 4, 1, 0, &noughts(0..3));
    let other = ones(6, &[]);
    let with = |length: usize| {
        let mut asked = case(&living, &other);
        asked.row.resize(length, 7);
        let mut pairs = of(&asked, &[FILE, TOGETHER, ROW]);
        let file: Vec<Pair> = pairs.drain(..2).collect();
        assert_eq!(file, [(FILE, 13), (TOGETHER, 30)]);
        pairs.into_iter().map(|(_, way)| way).collect::<Vec<u16>>()
    };
    assert_eq!(with(0), [0]);
    assert_eq!(with(1), []);
    assert_eq!(with(2), [4]);
    assert_eq!(with(3), [1]);
    assert_eq!(with(5), [2]);
    assert_eq!(with(6), [3]);
    assert_eq!([with(8), with(9)], [vec![], vec![5]]);
}

/// A file of so many pages that a check refuses with this.
fn wrong(cap: u16, refusal: u16) -> Trial {
    let mut file = ones(cap, &noughts(0..2));
    match refusal {
        1 => file.state.n0 = 0,
        2 => file.area.push(0),
        4 => file.area[PAGE_BYTES] ^= 1,
        9 => file.state.records = 1,
        _ => {}
    }
    file
}

/// All that is wrong is told together, and the first of it by its file.
#[test]
fn files_and_rows_that_are_wrong_together() {
    let mut seen = Vec::new();
    for living in [0, 1, 2, 4, 9] {
        for row in [0, 3] {
            for other in [0, 1, 2, 4, 9] {
                let mut asked = case(&wrong(2, living), &wrong(3, other));
                asked.row.resize(if row == 0 { 2 } else { 3 }, 7);
                let first = match (living, row, other) {
                    (0, 0, 0) => continue,
                    (1 | 2, ..) => 10 + living,
                    (_, 3, _) => 13,
                    (4 | 9, ..) => 10 + living,
                    _ => 20 + other,
                };
                let together = 100 * living + 10 * row + other;
                let expected = [(FILE, first), (TOGETHER, together)];
                assert_eq!(of(&asked, &[FILE, TOGETHER]), expected);
                seen.push(together);
            }
        }
    }
    assert_eq!(seen, ALL_WRONG);
}

/// What is wrong with a file is told as it is of comparisons, in other rows.
#[test]
fn faults_have_rows_of_their_own() {
    let rows: Vec<u16> = MERGE_PAIRS.iter().skip(15).map(|(row, _)| *row).collect();
    let both = |refusal| {
        [
            told(&wrong(2, refusal), &wrong(3, 0), &rows),
            told(&wrong(2, 0), &wrong(3, refusal), &rows),
        ]
    };
    let [number, length, page, count] = [NUMBER, LENGTH, PAGE, COUNT].map(|both| {
        let [living, other] = both;
        [living + OF_MERGES, other + OF_MERGES]
    });
    assert_eq!(both(1), number.map(|row| vec![(row, 0)]));
    assert_eq!(both(2), length.map(|row| vec![(row, 2)]));
    assert_eq!(both(4), [vec![(page[0], 2)], vec![(page[1], 1)]]);
    assert_eq!(both(9), count.map(|row| vec![(row, 1)]));
    let mut other = wrong(3, 0);
    other.state.edition = 3;
    let expected = [(number[1], 4), (EDITION + OF_MERGES, 3)];
    assert_eq!(told(&wrong(2, 0), &other, &rows), expected);
}
