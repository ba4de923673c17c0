//! Files drawn at random, merged both ways round and one after the other.

use super::*;
use crate::test_files::Draws;
use std::collections::BTreeMap;

/// Draws files of few keys, each of which mostly has the value that it has in
/// every file.
fn draws() -> Draws {
    Draws {
        last: 1,
        keys: 90,
        spare_pages: 4,
        value: |draws| u64::from(draws.below(200) == 0),
    }
}

/// The set of both, None where a key has two values.
fn in_both(one: &Trial, two: &Trial) -> Option<Vec<(u64, u64)>> {
    let mut all: BTreeMap<u64, u64> = held(one).into_iter().collect();
    for (key, value) in held(two) {
        if *all.entry(key).or_insert(value) != value {
            return None;
        }
    }
    Some(all.into_iter().collect())
}

/// Every refusal that two right files can give comes often, and what is
/// accepted holds the set of both.
#[test]
fn either_way_round_the_set_is_that_of_both() {
    let mut draws = draws();
    let mut refusals = BTreeMap::<(u16, u16), usize>::new();
    for round in 0..400 {
        let most = [3, 40, 80, 200][round % 4];
        let (one, two) = (draws.file(most), draws.file(most));
        let both = in_both(&one, &two);
        let told = [(&one, &two), (&two, &one)].map(|(living, other)| {
            let mut after = copy(living);
            let (merged, _) = merged(&mut after, other, living.state.cap.into());
            let refusal = merged.answer.refusal;
            assert_eq!(refusal == CLASH, both.is_none(), "round {round}");
            assert!(refusal != 0 || Some(held(&after)) == both);
            refusal
        });
        *refusals.entry((told[0], told[1])).or_default() += 1;
    }
    let seen: Vec<(u16, u16)> = refusals.keys().copied().collect();
    assert_eq!(seen, [(0, 0), (0, 7), (7, 0), (7, 7), (13, 13)]);
    assert!(refusals.values().all(|&times| times >= 10), "{refusals:?}");
}

/// Sites retired one after the other: in whatever order they are merged, the
/// living file ends with the same bytes.
#[test]
fn the_order_of_several_merges_does_not_matter() {
    let living = grown([2, 2, 3], 10, 2, 4, &tenfold(0..20));
    let others = [
        holding(3, &tenfold(15..40)),
        grown([1, 3, 2], 6, 2, 2, &tenfold((0..30).map(|key| 77 * key))),
        grown([4, 1, 1], 5, 1, 0, &tenfold(u64::MAX - 20..u64::MAX)),
    ];
    let orders = [
        [0, 1, 2],
        [0, 2, 1],
        [1, 0, 2],
        [1, 2, 0],
        [2, 0, 1],
        [2, 1, 0],
    ];
    let ends = orders.map(|order| {
        let mut file = copy(&living);
        for number in order {
            file = accepted(&file, &others[number]).0;
        }
        file
    });
    assert!(ends.iter().all(|end| end.area == ends[0].area));
    // 40 and 20 records, and 29 multiples of 77, of which none else is below 40
    // but 0.
    assert_eq!(ends[0].state.records, 40 + 20 + 29);
}
