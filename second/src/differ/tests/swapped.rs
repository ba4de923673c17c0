//! Files drawn at random, compared both ways round.

use super::*;
use crate::bytes::two;
use crate::page::SLOTS;
use crate::test_files::Draws;

/// Draws files of few keys and few values.
fn draws(last: u64) -> Draws {
    Draws {
        last,
        keys: 60,
        spare_pages: 8,
        value: |draws| draws.below(2),
    }
}

/// The list with 769 and 770 exchanged, and so the values of 771 and the
/// counts of the closing record.
fn mirrored(list: &[u8]) -> Vec<u8> {
    let mut mirrored = Vec::new();
    let mut rest = list;
    while !rest.is_empty() {
        let (record, behind) = rest.split_at(usize::from(two(rest, 0)));
        rest = behind;
        match two(record, 2) {
            769 => mirrored.extend([&hex("1400 0203")[..], &record[4..]].concat()),
            770 => mirrored.extend([&hex("1400 0103")[..], &record[4..]].concat()),
            771 => {
                let (kept, first, second) = (&record[..12], &record[12..20], &record[20..]);
                mirrored.extend([kept, second, first].concat());
            }
            _ => {
                let (head, first, second, both) =
                    (&record[..4], &record[4..8], &record[8..12], &record[12..]);
                mirrored.extend([head, second, first, both].concat());
            }
        }
    }
    mirrored
}

#[test]
fn the_other_way_round_the_list_is_mirrored() {
    let mut draws = draws(1);
    let mut kinds = BTreeMap::<u16, usize>::new();
    for round in 0..300 {
        let most = [0, 3, 40, 200][round % 4];
        let (first, second) = (draws.file(most), draws.file(most));
        let (one, two_way) = (list(&first, &second), list(&second, &first));
        assert_eq!(two_way, mirrored(&one), "round {round}");
        let mut rest = &one[..];
        while !rest.is_empty() {
            *kinds.entry(two(rest, 2)).or_default() += 1;
            rest = &rest[usize::from(two(rest, 0))..];
        }
    }
    assert_eq!(
        kinds.keys().copied().collect::<Vec<_>>(),
        [769, 770, 771, 772]
    );
    assert!(kinds.values().all(|&times| times >= 300), "{kinds:?}");
}

/// The records of a file, read off its pages without judging them.
fn set_of(file: &Trial) -> Set {
    let standing = crate::image::standing(&file.area).into_iter();
    standing
        .map(|(_, record)| (record.key, record.value))
        .collect()
}

/// What happens to a file is what the list says of it, before and after.
#[test]
fn a_file_and_what_became_of_it() {
    let mut draws = draws(7);
    for round in 0..60 {
        let before = draws.file(60);
        let mut after = copy(&before);
        for _ in 0..draws.below(2 * SLOTS as u64) {
            let (key, value) = (draws.key(), draws.below(3));
            let call = match draws.below(5) {
                0 => Call::Grow,
                1 => Call::Shrink,
                2 => Call::Remove { key },
                _ => Call::Put { key, value },
            };
            after.ask(call).expect("agrees");
        }
        let (old, new) = (set_of(&before), set_of(&after));
        let gone = old.keys().filter(|&key| !new.contains_key(key)).count();
        let come = new.keys().filter(|&key| !old.contains_key(key)).count();
        let other = |(key, value): &(&u64, &u64)| old.get(key).is_some_and(|held| held != *value);
        let changed = new.iter().filter(other).count();
        let list = list(&before, &after);
        let counts = [gone, come, changed].map(|count| (count as u32).to_le_bytes());
        assert_eq!(list[list.len() - 12..], counts.concat(), "round {round}");
        assert_eq!(list.len(), 20 * (gone + come) + 28 * changed + 16);
    }
}
