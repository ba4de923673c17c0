//! Values to offer: with a held key the held one about as often as another.

use crate::random::Random;
use second::image::standing;

/// A value to offer with a key, wherever in the area it stands. Where it
/// stands nowhere, any value; where it stands more than once, any of its
/// values is taken for the held one.
pub fn offered(random: &mut Random, area: &[u8], key: u64) -> u64 {
    let records = standing(area);
    let held: Vec<u64> = records
        .iter()
        .filter(|(_, record)| record.key == key)
        .map(|(_, record)| record.value)
        .collect();
    if held.is_empty() {
        return random.value();
    }
    let held = random.pick(&held);
    match random.index(8) {
        0..=3 => held,
        // What stands near the held value may not be taken for it.
        4 => random.pick(&records).1.value,
        5 => key,
        _ => other(random, held),
    }
}

/// The held value, or as often another one.
pub fn again(random: &mut Random, held: u64) -> u64 {
    if random.one_in(2) {
        return held;
    }
    other(random, held)
}

/// Another value than the held one. Often a single bit makes the difference,
/// so that no part of a value goes uncompared.
pub fn other(random: &mut Random, held: u64) -> u64 {
    let other = match random.index(4) {
        0 | 1 => held ^ (1 << random.index(64)),
        2 => held.wrapping_add(random.pick(&[1, u64::MAX])),
        _ => random.value(),
    };
    if other == held {
        !held
    } else {
        other
    }
}

#[cfg(test)]
mod tests {
    use super::*;
    use second::image::page_bytes;
    use second::page::Record;

    #[test]
    fn another_value_is_never_the_held_one() {
        let mut random = Random::new(1, 0);
        for _ in 0..2000 {
            let held = random.value();
            assert_ne!(other(&mut random, held), held);
        }
    }

    #[test]
    fn both_are_offered_in_good_measure() {
        let mut random = Random::new(2, 0);
        let records = [(3, 700), (5, 900)].map(|(key, value)| Record { key, value });
        let area = page_bytes(0, &records);
        let offers: Vec<u64> = (0..1000).map(|_| offered(&mut random, &area, 5)).collect();
        let count = |value| offers.iter().filter(|&&offer| offer == value).count();
        assert!((400..700).contains(&count(900)), "{}", count(900));
        assert!(count(5) > 50 && count(700) > 20);
        assert!(count(900 ^ 1 << 63) > 0 && count(900 ^ 1 << 32) > 0);
    }
}
