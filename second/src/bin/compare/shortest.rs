//! One raw call for each call and each refusal it can give, for each way that a
//! run, a shrink or a comparison can take or an edition can count, and for some
//! ways of a merge, the shortest of many: a run small enough to be stored.

use crate::cases::scene;
use crate::random::Random;
use crate::sink::Sink;
use crate::ways::{stored, Pair};
use std::collections::BTreeMap;
use std::io::Write;

/// So many calls are looked through.
const CALLS: u64 = 50_000;

/// Writes their records, one after the other, in the order of the pairs.
pub fn write(seed: u64, to: &mut impl Write) -> Result<(), String> {
    for record in pick(seed, CALLS)?.values() {
        to.write_all(record).map_err(|error| error.to_string())?;
    }
    to.flush().map_err(|error| error.to_string())
}

/// Records by what they count for. Those of long runs and large files aren't
/// kept.
fn pick(seed: u64, calls: u64) -> Result<BTreeMap<Pair, Vec<u8>>, String> {
    let mut picked = BTreeMap::<Pair, Vec<u8>>::new();
    let mut sink = Sink::new(seed, calls);
    let mut piece = 0;
    while !sink.full() {
        scene(&mut Random::new(seed, piece), &mut sink)?;
        piece += 1;
        for asked in sink.asked.drain(..) {
            for &pair in asked.pairs.iter().filter(|&&pair| stored(pair)) {
                let best = picked.entry(pair).or_default();
                if best.is_empty() || asked.record.len() < best.len() {
                    best.clone_from(&asked.record);
                }
            }
        }
    }
    Ok(picked)
}

#[cfg(test)]
mod tests {
    use super::*;
    use crate::table::raw_pairs;
    use crate::ENOUGH_CALLS;

    #[test]
    fn every_possible_pair_is_picked() {
        let picked = pick(1985, ENOUGH_CALLS).expect("agrees with itself");
        let all = raw_pairs();
        let pairs = all
            .iter()
            .flat_map(|(row, numbers)| numbers.iter().map(|&number| (*row, number)));
        assert_eq!(
            picked.into_keys().collect::<Vec<_>>(),
            pairs.filter(|&pair| stored(pair)).collect::<Vec<_>>()
        );
    }
}
