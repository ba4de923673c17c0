//! The records of the two files of a merge, taken together.

use crate::list_ways::only_byte;
use second::bytes::two;
use second::differ::Site;
use second::image::standing;
use second::page::{PAGE_BYTES, SLOTS};
use second::room::fits;
use second::state::State;
use std::collections::{BTreeMap, BTreeSet};

/// What either file holds, in the order in which it keeps it and by key.
pub struct Sets {
    kept: [Vec<u64>; 2],
    living: BTreeMap<u64, u64>,
    other: BTreeMap<u64, u64>,
}

impl Sets {
    /// The sets of two files that pass their checks.
    pub fn of(living: Site, other: Site) -> Sets {
        let records = |site: Site| -> Vec<(u64, u64)> {
            let standing = standing(site.area).into_iter();
            standing
                .map(|(_, record)| (record.key, record.value))
                .collect()
        };
        let [one, two] = [living, other].map(records);
        let keys = |records: &[(u64, u64)]| records.iter().map(|(key, _)| *key).collect();
        Sets {
            kept: [keys(&one), keys(&two)],
            living: one.into_iter().collect(),
            other: two.into_iter().collect(),
        }
    }

    /// The keys of both.
    pub fn keys(&self) -> BTreeSet<u64> {
        self.living
            .keys()
            .chain(self.other.keys())
            .copied()
            .collect()
    }

    /// Whether the keys of both have room, whatever their values.
    pub fn have_room(&self, state: State) -> bool {
        let keys: Vec<u64> = self.keys().into_iter().collect();
        fits(state, &keys) == Ok(true)
    }

    /// The records that are in both, the same in key and value.
    pub fn shared(&self) -> usize {
        let held = |(key, value): &(&u64, &u64)| self.other.get(key) == Some(value);
        self.living.iter().filter(held).count()
    }

    /// How the sets overlap, where neither is empty.
    pub fn in_both(&self) -> Option<u16> {
        let shared = self.shared();
        let [living, other] = [&self.living, &self.other].map(BTreeMap::len);
        if living == 0 || other == 0 {
            return None;
        }
        Some(match shared {
            0 => 0,
            all if all == living && all == other => 4,
            all if all == living => 3,
            all if all == other => 2,
            _ => 1,
        })
    }

    fn clashes_at(&self, key: u64) -> bool {
        match (self.living.get(&key), self.other.get(&key)) {
            (Some(one), Some(other)) => one != other,
            _ => false,
        }
    }

    /// The keys that both hold with two values, rising.
    pub fn clashes(&self) -> Vec<u64> {
        let keys = self.living.keys().copied();
        keys.filter(|&key| self.clashes_at(key)).collect()
    }

    /// Whether something else than the told clash comes first: another clash in
    /// other orders, or a lower key that is none.
    pub fn other_first(&self, told: u64) -> [bool; 8] {
        let clashes = self.clashes();
        let first_kept = |kept: &[u64]| {
            let mut kept = kept.iter().copied();
            kept.find(|&key| self.clashes_at(key))
        };
        let below = |held: &BTreeMap<u64, u64>| -> BTreeSet<u64> {
            held.range(..told).map(|(key, _)| *key).collect()
        };
        let [living, other] = [&self.living, &self.other].map(below);
        [
            clashes.iter().min_by_key(|&&key| key as i64) != Some(&told),
            clashes.iter().min_by_key(|&&key| key as u32) != Some(&told),
            clashes.iter().min_by_key(|key| key.to_le_bytes()) != Some(&told),
            first_kept(&self.kept[0]) != Some(told),
            first_kept(&self.kept[1]) != Some(told),
            !living.is_disjoint(&other),
            !living.is_subset(&other),
            !other.is_subset(&living),
        ]
    }

    /// The only byte in which the two values of a key differ, if it is one.
    pub fn only_byte(&self, key: u64) -> Option<u16> {
        only_byte(*self.living.get(&key)?, *self.other.get(&key)?)
    }
}

/// Whether the last page of an area has no slot free.
pub fn last_page_full(area: &[u8]) -> bool {
    let last = area.chunks_exact(PAGE_BYTES).last();
    last.is_some_and(|page| usize::from(two(page, 8)) == SLOTS)
}

/// By how many pages a record went up at most, of those that stood there
/// before; None where none did.
pub fn went_up(before: &[u8], after: &[u8]) -> Option<usize> {
    let after: BTreeMap<u64, usize> = standing(after)
        .into_iter()
        .map(|(page, record)| (record.key, page))
        .collect();
    let ways = standing(before).into_iter().filter_map(|(page, record)| {
        let now = after.get(&record.key)?;
        Some(now.saturating_sub(page))
    });
    ways.max()
}
