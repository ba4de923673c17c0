//! The one image, laid out from scratch from a list of records. Nothing here
//! walks or judges pages: an area is an image exactly when laying out the
//! records that stand in it gives the same bytes.

use crate::bytes::{eight, two};
use crate::home::home;
use crate::page::{Record, HEAD_BYTES, PAGE_BYTES, PAGE_KIND, SLOTS, SLOT_BYTES};
use crate::state::State;

/// The image of a record set, or None where it doesn't fit or a key is held
/// twice. The r of the state isn't looked at.
pub fn lay_out(state: State, records: &[Record]) -> Option<Vec<u8>> {
    let mut placed: Vec<(u64, u64, u64)> = records
        .iter()
        .map(|record| (home(state, record.key), record.key, record.value))
        .collect();
    placed.sort_unstable();
    if placed.windows(2).any(|pair| pair[0].1 == pair[1].1) {
        return None;
    }
    let mut pages: Vec<Vec<Record>> = vec![Vec::new(); usize::from(state.cap)];
    for (home, key, value) in placed {
        // "every page from its home up to the one before it full"
        let page = pages
            .iter_mut()
            .skip(home as usize)
            .find(|page| page.len() < SLOTS)?;
        page.push(Record { key, value });
    }
    let bytes = pages
        .iter()
        .enumerate()
        .flat_map(|(address, page)| page_bytes(address, page));
    Some(bytes.collect())
}

/// The bytes of one page, in the order in which the rules name them.
pub fn page_bytes(address: usize, records: &[Record]) -> Vec<u8> {
    let mut bytes = Vec::with_capacity(PAGE_BYTES);
    bytes.extend((PAGE_BYTES as u16).to_le_bytes());
    bytes.extend(PAGE_KIND.to_le_bytes());
    bytes.extend((address as u32).to_le_bytes());
    bytes.extend((records.len() as u16).to_le_bytes());
    bytes.extend([0; 6]);
    for slot in 0..SLOTS {
        let record = records.get(slot);
        let (key, value) = record.map_or((0, 0), |record| (record.key, record.value));
        bytes.extend((SLOT_BYTES as u16).to_le_bytes());
        bytes.extend(u16::from(record.is_some()).to_le_bytes());
        bytes.extend(key.to_le_bytes());
        bytes.extend(value.to_le_bytes());
    }
    bytes
}

/// Every slot of kind 1 with the page it stands on, wherever it stands.
pub fn standing(area: &[u8]) -> Vec<(usize, Record)> {
    let mut found = Vec::new();
    for (address, page) in area.chunks_exact(PAGE_BYTES).enumerate() {
        for slot in page[HEAD_BYTES..].chunks_exact(SLOT_BYTES) {
            if two(slot, 2) == 1 {
                found.push((
                    address,
                    Record {
                        key: eight(slot, 4),
                        value: eight(slot, 12),
                    },
                ));
            }
        }
    }
    found
}

/// The records of an area that is the image of r records, None otherwise.
/// The state has to be in range.
pub fn records_of(state: State, area: &[u8]) -> Option<Vec<Record>> {
    let records: Vec<Record> = standing(area)
        .into_iter()
        .map(|(_, record)| record)
        .collect();
    let right_count = records.len() == state.records as usize;
    let same = right_count && lay_out(state, &records).as_deref() == Some(area);
    same.then_some(records)
}

/// How many records stand in both areas, on another page in the second.
pub fn changed_page(before: &[u8], after: &[u8]) -> usize {
    let mut now: Vec<(u64, usize)> = standing(after)
        .into_iter()
        .map(|(address, record)| (record.key, address))
        .collect();
    now.sort_unstable();
    let elsewhere = |&(address, record): &(usize, Record)| {
        now.binary_search_by_key(&record.key, |&(key, _)| key)
            .is_ok_and(|found| now[found].1 != address)
    };
    standing(before)
        .iter()
        .filter(|standing| elsewhere(standing))
        .count()
}

#[cfg(test)]
mod tests {
    use super::*;

    const STATE: State = State {
        n0: 1,
        groups: 1,
        sweeps: 1,
        pages: 2,
        cap: 2,
        edition: 1,
        records: 12,
    };

    fn keys(range: std::ops::Range<u64>) -> Vec<Record> {
        range
            .map(|key| Record {
                key,
                value: 100 + key,
            })
            .collect()
    }

    #[test]
    fn twelve_small_keys_live_on_page_one() {
        let area = lay_out(STATE, &keys(0..12)).expect("twelve records fit");
        assert_eq!(
            standing(&area)
                .iter()
                .filter(|(address, _)| *address == 1)
                .count(),
            12
        );
        assert_eq!(records_of(STATE, &area), Some(keys(0..12)));
        assert_eq!(lay_out(STATE, &keys(0..13)), None);
    }

    /// In edition 2 only six of them do, and neither edition takes the other's
    /// image for its own.
    #[test]
    fn each_edition_has_its_own_image() {
        let second = State {
            edition: 2,
            ..STATE
        };
        let images = [STATE, second].map(|state| lay_out(state, &keys(0..12)));
        let [one, two] = images.map(|image| image.expect("twelve records fit"));
        let on_page_one: Vec<u64> = standing(&two)
            .iter()
            .filter(|(address, _)| *address == 1)
            .map(|(_, record)| record.key)
            .collect();
        assert_eq!(on_page_one, [0, 2, 5, 7, 8, 10]);
        assert_eq!(changed_page(&one, &two), 6);
        assert!(records_of(second, &two).is_some());
        assert!(records_of(STATE, &two).is_none() && records_of(second, &one).is_none());
    }

    #[test]
    fn a_wrong_count_or_a_gap_is_no_image() {
        let area = lay_out(STATE, &keys(0..11)).expect("eleven records fit");
        assert_eq!(records_of(STATE, &area), None);
        let mut gap = page_bytes(0, &[]);
        gap.extend(page_bytes(1, &keys(0..1)));
        let at_one = State {
            pages: 1,
            records: 1,
            ..STATE
        };
        assert_eq!(records_of(at_one, &gap), None);
        let at_two = State {
            records: 1,
            ..STATE
        };
        assert_eq!(records_of(at_two, &gap), Some(keys(0..1)));
    }

    #[test]
    fn a_key_twice_has_no_image() {
        assert_eq!(lay_out(STATE, &[keys(0..1), keys(0..1)].concat()), None);
    }
}
