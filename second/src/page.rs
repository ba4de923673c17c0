//! One page: its bytes, its rules, and the page as one value.

use crate::bytes::{eight, four, two};
use crate::home::home;
use crate::state::State;

pub const PAGE_BYTES: usize = 256;
pub const HEAD_BYTES: usize = 16;
pub const SLOT_BYTES: usize = 20;
pub const SLOTS: usize = 12;
/// The kind in the head of a page.
pub const PAGE_KIND: u16 = 0x0011;

/// A key with its value.
#[derive(Clone, Copy, Debug, PartialEq, Eq)]
pub struct Record {
    pub key: u64,
    pub value: u64,
}

/// "a count with twelve keys and twelve values". The homes, worked out while
/// judging, are kept beside them so that no later step works them out again.
#[derive(Clone, Copy, Debug, PartialEq, Eq)]
pub struct Page {
    pub count: usize,
    pub keys: [u64; SLOTS],
    pub values: [u64; SLOTS],
    homes: [u64; SLOTS],
}

impl Page {
    pub const EMPTY: Page = Page {
        count: 0,
        keys: [0; SLOTS],
        values: [0; SLOTS],
        homes: [0; SLOTS],
    };

    pub fn full(&self) -> bool {
        self.count == SLOTS
    }

    /// The (home, key) of a used slot.
    pub fn place(&self, slot: usize) -> (u64, u64) {
        (self.homes[slot], self.keys[slot])
    }

    pub fn record(&self, slot: usize) -> Record {
        Record {
            key: self.keys[slot],
            value: self.values[slot],
        }
    }

    /// The (home, key) of the last record, if there is one.
    pub fn last_place(&self) -> Option<(u64, u64)> {
        self.count.checked_sub(1).map(|slot| self.place(slot))
    }

    /// Takes a record into its place, "before an equal (home, key)". Where the
    /// page was full its last record, the new one counted, comes back.
    #[must_use]
    pub fn insert(&mut self, home: u64, record: Record) -> Option<Record> {
        let slot = (0..self.count)
            .find(|&slot| self.place(slot) >= (home, record.key))
            .unwrap_or(self.count);
        if slot == SLOTS {
            return Some(record);
        }
        let last = self.full().then(|| self.record(SLOTS - 1));
        let end = self.count.min(SLOTS - 1);
        for to in (slot + 1..=end).rev() {
            self.copy_slot(to - 1, to);
        }
        self.set(slot, home, record);
        self.count = end + 1;
        last
    }

    /// Takes a record out and closes the slots up.
    pub fn remove(&mut self, slot: usize) {
        for to in slot..self.count - 1 {
            self.copy_slot(to + 1, to);
        }
        self.count -= 1;
        self.set(self.count, 0, Record { key: 0, value: 0 });
    }

    fn copy_slot(&mut self, from: usize, to: usize) {
        self.set(to, self.homes[from], self.record(from));
    }

    fn set(&mut self, slot: usize, home: u64, record: Record) {
        self.homes[slot] = home;
        self.keys[slot] = record.key;
        self.values[slot] = record.value;
    }
}

/// Judges the page at an address that lies within the area. None is a broken
/// page: one of the page rules doesn't hold.
pub fn judge(state: State, area: &[u8], address: usize) -> Option<Page> {
    let bytes = &area[PAGE_BYTES * address..PAGE_BYTES * (address + 1)];
    let count = judge_head(bytes, address)?;
    let mut page = Page::EMPTY;
    for slot in 0..SLOTS {
        let record = judge_slot(slot_bytes(bytes, slot), slot < count)?;
        if slot < count {
            page.set(slot, home(state, record.key), record);
        }
    }
    page.count = count;
    in_order(&page, address).then_some(page)
}

fn slot_bytes(page: &[u8], slot: usize) -> &[u8] {
    let start = HEAD_BYTES + SLOT_BYTES * slot;
    &page[start..start + SLOT_BYTES]
}

/// "the head is exact": gives the count it tells of, at most twelve.
fn judge_head(bytes: &[u8], address: usize) -> Option<usize> {
    let count = usize::from(two(bytes, 8));
    let exact = usize::from(two(bytes, 0)) == PAGE_BYTES
        && two(bytes, 2) == PAGE_KIND
        && four(bytes, 4) as usize == address
        && bytes[10..HEAD_BYTES].iter().all(|&byte| byte == 0);
    (exact && count <= SLOTS).then_some(count)
}

/// "slots are well formed; the count is right": the used slots are exactly
/// those before the count, since "records stand first, empty slots after".
fn judge_slot(bytes: &[u8], used: bool) -> Option<Record> {
    let record = Record {
        key: eight(bytes, 4),
        value: eight(bytes, 12),
    };
    let kind_fits = two(bytes, 2) == u16::from(used);
    let clean = used || (record.key == 0 && record.value == 0);
    (usize::from(two(bytes, 0)) == SLOT_BYTES && kind_fits && clean).then_some(record)
}

/// "every home is at most this page's address; (home, key) rises strictly".
fn in_order(page: &Page, address: usize) -> bool {
    let low = page.homes[..page.count]
        .iter()
        .all(|&home| home <= address as u64);
    low && (1..page.count).all(|slot| page.place(slot - 1) < page.place(slot))
}

/// Writes a page to its part of the area.
pub fn write(area: &mut [u8], address: usize, page: &Page) {
    let bytes = &mut area[PAGE_BYTES * address..PAGE_BYTES * (address + 1)];
    bytes[0..2].copy_from_slice(&(PAGE_BYTES as u16).to_le_bytes());
    bytes[2..4].copy_from_slice(&PAGE_KIND.to_le_bytes());
    bytes[4..8].copy_from_slice(&(address as u32).to_le_bytes());
    bytes[8..10].copy_from_slice(&(page.count as u16).to_le_bytes());
    bytes[10..HEAD_BYTES].fill(0);
    for (slot, bytes) in bytes[HEAD_BYTES..].chunks_exact_mut(SLOT_BYTES).enumerate() {
        let kind = u16::from(slot < page.count);
        bytes[0..2].copy_from_slice(&(SLOT_BYTES as u16).to_le_bytes());
        bytes[2..4].copy_from_slice(&kind.to_le_bytes());
        bytes[4..12].copy_from_slice(&page.keys[slot].to_le_bytes());
        bytes[12..20].copy_from_slice(&page.values[slot].to_le_bytes());
    }
}

#[cfg(test)]
mod tests {
    use super::*;
    use crate::test_files::STATE;

    fn area_of(keys: &[u64]) -> Vec<u8> {
        let mut page = Page::EMPTY;
        for &key in keys {
            assert_eq!(
                page.insert(
                    0,
                    Record {
                        key,
                        value: key + 1
                    }
                ),
                None
            );
        }
        let mut area = vec![0xaa; 512];
        write(&mut area, 1, &page);
        area
    }

    #[test]
    fn what_is_written_is_judged_well() {
        let area = area_of(&[5, 3, 9]);
        let page = judge(STATE, &area, 1).expect("a page that was just written");
        assert_eq!((page.count, &page.keys[..4]), (3, &[3, 5, 9, 0][..]));
        assert_eq!(judge(STATE, &area, 0), None);
    }

    /// At size 2 key 1 lives on page 1 in edition 1 and on page 0 in edition 2,
    /// so a page 0 that holds it is broken in edition 1 alone. Key 0 lives on
    /// page 1 in both.
    #[test]
    fn homes_are_judged_by_the_edition() {
        let whole = |edition, key| {
            let mut page = Page::EMPTY;
            assert_eq!(page.insert(0, Record { key, value: 1 }), None);
            let mut area = vec![0; 512];
            write(&mut area, 0, &page);
            let state = State {
                pages: 2,
                edition,
                ..STATE
            };
            judge(state, &area, 0).is_some()
        };
        assert!(!whole(1, 1) && whole(2, 1));
        assert!(!whole(1, 0) && !whole(2, 0));
    }

    #[test]
    fn nearly_every_changed_byte_breaks_a_page() {
        let good = area_of(&[5, 3, 9]);
        for at in 256..512 {
            let mut area = good.clone();
            area[at] ^= 0x40;
            let slot = (at - 256).saturating_sub(HEAD_BYTES) / SLOT_BYTES;
            let within = (at - 256).saturating_sub(HEAD_BYTES) % SLOT_BYTES;
            let value_of_record = at >= 272 && slot < 3 && within >= 12;
            let last_key = slot == 2 && (4..12).contains(&within);
            assert_eq!(
                judge(STATE, &area, 1).is_some(),
                value_of_record || last_key,
                "{at}"
            );
        }
    }

    #[test]
    fn a_full_page_gives_up_its_last() {
        let mut page = Page::EMPTY;
        for key in 0..12 {
            assert_eq!(page.insert(0, Record { key, value: 0 }), None);
        }
        let mut other = page;
        assert_eq!(
            page.insert(0, Record { key: 3, value: 7 }).map(|r| r.key),
            Some(11)
        );
        assert_eq!((page.values[3], page.keys[4], page.values[4]), (7, 3, 0));
        assert_eq!(
            other.insert(0, Record { key: 12, value: 1 }).map(|r| r.key),
            Some(12)
        );
        assert_eq!(other.keys[11], 11);
    }
}
