//! Every way to break a page.

use crate::keys::key_with_home;
use crate::random::Random;
use second::bytes::two;
use second::home::home;
use second::page::{HEAD_BYTES, PAGE_BYTES, SLOTS, SLOT_BYTES};
use second::state::State;

/// How many ways `break_page` knows.
const WAYS: usize = 18;

/// Breaks a page of an image in one random way. Some ways need a record or an
/// empty slot; where there is none the page may stay whole.
pub fn break_page(random: &mut Random, state: State, area: &mut [u8], address: usize) {
    let page = &mut area[PAGE_BYTES * address..PAGE_BYTES * (address + 1)];
    let way = random.index(WAYS);
    match way {
        0..=6 => break_head(random, page, way),
        7..=13 => break_slot(random, page, way),
        _ => break_order(random, state, page, address, way),
    }
}

fn set_two(bytes: &mut [u8], at: usize, number: u16) {
    bytes[at..at + 2].copy_from_slice(&number.to_le_bytes());
}

fn set_eight(bytes: &mut [u8], at: usize, number: u64) {
    bytes[at..at + 8].copy_from_slice(&number.to_le_bytes());
}

fn break_head(random: &mut Random, page: &mut [u8], way: usize) {
    let count = two(page, 8);
    match way {
        0 => set_two(page, 0, random.pick(&[0, 255, 257, 1, 512, 20])),
        1 => set_two(page, 2, random.pick(&[0, 1, 0x10, 0x12, 0x1100, 0x0111])),
        2 => page[4 + random.index(4)] ^= 1 << random.index(8),
        3 => set_two(
            page,
            8,
            count.wrapping_add(random.pick(&[1, 0xffff, 2, 0xfffe])),
        ),
        4 => set_two(
            page,
            8,
            random.pick(&[12, 13, 14, 255, 256, 65535, count ^ 0x100]),
        ),
        5 => page[10 + random.index(6)] = random.within(1, 255) as u8,
        _ => page[random.index(HEAD_BYTES)] ^= 1 << random.index(8),
    }
}

/// The bytes at which a slot starts within its page.
fn slot_start(slot: usize) -> usize {
    HEAD_BYTES + SLOT_BYTES * slot
}

fn break_slot(random: &mut Random, page: &mut [u8], way: usize) {
    let count = usize::from(two(page, 8)).min(SLOTS);
    let at = slot_start(random.index(SLOTS));
    let empty = slot_start((count + random.index(SLOTS)).min(SLOTS - 1));
    match way {
        7 => set_two(page, at, random.pick(&[0, 19, 21, 0x1400, 0x0114, 65535])),
        8 => set_two(
            page,
            at + 2,
            random.pick(&[0, 1, 2, 3, 0x100, 0x101, 0x8001]),
        ),
        9 if count < SLOTS => page[empty + 4 + random.index(8)] ^= 1 << random.index(8),
        10 if count < SLOTS => page[empty + 12 + random.index(8)] ^= 1 << random.index(8),
        11 if count < SLOTS => set_two(page, empty + 2, 1),
        12 if count > 0 => clear_one(random, page, count),
        _ => page[HEAD_BYTES + random.index(PAGE_BYTES - HEAD_BYTES)] ^= 1 << random.index(8),
    }
}

/// Empties a slot among the records, so that one stands after an empty slot;
/// the count follows at times.
fn clear_one(random: &mut Random, page: &mut [u8], count: usize) {
    let at = slot_start(random.index(count));
    page[at + 2..at + SLOT_BYTES].fill(0);
    if random.one_in(2) {
        set_two(page, 8, count as u16 - 1);
    }
}

fn break_order(random: &mut Random, state: State, page: &mut [u8], address: usize, way: usize) {
    let count = usize::from(two(page, 8)).min(SLOTS);
    if count == 0 {
        page[random.index(PAGE_BYTES)] ^= 1 << random.index(8);
        return;
    }
    let (one, other) = (
        slot_start(random.index(count)),
        slot_start(random.index(count)),
    );
    match way {
        14 => swap_slots(page, one, other),
        15 if one + SLOT_BYTES < slot_start(count) => {
            // The next record gets this one's key: (home, key) doesn't rise.
            page.copy_within(one + 4..one + 12, one + SLOT_BYTES + 4);
        }
        16 => home_above(random, state, page, one, address),
        _ => set_eight(page, one + 4, random.next()),
    }
}

fn swap_slots(page: &mut [u8], one: usize, other: usize) {
    let kept: Vec<u8> = page[one..one + SLOT_BYTES].to_vec();
    page.copy_within(other..other + SLOT_BYTES, one);
    page[other..other + SLOT_BYTES].copy_from_slice(&kept);
}

/// A key whose home lies above the page, in the last slot it would fit best.
fn home_above(random: &mut Random, state: State, page: &mut [u8], at: usize, address: usize) {
    let above = random.within(address as u64 + 1, address as u64 + 2);
    let last = slot_start(usize::from(two(page, 8)).clamp(1, SLOTS) - 1);
    let key = key_with_home(random, state, above);
    let best = home(state, key) > address as u64;
    set_eight(page, if best { last + 4 } else { at + 4 }, key);
}
