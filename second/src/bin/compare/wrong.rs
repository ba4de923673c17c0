//! States, lengths and formats that are wrong in one number.

use crate::random::Random;
use second::page::PAGE_BYTES;
use second::raw::{LONGEST_ROW, LONGEST_STRING};
use second::state::State;

/// Puts one number out of its range, low or high; the last ways stay in range
/// at its very edge, where only the area's length is wrong.
pub fn wrong_state(random: &mut Random, good: State) -> State {
    let start = good.n0 * good.groups;
    let most = 12 * u32::from(good.cap);
    let mut state = good;
    match random.index(16) {
        0 => state.n0 = 0,
        1 => state.n0 = random.pick(&[5, 6, 256, 65535]),
        2 => state.groups = 0,
        3 => state.groups = random.pick(&[65, 66, 320, 65535]),
        4 => state.sweeps = 0,
        5 => state.sweeps = random.pick(&[9, 10, 264, 65535]),
        6 => state.pages = random.pick(&[0, start - 1]),
        7 => state.pages = random.pick(&[good.cap + 1, good.cap + 2, 65535]),
        8 => state.cap = random.pick(&[0, good.pages - 1]),
        9 => state.cap = random.pick(&[4097, 4096, 4098, 65535]),
        10 => state.records = random.pick(&[most + 1, u32::MAX, most + 13]),
        11 | 12 => state.edition = wrong_edition(random),
        13 => state = any_state(random),
        _ => state = wide_state(random),
    }
    state
}

/// An edition that there isn't, for a state or a log.
pub fn wrong_edition(random: &mut Random) -> u16 {
    if random.one_in(4) {
        return u16::MAX;
    }
    let bytes = random.within(0, 2);
    wrong_asked(random, bytes) as u16
}

/// An edition of so many bytes that there isn't. Many would do if their high
/// bytes were dropped.
pub fn wrong_asked(random: &mut Random, bytes: u64) -> u64 {
    match bytes {
        0 => 0,
        1 if random.one_in(2) => 3,
        1 => random.within(3, 255),
        _ => {
            let unit = 1 << (8 * (bytes - 1));
            let (top, low) = (random.within(1, 255), random.next());
            random.pick(&[1, 1, top]) * unit + random.pick(&[0, 1, 2, low]) % unit
        }
    }
}

/// The widest numbers there may be, of which at most one is out of range, by
/// one. No area is as long as these ask for.
fn wide_state(random: &mut Random) -> State {
    let (n0, groups) = (random.pick(&[1, 4]), random.pick(&[63, 64]));
    let (pages, records) = (random.pick(&[400, 4096]), random.pick(&[0, 49_152]));
    let mut wide = State {
        n0,
        groups,
        sweeps: random.pick(&[1, 8]),
        pages,
        cap: 4096,
        edition: random.pick(&[1, 2]),
        records,
    };
    match random.index(10) {
        0 => wide.n0 = 5,
        1 => wide.groups = 65,
        2 => wide.sweeps = 9,
        3 => wide.cap = 4097,
        4 => wide.pages = n0 * groups - 1,
        5 => wide.pages = n0 * groups,
        6 => wide.pages = 4097,
        7 => wide.records = 49_153,
        8 => wide.edition = random.pick(&[0, 3]),
        _ => {}
    }
    wide
}

fn any_state(random: &mut Random) -> State {
    let mut number = |most| random.within(0, most) as u16;
    let (n0, groups, sweeps) = (number(6), number(66), number(9));
    let (pages, cap, edition) = (number(70), number(70), number(3));
    State {
        n0,
        groups,
        sweeps,
        pages,
        cap,
        edition,
        records: random.within(0, 900) as u32,
    }
}

/// Formats at the edges of the ranges and one beyond.
const WIDE_FORMATS: [[u16; 4]; 9] = [
    [4, 64, 8, 255],
    [4, 64, 8, 256],
    [4, 64, 8, 4096],
    [4, 64, 8, 4097],
    [4, 64, 9, 4096],
    [5, 64, 8, 4096],
    [4, 65, 8, 4096],
    [1, 65, 1, 65],
    [5, 1, 1, 5],
];

/// Formats wrong in one number, or in the product n0 x N.
pub fn wrong_format(random: &mut Random, good: State) -> [u16; 4] {
    let State {
        n0,
        groups,
        sweeps,
        cap,
        ..
    } = good;
    match random.index(9) {
        0 => [random.pick(&[0, 5, 65535]), groups, sweeps, cap],
        1 => [n0, random.pick(&[0, 65, 65535]), sweeps, cap],
        2 => [n0, groups, random.pick(&[0, 9, 65535]), cap],
        3 => [n0, groups, sweeps, random.pick(&[0, 4096, 4097, 65535])],
        4 => [n0, groups, sweeps, n0 * groups - 1],
        5 => [
            n0,
            groups,
            sweeps,
            random.pick(&[cap + 1, cap.saturating_sub(1)]),
        ],
        6 => random.pick(&WIDE_FORMATS),
        7 => [
            random.pick(&[256, 65535]),
            random.pick(&[256, 257, 65535]),
            sweeps,
            cap,
        ],
        _ => [1, cap.min(64) + 1, sweeps, cap],
    }
}

/// Makes an area too short or too long: nothing, a byte off, pages off.
pub fn wrong_length(random: &mut Random, area: &mut Vec<u8>) {
    let length = area.len();
    let wrong = match random.index(7) {
        0 => 0,
        1 => length.saturating_sub(1),
        2 => length + 1,
        3 => length.saturating_sub(256 * random.within(1, 3) as usize),
        4 => length + 256 * random.within(1, 3) as usize,
        5 => random.pick(&[64 * PAGE_BYTES, LONGEST_STRING]),
        _ => random.index(length + 300),
    };
    area.resize(wrong.min(LONGEST_STRING), 0);
}

/// Makes a row too short or too long.
pub fn wrong_row(random: &mut Random, row: &mut Vec<u32>) {
    let length = row.len();
    let wrong = match random.index(5) {
        0 => 0,
        1 => length.saturating_sub(1),
        2 => length + 1,
        3 => random.pick(&[128, 4096, LONGEST_ROW]),
        _ => random.index(length + 5),
    };
    row.resize(wrong.min(LONGEST_ROW), 7);
}
