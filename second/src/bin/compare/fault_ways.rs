//! What was wrong with either file of a comparison: rows of the table beside
//! those of the calls. Some of them are told of merges too.

use crate::editions::SOME_WRONG;
use crate::ways::{each, Pair};
use second::answer::{Answer, BROKEN, NOT_THE_IMAGE, OUT_OF_RANGE, WRONG_AREA};
use second::calls::{call, Call};
use second::differ::{Site, CLOSING_BYTES};
use second::image::standing;
use second::page::{judge, PAGE_BYTES};
use second::state::{State, EDITIONS};

/// Refusals of a file that was the only wrong one, the first or the second.
pub const ALONE: [u16; 2] = [1070, 1071];
/// Where both files were wrong: ten times the refusal of the first, which is
/// told, and that of the second.
pub const BOTH: u16 = 1072;
/// Ten times the file and its refusal, where the room had no place even for a
/// closing record.
pub const AND_ROOM: u16 = 1073;
/// Where the broken page lay: at the start (0), between (1) or at the end (2)
/// of the first file or the second; and whether others were broken (3).
pub const PAGE: [u16; 2] = [1074, 1075];
/// What was wrong with 9: the image (0), or r one too low (1), one too high (2)
/// or farther off (3).
pub const COUNT: [u16; 2] = [1076, 1077];
/// The only rule for the numbers of a state that was broken.
pub const NUMBER: [u16; 2] = [1078, 1079];
/// Lengths of areas: none (0), a byte short (1) or long (2), a page short (3)
/// or long (4), and right for the other file alone (5).
pub const LENGTH: [u16; 2] = [1080, 1081];
/// The wrong edition in the second state, for some that stand for all.
pub const EDITION: u16 = 1082;

const ALL: &[u16] = &[OUT_OF_RANGE, WRONG_AREA, BROKEN, NOT_THE_IMAGE];
const EITHER: &[u16] = &[11, 12, 14, 19, 21, 22, 24, 29];
const TOGETHER: &[u16] = &[
    11, 12, 14, 19, 21, 22, 24, 29, 41, 42, 44, 49, 91, 92, 94, 99,
];
const PLACES: &[u16] = &[0, 1, 2, 3];
const RULES: &[u16] = &[0, 1, 2, 3, 4, 5, 6, 7];
const LENGTHS: &[u16] = &[0, 1, 2, 3, 4, 5];

/// All that has to come of the rows above.
pub const FAULT_PAIRS: [(u16, &[u16]); 13] = [
    (ALONE[0], ALL),
    (ALONE[1], ALL),
    (BOTH, TOGETHER),
    (AND_ROOM, EITHER),
    (PAGE[0], PLACES),
    (PAGE[1], PLACES),
    (COUNT[0], PLACES),
    (COUNT[1], PLACES),
    (NUMBER[0], RULES),
    (NUMBER[1], RULES),
    (LENGTH[0], LENGTHS),
    (LENGTH[1], LENGTHS),
    (EDITION, SOME_WRONG),
];

pub fn name(row: u16) -> Option<&'static str> {
    const NAMES: [&str; 13] = [
        "first wrong",
        "second wrong",
        "both wrong",
        "and no room",
        "1st broken",
        "2nd broken",
        "1st count",
        "2nd count",
        "1st number",
        "2nd number",
        "1st length",
        "2nd length",
        "2nd edition",
    ];
    let mut named = FAULT_PAIRS.iter().zip(NAMES);
    named.find_map(|((known, _), name)| (*known == row).then_some(name))
}

/// What a check says of a file.
pub fn fault(site: Site) -> Answer {
    call(Call::Check, site.state, &mut site.area.to_vec(), &mut [])
}

/// The pairs of a comparison of which at least one file is wrong.
pub fn pairs(first: Site, second: Site, room: &[u8]) -> Vec<Pair> {
    let (one, two) = (fault(first), fault(second));
    let (file, told, site, other) = match one.refusal {
        0 => (1, two, second, first),
        _ => (0, one, first, second),
    };
    let mut pairs = vec![match (one.refusal, two.refusal) {
        (0, refusal) | (refusal, 0) => (ALONE[file], refusal),
        (one, two) => (BOTH, 10 * one + two),
    }];
    if room.len() < CLOSING_BYTES {
        pairs.push((AND_ROOM, 10 * (file as u16 + 1) + told.refusal));
    }
    pairs.extend(details(file, site, other));
    pairs
}

/// What was wrong with a file, the first (0) or the second (1) of the two.
pub fn details(file: usize, site: Site, other: Site) -> Vec<Pair> {
    let told = fault(site);
    match told.refusal {
        OUT_OF_RANGE => wrong_number(file, site.state),
        WRONG_AREA => wrong_length(file, site, other),
        BROKEN => broken(file, site, told.page.into()),
        _ => wrong_count(file, site),
    }
}

/// The rules for the numbers of a state, in the order of their numbers in the
/// row: n0, N, s, cap, the edition, P at least and P at most, r.
fn rules_broken(state: State) -> Vec<u16> {
    let holds = [
        (1..=4).contains(&state.n0),
        (1..=64).contains(&state.groups),
        (1..=8).contains(&state.sweeps),
        (1..=4096).contains(&state.cap),
        EDITIONS.contains(&state.edition),
        state.start_pages() <= state.pages.into(),
        state.pages <= state.cap,
        u64::from(state.records) <= state.most_records(),
    ];
    let broken = (0..).zip(holds).filter(|(_, holds)| !holds);
    broken.map(|(rule, _)| rule).collect()
}

fn wrong_number(file: usize, state: State) -> Vec<Pair> {
    let [rule] = rules_broken(state)[..] else {
        return Vec::new();
    };
    let mut pairs = vec![(NUMBER[file], rule)];
    if (file, rule) == (1, 4) && SOME_WRONG.contains(&state.edition) {
        pairs.push((EDITION, state.edition));
    }
    pairs
}

fn wrong_length(file: usize, site: Site, other: Site) -> Vec<Pair> {
    let (length, right) = (site.area.len(), site.state.area_bytes());
    let ways = [
        length == 0,
        length + 1 == right,
        length == right + 1,
        length + PAGE_BYTES == right,
        length == right + PAGE_BYTES,
        length == other.state.area_bytes() && fault(other).refusal == 0,
    ];
    each(LENGTH[file], &ways)
}

fn broken(file: usize, site: Site, page: usize) -> Vec<Pair> {
    let cap = usize::from(site.state.cap);
    let place = match page {
        0 => 0,
        last if last + 1 == cap => 2,
        _ => 1,
    };
    let mut behind = page + 1..cap;
    let others = behind.any(|page| judge(site.state, site.area, page).is_none());
    let mut pairs = vec![(PAGE[file], place)];
    pairs.extend(others.then_some((PAGE[file], 3)));
    pairs
}

fn wrong_count(file: usize, site: Site) -> Vec<Pair> {
    let stand = standing(site.area).len() as i64;
    let way = match i64::from(site.state.records) - stand {
        0 => 0,
        -1 => 1,
        1 => 2,
        _ => 3,
    };
    vec![(COUNT[file], way)]
}

#[cfg(test)]
mod tests;
