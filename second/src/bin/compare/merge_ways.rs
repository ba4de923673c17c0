//! What a merge was like: rows of the table beside those of the calls.

use crate::comparison_ways::{filled, other_numbers};
use crate::fault_ways::{details, fault, COUNT, EDITION, LENGTH, NUMBER, PAGE};
use crate::sites::MOST_PAGES;
use crate::ways::{each, Pair};
use second::answer::{CLASH, NO_ROOM, WRONG_ROW};
use second::bytes::{eight, two};
use second::raw::{state_bytes, Case, MERGE_KIND};
use second::state::State;
use sets::Sets;

mod sets;

/// Ten times the file that a refusal was about, and the refusal.
pub const FILE: u16 = 1090;
/// Accepted: whether the living file held no record (0), some (3) or as many as
/// there may be (6); with 0, 1 or 2 added for the other.
pub const FILLED: u16 = 1091;
/// Accepted, with records in both files: none is in both (0), some are (1), all
/// of the other's (2), all of the living file's (3), all of both (4).
pub const SHARED: u16 = 1092;
/// Accepted, with records added: what differed in the states, as it is told of
/// comparisons.
pub const NUMBERS: u16 = 1093;
/// Accepted, with records added: no slot is free any more (0), none on the last
/// page though others are (1), or both counts would be too many, but not those
/// of both sets (2).
pub const JUST: u16 = 1094;
/// Accepted, with records added: by how many pages a record of the living file
/// went up at most, two or more together.
pub const WENT_UP: u16 = 1095;
/// How many keys clashed, three or more together.
pub const CLASHES: u16 = 1096;
/// Orders in which the lowest clash isn't the first one: as signed numbers (0),
/// by the low four bytes (1), byte by byte (2), as the living file (3) or the
/// other (4) keeps them. Then whether a lower key was in both with one value
/// (5), in the living file alone (6) or in the other (7).
pub const LOWEST: u16 = 1097;
/// The only byte in which the values of the only clash differed.
pub const VALUE_BYTE: u16 = 1098;
/// Whether a clash came where the keys of both would have had room (0) or not
/// (1).
pub const CLASH_ROOM: u16 = 1099;
/// Without room: though there are slots for all (0), for want of one (1) or of
/// more (2), with records in both files (3), into a full file (4), into an
/// empty one (5).
pub const TIGHT: u16 = 1100;
/// Wrong rows: none (0), a count short (1) or long (2), as long as the other
/// file has pages (3) or as the living one is grown to (4), far too long (5).
pub const ROW: u16 = 1101;
/// All that was wrong: a hundred times the refusal of the living file, then 30
/// for the row, then the refusal of the other file.
pub const TOGETHER: u16 = 1102;
/// Where the other way round was asked just before: both accepted, with other
/// numbers (0) and with the same (1), only this one (2) or that one (3), none
/// for want of room (4) and for a clash (5).
pub const TURNED: u16 = 1103;
/// Of as many pages as there may be: the living file (0), the other (1), both
/// with all slots used afterwards (2).
pub const LARGEST: u16 = 1104;
/// What was wrong with either file has the rows of comparisons, this much
/// higher.
pub const OF_MERGES: u16 = 40;

const FILES: &[u16] = &[11, 12, 13, 14, 19, 21, 22, 24, 29];
const ALL_WRONG: &[u16] = &[
    1, 2, 4, 9, 30, 31, 32, 34, 39, 100, 101, 102, 104, 109, 130, 131, 132, 134, 139, 200, 201,
    202, 204, 209, 230, 231, 232, 234, 239, 400, 401, 402, 404, 409, 430, 431, 432, 434, 439, 900,
    901, 902, 904, 909, 930, 931, 932, 934, 939,
];
const EIGHT: &[u16] = &[0, 1, 2, 3, 4, 5, 6, 7];
const NINE: &[u16] = &[0, 1, 2, 3, 4, 5, 6, 7, 8];
const FOUR: &[u16] = &[0, 1, 2, 3];
const SIX: &[u16] = &[0, 1, 2, 3, 4, 5];

/// All that has to come of the rows above.
pub const MERGE_PAIRS: [(u16, &[u16]); 24] = [
    (FILE, FILES),
    (FILLED, NINE),
    (SHARED, &[0, 1, 2, 3, 4]),
    (NUMBERS, EIGHT),
    (JUST, &[0, 1, 2]),
    (WENT_UP, &[0, 1, 2]),
    (CLASHES, &[1, 2, 3]),
    (LOWEST, EIGHT),
    (VALUE_BYTE, EIGHT),
    (CLASH_ROOM, &[0, 1]),
    (TIGHT, SIX),
    (ROW, SIX),
    (TOGETHER, ALL_WRONG),
    (TURNED, SIX),
    (LARGEST, &[0, 1, 2]),
    (PAGE[0] + OF_MERGES, FOUR),
    (PAGE[1] + OF_MERGES, FOUR),
    (COUNT[0] + OF_MERGES, FOUR),
    (COUNT[1] + OF_MERGES, FOUR),
    (NUMBER[0] + OF_MERGES, EIGHT),
    (NUMBER[1] + OF_MERGES, EIGHT),
    (LENGTH[0] + OF_MERGES, SIX),
    (LENGTH[1] + OF_MERGES, SIX),
    (EDITION + OF_MERGES, crate::editions::SOME_WRONG),
];

pub fn name(row: u16) -> Option<&'static str> {
    const NAMES: [&str; 24] = [
        "about file",
        "merge filled",
        "in both",
        "merge states",
        "just room",
        "merge up",
        "clashes",
        "not lowest",
        "clash byte",
        "clash, room",
        "tight",
        "wrong row",
        "merge wrong",
        "turned round",
        "large merges",
        "living page",
        "other page",
        "living count",
        "other count",
        "living state",
        "other state",
        "living area",
        "other area",
        "other's ed.",
    ];
    let mut named = MERGE_PAIRS.iter().zip(NAMES);
    named.find_map(|((known, _), name)| (*known == row).then_some(name))
}

/// Whether a pair is told of merges but none has to be stored for it, so that
/// what is stored stays small: a merge for each refusal and file, for what is
/// in both, and for clashes and want of room that are easily overlooked.
pub fn only_told(pair: Pair) -> bool {
    let stored = match pair {
        (FILE | SHARED, _) => true,
        (LOWEST, way) => [3, 4].contains(&way),
        (TIGHT, way) => way <= 1,
        _ => false,
    };
    let known = MERGE_PAIRS.iter().any(|(row, _)| *row == pair.0);
    known && !stored
}

/// The pairs that a merge counts for, as it was asked and as the call left it,
/// with its reply.
pub fn pairs(asked: &Case, after: &Case, reply: &[u8]) -> Vec<Pair> {
    let (MERGE_KIND, Some(other)) = (asked.kind, asked.second_file()) else {
        return Vec::new();
    };
    let (refusal, file) = (two(reply, 6), two(reply, 30));
    if file != 0 {
        return refused(asked, refusal, file);
    }
    let sets = Sets::of(asked.first_file(), other);
    match refusal {
        CLASH => clash(asked, &sets, eight(reply, 10)),
        NO_ROOM => no_room(asked, &sets),
        _ => accepted(asked, after, &sets),
    }
}

/// What was wrong with a file or the row.
fn refused(asked: &Case, refusal: u16, file: u16) -> Vec<Pair> {
    let living = asked.first_file();
    let Some(other) = asked.second_file() else {
        return Vec::new();
    };
    let right_row = asked.row.len() == usize::from(living.state.cap);
    let of_row = if right_row { 0 } else { 10 * WRONG_ROW };
    let together = 100 * fault(living).refusal + of_row + fault(other).refusal;
    let mut pairs = vec![(FILE, 10 * file + refusal), (TOGETHER, together)];
    let of_file = match (refusal, file) {
        (WRONG_ROW, _) => return [pairs, wrong_row(asked, other.state)].concat(),
        (_, 1) => details(0, living, other),
        _ => details(1, other, living),
    };
    pairs.extend(of_file.into_iter().map(|(row, way)| (row + OF_MERGES, way)));
    pairs
}

fn wrong_row(asked: &Case, other: State) -> Vec<Pair> {
    let row = asked.row.len();
    let [cap, pages, of_other] = [asked.state.cap, asked.state.pages, other.cap].map(usize::from);
    let ways = [
        row == 0,
        row + 1 == cap,
        row == cap + 1,
        row == of_other,
        row == pages,
        row > 2 * cap,
    ];
    each(ROW, &ways)
}

fn clash(asked: &Case, sets: &Sets, told: u64) -> Vec<Pair> {
    let clashes = sets.clashes();
    let mut pairs = vec![(CLASHES, clashes.len().min(3) as u16)];
    pairs.extend(each(LOWEST, &sets.other_first(told)));
    let byte = sets.only_byte(told).filter(|_| clashes.len() == 1);
    pairs.extend(byte.map(|byte| (VALUE_BYTE, byte)));
    let room = sets.have_room(asked.state);
    pairs.push((CLASH_ROOM, u16::from(!room)));
    pairs
}

fn no_room(asked: &Case, sets: &Sets) -> Vec<Pair> {
    let (most, all) = (asked.state.most_records(), sets.keys().len() as u64);
    let ways = [
        all <= most,
        all == most + 1,
        all > most + 1,
        sets.shared() > 0,
        asked.state.at_most_records(),
        asked.state.records == 0,
    ];
    each(TIGHT, &ways)
}

fn accepted(asked: &Case, after: &Case, sets: &Sets) -> Vec<Pair> {
    let Some(other) = asked.second_file() else {
        return Vec::new();
    };
    let (one, two) = (asked.state, other.state);
    let mut pairs = vec![(FILLED, filled(one, two))];
    pairs.extend(sets.in_both().map(|way| (SHARED, way)));
    let full = after.state.at_most_records();
    if after.state.records > one.records {
        let counts = u64::from(one.records) + u64::from(two.records);
        let too_many = counts > one.most_records();
        let ways = [full, !full && sets::last_page_full(&after.area), too_many];
        pairs.extend(each(JUST, &ways));
        pairs.push((NUMBERS, other_numbers(one, two)));
        let up = sets::went_up(&asked.area, &after.area);
        pairs.extend(up.map(|pages| (WENT_UP, pages.min(2) as u16)));
    }
    let [large, other_large] = [one, two].map(|state| state.cap == MOST_PAGES);
    let ways = [large, other_large, large && other_large && full];
    pairs.extend(each(LARGEST, &ways));
    pairs
}

/// The pair of a merge of two files that aren't the same, where the record
/// before it, with this reply, had them the other way round.
pub fn turned(before: &[u8], its_reply: &[u8], asked: &Case, reply: &[u8]) -> Option<Pair> {
    if asked.kind != MERGE_KIND {
        return None;
    }
    let before = Case::parse(before).filter(|before| before.kind == MERGE_KIND)?;
    let first = |case: &Case| [state_bytes(case.state), case.area.clone()].concat();
    let is_turned = first(&before) == asked.second && before.second == first(asked);
    if !is_turned || before.second == asked.second {
        return None;
    }
    let alike = other_numbers(before.state, asked.state) == 0;
    let way = match (two(its_reply, 6), two(reply, 6)) {
        (0, 0) => u16::from(alike),
        (NO_ROOM, 0) => 2,
        (0, NO_ROOM) => 3,
        (NO_ROOM, NO_ROOM) => 4,
        (CLASH, CLASH) => 5,
        _ => return None,
    };
    Some((TURNED, way))
}

#[cfg(test)]
mod tests;
