//! What a comparison was like: rows of the table beside those of the calls.

use crate::fault_ways;
use crate::list_ways::{self, kinds};
use crate::merge_ways;
use crate::sites::MOST_PAGES;
use crate::ways::{each, Pair};
use second::differ::read_back::{read_back, Difference};
use second::differ::{whole_list, Site, CLOSING_BYTES};
use second::raw::{state_bytes, Case, COMPARE_KIND, LONGEST_STRING};
use second::state::State;

/// How many bytes of the room the list left: none, one or more.
pub const ROOM_LEFT: u16 = 1060;
/// How many bytes the list was longer than its room, for some.
pub const ROOM_SHORT: u16 = 1061;
/// Rooms of these lengths that were too short for a list with differences.
pub const SHORT_ROOM: u16 = 1062;
/// Rooms of these lengths for files with the same records.
pub const EQUAL_ROOM: u16 = 1063;
/// What differed in the states of two files with the same records, not none,
/// and with other bytes where anything did: nothing (0), n0 (1), N (2), s (3),
/// P (4), cap (5) or the edition (6) alone, or more than one of them (7).
pub const SAME_SET: u16 = 1064;
/// The same for files that differ in their records.
pub const OTHER_SET: u16 = 1065;
/// Whether the first file held no record (0), some (3) or as many as there may
/// be (6); with 0, 1 or 2 added for the second.
pub const FILLED: u16 = 1066;
/// The kinds of differences where the same two files were compared the other
/// way round just before.
pub const SWAPPED: u16 = 1067;
/// As large as there may be: the first file (0), the second (1), the list of a
/// room that it fills (2), and a list that no room is long enough for (3).
pub const LARGEST: u16 = 1068;

const SOME_SHORT: &[u16] = &[1, 4, 16, 20, 28];
const SOME_ROOMS: &[u16] = &[0, 1, 15, 16, 20, 28];
const EQUAL_ROOMS: &[u16] = &[0, 1, 15, 16, 17];
const NUMBERS: &[u16] = &[0, 1, 2, 3, 4, 5, 6, 7];

/// All that has to come of the rows above.
pub const COMPARISON_PAIRS: [(u16, &[u16]); 9] = [
    (ROOM_LEFT, &[0, 1, 2]),
    (ROOM_SHORT, SOME_SHORT),
    (SHORT_ROOM, SOME_ROOMS),
    (EQUAL_ROOM, EQUAL_ROOMS),
    (SAME_SET, NUMBERS),
    (OTHER_SET, NUMBERS),
    (FILLED, &[0, 1, 2, 3, 4, 5, 6, 7, 8]),
    (SWAPPED, &[0, 1, 2, 3, 4, 5, 6, 7]),
    (LARGEST, &[0, 1, 2, 3]),
];

/// The names of all rows of calls on two files.
pub fn name(row: u16) -> &'static str {
    match row {
        ROOM_LEFT => "room left",
        ROOM_SHORT => "list longer",
        SHORT_ROOM => "room only",
        EQUAL_ROOM => "room, equal",
        SAME_SET => "same records",
        OTHER_SET => "other ones",
        FILLED => "both filled",
        SWAPPED => "swapped",
        LARGEST => "largest",
        other => {
            let known = list_ways::name(other).or(fault_ways::name(other));
            let known = known.or(merge_ways::name(other));
            known.unwrap_or("unknown")
        }
    }
}

/// Whether only large files or long lists count for this pair.
pub fn takes_many(pair: Pair) -> bool {
    pair.0 == LARGEST || list_ways::takes_many(pair)
}

/// The pairs that an answered case counts for, as the call left it.
pub fn pairs(case: &Case, refusal: u16) -> Vec<Pair> {
    let (COMPARE_KIND, Some(second)) = (case.kind, case.second_file()) else {
        return Vec::new();
    };
    let first = case.first_file();
    let Ok(list) = whole_list(first, second) else {
        return fault_ways::pairs(first, second, &case.room);
    };
    let mut pairs = room(&case.room, &list);
    if refusal == 0 {
        let list = read_back(&list).unwrap_or_default();
        pairs.extend(list_ways::pairs(first, second, &list));
        pairs.extend(files(first, second, &list));
    }
    pairs
}

fn room(room: &[u8], list: &[u8]) -> Vec<Pair> {
    let (room, list) = (room.len(), list.len());
    let equal = list == CLOSING_BYTES;
    let mut pairs = match room.checked_sub(list) {
        Some(left) => vec![(ROOM_LEFT, left.min(2) as u16)],
        None if equal => Vec::new(),
        None => [
            some(ROOM_SHORT, SOME_SHORT, list - room),
            some(SHORT_ROOM, SOME_ROOMS, room),
        ]
        .concat(),
    };
    if equal {
        pairs.extend(some(EQUAL_ROOM, EQUAL_ROOMS, room));
    }
    let longest = room == LONGEST_STRING;
    let ways = [
        false,
        false,
        longest && list == room,
        longest && list > room,
    ];
    pairs.extend(each(LARGEST, &ways));
    pairs
}

/// A pair for a number that is one of some.
fn some(row: u16, some: &[u16], number: usize) -> Vec<Pair> {
    let found = some.iter().filter(|&&one| usize::from(one) == number);
    found.map(|&one| (row, one)).collect()
}

fn files(first: Site, second: Site, list: &[Difference]) -> Vec<Pair> {
    let (one, two) = (first.state, second.state);
    let mut pairs = vec![(FILLED, filled(one, two))];
    let numbers = other_numbers(one, two);
    let other_bytes = first.area != second.area;
    if !list.is_empty() {
        pairs.push((OTHER_SET, numbers));
    } else if one.records > 0 && (numbers == 0 || other_bytes) {
        pairs.push((SAME_SET, numbers));
    }
    let large = [one, two].map(|state| state.cap == MOST_PAGES);
    pairs.extend(each(LARGEST, &large));
    pairs
}

/// How much either file holds: none, some, or as much as there may be.
pub fn filled(one: State, two: State) -> u16 {
    let of = |state: State| match state.records {
        0 => 0,
        _ if state.at_most_records() => 2,
        _ => 1,
    };
    3 * of(one) + of(two)
}

/// The only number in which two states differ but for r, by its place; 0 where
/// there is none and 7 where there are several.
pub fn other_numbers(one: State, two: State) -> u16 {
    let numbers = |state: State| {
        [
            state.n0,
            state.groups,
            state.sweeps,
            state.pages,
            state.cap,
            state.edition,
        ]
    };
    let pairs = numbers(one).into_iter().zip(numbers(two));
    let mut differ = (1..).zip(pairs).filter(|(_, (one, two))| one != two);
    match (differ.next(), differ.next()) {
        (None, _) => 0,
        (Some((place, _)), None) => place,
        _ => 7,
    }
}

/// The pair of an accepted comparison of two files that the record before it
/// had the other way round, and that aren't the same.
pub fn swapped(before: &[u8], case: &Case, refusal: u16) -> Option<Pair> {
    if case.kind != COMPARE_KIND || refusal != 0 {
        return None;
    }
    let before = Case::parse(before).filter(|before| before.kind == COMPARE_KIND)?;
    let first = |case: &Case| [state_bytes(case.state), case.area.clone()].concat();
    let turned = first(&before) == case.second && before.second == first(case);
    let list = whole_list(case.first_file(), case.second_file()?).ok()?;
    let kinds = kinds(&read_back(&list)?);
    (turned && before.second != case.second).then_some((SWAPPED, kinds))
}

#[cfg(test)]
mod tests;
