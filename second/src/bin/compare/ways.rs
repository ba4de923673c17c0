//! What a pay run was like, judged by its bytes: rows of the table beside
//! those of the calls.

use crate::comparison_ways;
use crate::editions;
use crate::merge_ways;
use crate::shrink_ways;
use second::answer::BAD_RECORD;
use second::bytes::two;
use second::commands::{HEAD_BYTES, PUT_BYTES, REPLY_BYTES};
use second::raw::{Case, RUN_KIND};

/// The head that each record of a run has to have: length 20 and kind 258.
const PUT_HEAD: [u8; HEAD_BYTES] = [20, 0, 2, 1];

/// A row of the table, a call's kind or one of those below, and a number.
pub type Pair = (u16, u16);

/// Refusals within the replies of accepted runs.
pub const ITEM: u16 = 1000;
/// Accepted runs of so many items and more, up to the next number.
pub const ITEMS: u16 = 1001;
/// The same for runs refused for their room.
pub const ITEMS_REFUSED: u16 = 1002;
/// The same for those of them that had no room at all.
pub const EMPTY_ROOM: u16 = 1003;
/// By how many bytes the room was short, or long.
pub const SHORT_ROOM: u16 = 1004;
pub const LONG_ROOM: u16 = 1005;
/// The bytes left of a put that was cut off, the only thing wrong.
pub const CUT: u16 = 1006;
/// The bytes behind the last put that begin no further one, likewise.
pub const OVER: u16 = 1007;
/// The byte that was wrong in the head of the first, a middle or the last
/// item, likewise.
pub const FIRST_HEAD: u16 = 1008;
pub const MIDDLE_HEAD: u16 = 1009;
pub const LAST_HEAD: u16 = 1010;
/// Refused with 10 where the room was wrong as well.
pub const BOTH: u16 = 1011;

/// Where the numbers of items begin that are told apart. A room has at most
/// 585 replies, and the records of a run are at most 820.
const SIZES: [usize; 7] = [0, 1, 2, MANY as usize, 585, 586, 820];
/// From so many items on a run is a long one.
const MANY: u16 = 100;

/// The numbers from 1 to 19: what may be left of a put.
const PARTS: &[u16] = &[
    1, 2, 3, 4, 5, 6, 7, 8, 9, 10, 11, 12, 13, 14, 15, 16, 17, 18, 19,
];
const HEAD: &[u16] = &[0, 1, 2, 3];

/// All that has to come of the rows above.
pub const RUN_PAIRS: [(u16, &[u16]); 12] = [
    (ITEM, &[0, 1, 2, 4, 6, 7, 9, 13]),
    (ITEMS, &[0, 1, 2, 100, 585]),
    (ITEMS_REFUSED, &[0, 1, 2, 100, 585, 586, 820]),
    (EMPTY_ROOM, &[1, 2, 100, 585, 586, 820]),
    (SHORT_ROOM, &[1, 28]),
    (LONG_ROOM, &[1, 28]),
    (CUT, PARTS),
    (OVER, PARTS),
    (FIRST_HEAD, HEAD),
    (MIDDLE_HEAD, HEAD),
    (LAST_HEAD, HEAD),
    (BOTH, &[BAD_RECORD]),
];

/// The pairs that an answered case counts for, those for its own kind first.
pub fn pairs(case: &Case, refusal: u16) -> Vec<Pair> {
    let mut pairs = vec![(case.kind, refusal)];
    if case.kind == RUN_KIND {
        match refusal {
            0 => pairs.extend(accepted(case)),
            BAD_RECORD => pairs.extend(wrong_bytes(case)),
            _ => pairs.extend(wrong_room(case)),
        }
    }
    pairs.extend(editions::pairs(case, refusal));
    pairs.extend(shrink_ways::pairs(case, refusal));
    pairs.extend(comparison_ways::pairs(case, refusal));
    pairs
}

/// A pair for each way that is so, by its place in the row.
pub fn each(row: u16, ways: &[bool]) -> Vec<Pair> {
    let so = (0..).zip(ways).filter(|(_, is_so)| **is_so);
    so.map(|(way, _)| (row, way)).collect()
}

/// Whether a call for this pair is worth storing. Only long runs or large files
/// count for some, and of merges not all that is told is stored.
pub fn stored(pair: Pair) -> bool {
    let many_items = (ITEMS..=EMPTY_ROOM).contains(&pair.0) && pair.1 >= MANY;
    let takes_many = many_items || comparison_ways::takes_many(pair);
    !takes_many && !merge_ways::only_told(pair)
}

fn size(items: usize) -> u16 {
    let begun = SIZES.into_iter().rev().find(|&size| size <= items);
    begun.unwrap_or(0) as u16
}

fn accepted(case: &Case) -> Vec<Pair> {
    let replies = case.room.chunks_exact(REPLY_BYTES);
    let mut pairs = vec![(ITEMS, size(replies.len()))];
    pairs.extend(replies.map(|reply| (ITEM, two(reply, 4))));
    pairs
}

fn wrong_room(case: &Case) -> Vec<Pair> {
    let items = case.second.len() / PUT_BYTES;
    let (room, right) = (case.room.len(), REPLY_BYTES * items);
    let mut pairs = vec![(ITEMS_REFUSED, size(items))];
    if room == 0 {
        pairs.push((EMPTY_ROOM, size(items)));
    }
    let row = if room < right { SHORT_ROOM } else { LONG_ROOM };
    let off = room.abs_diff(right);
    if [1, REPLY_BYTES].contains(&off) {
        pairs.push((row, off as u16));
    }
    pairs
}

fn wrong_bytes(case: &Case) -> Vec<Pair> {
    let (items, left) = (case.second.len() / PUT_BYTES, case.second.len() % PUT_BYTES);
    let wrong = wrong_heads(&case.second);
    let mut pairs = match wrong[..] {
        [] => vec![(CUT, left as u16)],
        [(first, _), ..] if first == items => vec![(OVER, left as u16)],
        [(item, byte)] if left == 0 => vec![(head_row(item, items), byte as u16)],
        _ => Vec::new(),
    };
    // Bytes that are left over might be taken for one item more.
    let fits = |items| case.room.len() == REPLY_BYTES * items;
    if !fits(items) && (left == 0 || !fits(items + 1)) {
        pairs.push((BOTH, BAD_RECORD));
    }
    pairs
}

/// Where heads aren't those of puts, by item and byte. What is left over
/// behind the last whole item is looked at too.
fn wrong_heads(records: &[u8]) -> Vec<(usize, usize)> {
    let mut wrong = Vec::new();
    for (item, record) in records.chunks(PUT_BYTES).enumerate() {
        let head = record.iter().zip(PUT_HEAD).enumerate();
        let other = head.filter(|(_, (byte, right))| **byte != *right);
        wrong.extend(other.map(|(byte, _)| (item, byte)));
    }
    wrong
}

fn head_row(item: usize, items: usize) -> u16 {
    match item {
        0 => FIRST_HEAD,
        last if last + 1 == items => LAST_HEAD,
        _ => MIDDLE_HEAD,
    }
}

#[cfg(test)]
mod tests {
    use super::*;
    use crate::session::command;

    /// The pairs of a run of three puts, changed in one way.
    fn of_three(refusal: u16, change: impl Fn(&mut Vec<u8>, &mut Vec<u8>)) -> Vec<Pair> {
        let mut second = command(258, &[1, 2]).repeat(3);
        let mut room = vec![7; 84];
        change(&mut second, &mut room);
        let case = Case {
            kind: RUN_KIND,
            second,
            room,
            ..Case::default()
        };
        pairs(&case, refusal)[1..].to_vec()
    }

    #[test]
    fn what_is_wrong_is_named() {
        for (item, row) in [FIRST_HEAD, MIDDLE_HEAD, LAST_HEAD].into_iter().enumerate() {
            for byte in 0..4 {
                let named = of_three(10, |second, _| second[20 * item + byte] ^= 1);
                assert_eq!(named, [(row, byte as u16)]);
            }
        }
        for part in 1..20 {
            let cut = |second: &mut Vec<u8>, _: &mut Vec<u8>| second.truncate(40 + part);
            assert_eq!(of_three(10, cut), [(CUT, part as u16)]);
            let over = |second: &mut Vec<u8>, _: &mut Vec<u8>| second.resize(60 + part, 9);
            assert_eq!(of_three(10, over), [(OVER, part as u16)]);
        }
        let both = of_three(10, |second, room| {
            second.pop();
            room.pop();
        });
        assert_eq!(both, [(CUT, 19), (BOTH, 10)]);
    }

    #[test]
    fn a_wrong_room_is_named() {
        let named = |length| of_three(15, |_, room| room.resize(length, 7));
        let refused = (ITEMS_REFUSED, 2);
        assert_eq!(named(83), [refused, (SHORT_ROOM, 1)]);
        assert_eq!(named(56), [refused, (SHORT_ROOM, 28)]);
        assert_eq!(named(85), [refused, (LONG_ROOM, 1)]);
        assert_eq!(named(112), [refused, (LONG_ROOM, 28)]);
        assert_eq!(named(0), [refused, (EMPTY_ROOM, 2)]);
        assert_eq!(named(50), [refused]);
    }

    #[test]
    fn replies_are_counted_one_by_one() {
        let counted = of_three(0, |_, room| {
            room.fill(0);
            (room[4], room[28 + 4], room[56 + 4]) = (13, 4, 0);
        });
        assert_eq!(counted, [(ITEMS, 2), (ITEM, 13), (ITEM, 4), (ITEM, 0)]);
        assert_eq!(
            [99, 100, 584, 585, 819, 820].map(size),
            [2, 100, 100, 585, 586, 820]
        );
    }
}
