//! What the list of a comparison was like: rows of the table beside those of
//! the calls.

use crate::ways::{each, Pair};
use second::differ::read_back::Difference;
use second::differ::Site;
use second::home::home;
use second::image::standing;
use second::page::Record;
use std::collections::BTreeSet;

/// Which kinds of differences there were: 1 for records only in the first file,
/// 2 for those only in the second, 4 for keys with two values, added up.
pub const KINDS: u16 = 1050;
/// So many differences and more, up to the next number.
pub const LISTED: u16 = 1051;
/// Orders in which the list doesn't rise, though it does by key: as signed
/// numbers (0), by the low four bytes (1), byte by byte (2), as the first file
/// (3) or the second (4) keeps them, by kind (5).
pub const OTHER_ORDER: u16 = 1052;
/// Where a record of the list lay: two pages or more above its home (0) or
/// beyond the pages grown to (1) in the first file, and so in the second (2 and
/// 3).
pub const FAR: u16 = 1053;
/// The only byte in which two values of a key differed.
pub const VALUE_BYTE: u16 = 1054;
/// The only byte in which a key of the first file alone differed from one of
/// the second alone.
pub const KEY_BYTE: u16 = 1055;

/// Where the numbers of differences begin that are told apart.
const SIZES: [u16; 6] = [0, 1, 2, 13, MANY, 600];
/// From so many differences on a list is a long one.
const MANY: u16 = 100;
/// Only in lists up to so many differences are keys compared with each other.
const FEW: usize = 40;
const BYTES: &[u16] = &[0, 1, 2, 3, 4, 5, 6, 7];

/// All that has to come of the rows above.
pub const LIST_PAIRS: [(u16, &[u16]); 6] = [
    (KINDS, &[0, 1, 2, 3, 4, 5, 6, 7]),
    (LISTED, &SIZES),
    (OTHER_ORDER, &[0, 1, 2, 3, 4, 5]),
    (FAR, &[0, 1, 2, 3]),
    (VALUE_BYTE, BYTES),
    (KEY_BYTE, BYTES),
];

pub fn name(row: u16) -> Option<&'static str> {
    let name = match row {
        KINDS => "differences",
        LISTED => "listed from",
        OTHER_ORDER => "other order",
        FAR => "far up",
        VALUE_BYTE => "value byte",
        KEY_BYTE => "key byte",
        _ => return None,
    };
    Some(name)
}

/// Whether only long lists count for this pair.
pub fn takes_many(pair: Pair) -> bool {
    pair.0 == LISTED && pair.1 >= MANY
}

/// The pairs of an accepted comparison with this list.
pub fn pairs(first: Site, second: Site, list: &[Difference]) -> Vec<Pair> {
    let begun = SIZES
        .into_iter()
        .rev()
        .find(|&size| usize::from(size) <= list.len());
    let mut pairs = vec![(KINDS, kinds(list)), (LISTED, begun.unwrap_or(0))];
    pairs.extend(other_orders(first, second, list));
    pairs.extend(far(first, second, list));
    pairs.extend(near_values(list));
    if list.len() <= FEW {
        pairs.extend(near_keys(list));
    }
    pairs
}

/// The kinds of a list, added up.
pub fn kinds(list: &[Difference]) -> u16 {
    let bits = list.iter().map(|difference| 1 << difference.number());
    bits.fold(0, |kinds, bit: u16| kinds | bit)
}

fn other_orders(first: Site, second: Site, list: &[Difference]) -> Vec<Pair> {
    let keys: Vec<u64> = list.iter().map(|difference| difference.key()).collect();
    let listed: BTreeSet<u64> = keys.iter().copied().collect();
    let kept = |site: Site| {
        let standing = standing(site.area).into_iter();
        let keys = standing.map(|(_, record)| record.key);
        keys.filter(|key| listed.contains(key)).is_sorted()
    };
    let rises = [
        keys.is_sorted_by_key(|&key| key as i64),
        keys.is_sorted_by_key(|&key| key as u32),
        keys.is_sorted_by_key(|&key| key.to_le_bytes()),
        kept(first),
        kept(second),
        list.is_sorted_by_key(|difference| difference.number()),
    ];
    each(OTHER_ORDER, &rises.map(|rises| !rises))
}

fn far(first: Site, second: Site, list: &[Difference]) -> Vec<Pair> {
    let listed: BTreeSet<u64> = list.iter().map(|difference| difference.key()).collect();
    let ways = |site: Site| {
        let mut all = standing(site.area);
        all.retain(|(_, record)| listed.contains(&record.key));
        let above =
            |(page, record): &(usize, Record)| home(site.state, record.key) + 2 <= *page as u64;
        let beyond = |(page, _): &(usize, Record)| *page >= usize::from(site.state.pages);
        [all.iter().any(above), all.iter().any(beyond)]
    };
    each(FAR, &[ways(first), ways(second)].concat())
}

/// The only byte in which two numbers differ, if it is one.
pub fn only_byte(one: u64, other: u64) -> Option<u16> {
    let differ = (one ^ other).to_le_bytes();
    let mut bytes = (0..).zip(differ).filter(|(_, byte)| *byte != 0);
    match (bytes.next(), bytes.next()) {
        (Some((byte, _)), None) => Some(byte),
        _ => None,
    }
}

fn near_values(list: &[Difference]) -> Vec<Pair> {
    let byte = |difference: &Difference| match *difference {
        Difference::TwoValues { first, second, .. } => only_byte(first, second),
        _ => None,
    };
    let bytes = list.iter().filter_map(byte);
    bytes.map(|byte| (VALUE_BYTE, byte)).collect()
}

fn near_keys(list: &[Difference]) -> Vec<Pair> {
    let mut pairs = Vec::new();
    for one in list.iter().filter(|one| one.number() == 0) {
        for other in list.iter().filter(|other| other.number() == 1) {
            let byte = only_byte(one.key(), other.key());
            pairs.extend(byte.map(|byte| (KEY_BYTE, byte)));
        }
    }
    pairs
}

#[cfg(test)]
mod tests;
