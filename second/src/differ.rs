//! What differs between two files, whatever their parameters, sizes and
//! editions: a list in lent room. The records of both are taken as plain sets,
//! so that neither file's order or size has any part in the list.

use crate::answer::{Answer, OUT_OF_RANGE, WRONG_AREA, WRONG_ROOM};
use crate::calls::refused_early;
use crate::check::judge_all;
use crate::state::State;
use std::collections::{BTreeMap, BTreeSet};

pub mod read_back;
pub mod witness;

/// The kinds of the records of a list.
const ONLY_FIRST: u16 = 769;
const ONLY_SECOND: u16 = 770;
const TWO_VALUES: u16 = 771;
const CLOSING: u16 = 772;
/// The bytes of the record that closes a list, and of a list with no
/// difference.
pub const CLOSING_BYTES: usize = 16;

/// A file that is only looked at: either one of a comparison, and the other one
/// of a merge.
#[derive(Clone, Copy, Debug)]
pub struct Site<'a> {
    pub state: State,
    pub area: &'a [u8],
}

/// What a comparison answers. The state is the first file's.
#[derive(Clone, Copy, Debug, PartialEq, Eq)]
pub struct Compared {
    pub answer: Answer,
    /// 1 or 2, the file that a refusal is about; 0 where it is about neither.
    pub file: u16,
    /// The bytes of the list that was written, 0 after any refusal.
    pub taken: u32,
}

impl From<Answer> for Compared {
    /// An answer that is about neither file, with no list written.
    fn from(answer: Answer) -> Compared {
        Compared {
            answer,
            file: 0,
            taken: 0,
        }
    }
}

/// The records of a file, by key. An accepted check has seen no key twice.
pub type Set = BTreeMap<u64, u64>;

/// Compares two files and writes the list to the start of the room; "room
/// beyond" it "keeps its bytes".
pub fn differ(first: Site, second: Site, room: &mut [u8]) -> Compared {
    let list = match whole_list(first, second) {
        Ok(list) => list,
        Err(refused) => return refused,
    };
    let read = usize::from(first.state.cap) + usize::from(second.state.cap);
    if room.len() < list.len() {
        return Answer::refused(first.state, WRONG_ROOM, read).into();
    }
    room[..list.len()].copy_from_slice(&list);
    Compared {
        taken: list.len() as u32,
        ..Answer::accepted(first.state, read).into()
    }
}

/// The list of two files, however long it is. The error is the refusal that
/// one of them gets, "the first file's before the second's".
pub fn whole_list(first: Site, second: Site) -> Result<Vec<u8>, Compared> {
    let one = judged(first).map_err(|refused| Compared {
        file: 1,
        ..refused.into()
    })?;
    let two = judged(second).map_err(|refused| Compared {
        file: 2,
        ..behind_first(first.state, refused).into()
    })?;
    Ok(list_of(&one, &two))
}

/// Judges a file "as check gives them": 1, 2, 4 and 9.
pub fn judged(site: Site) -> Result<Set, Answer> {
    if let Some(refused) = refused_early(site.state, site.area) {
        return Err(refused);
    }
    let mut set = Set::new();
    for page in judge_all(site.state, site.area)? {
        for slot in 0..page.count {
            set.insert(page.keys[slot], page.values[slot]);
        }
    }
    Ok(set)
}

/// A refusal of the second file, once the first was judged whole. Refusals 1
/// and 2 "read 0", whatever was read before; to the others the first file's
/// pages are added.
pub fn behind_first(first: State, refused: Answer) -> Answer {
    let read = match refused.refusal {
        OUT_OF_RANGE | WRONG_AREA => 0,
        _ => u32::from(first.cap) + refused.read,
    };
    Answer {
        read,
        state: first,
        ..refused
    }
}

/// All differences "rising by key", whatever their kinds, and the record that
/// closes the list with the number of each kind.
fn list_of(one: &Set, two: &Set) -> Vec<u8> {
    let mut list = Vec::new();
    let mut counts = [0u32; 3];
    let keys: BTreeSet<u64> = one.keys().chain(two.keys()).copied().collect();
    for key in keys {
        match (one.get(&key), two.get(&key)) {
            (Some(&value), None) => {
                push(&mut list, ONLY_FIRST, &[key, value]);
                counts[0] += 1;
            }
            (None, Some(&value)) => {
                push(&mut list, ONLY_SECOND, &[key, value]);
                counts[1] += 1;
            }
            (Some(&first), Some(&second)) if first != second => {
                push(&mut list, TWO_VALUES, &[key, first, second]);
                counts[2] += 1;
            }
            _ => {}
        }
    }
    push_head(&mut list, CLOSING, CLOSING_BYTES);
    list.extend(counts.iter().flat_map(|count| count.to_le_bytes()));
    list
}

/// Adds a record of eight-byte numbers to a list.
fn push(list: &mut Vec<u8>, kind: u16, numbers: &[u64]) {
    push_head(list, kind, 4 + 8 * numbers.len());
    list.extend(numbers.iter().flat_map(|number| number.to_le_bytes()));
}

fn push_head(list: &mut Vec<u8>, kind: u16, length: usize) {
    list.extend((length as u16).to_le_bytes());
    list.extend(kind.to_le_bytes());
}

#[cfg(test)]
mod tests;
