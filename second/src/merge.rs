//! Merging another file into a living one, which ends as the image of both
//! record sets "at its own size". The records of both are taken as plain sets,
//! so that the other file's numbers have no part in where they go.

use crate::answer::{Answer, CLASH, NO_ROOM, WRONG_ROW};
use crate::calls::refused_early;
use crate::differ::{behind_first, judged, Set, Site};
use crate::page::Record;
use crate::resize::{count_homes, has_room, remake};
use crate::state::State;

pub mod witness;

/// What a merge answers. The state is the living file's.
#[derive(Clone, Copy, Debug, PartialEq, Eq)]
pub struct Merged {
    pub answer: Answer,
    /// 1 or 2, the file that a refusal is about, the living one or the other;
    /// the row is the living file's. 0 where it is about neither.
    pub file: u16,
}

impl From<Answer> for Merged {
    /// An answer that is about neither file.
    fn from(answer: Answer) -> Merged {
        Merged { answer, file: 0 }
    }
}

/// Merges the other file into the living one. The row has a count for each page
/// lent to the living file, and those counts decide whether there is room.
pub fn merge(state: State, area: &mut [u8], other: Site, row: &mut [u32]) -> Merged {
    let (held, added) = match both_sets(Site { state, area }, other, row.len()) {
        Ok(sets) => sets,
        Err(refused) => return refused,
    };
    let read = usize::from(state.cap) + usize::from(other.state.cap);
    if let Some(key) = lowest_clash(&held, &added) {
        return clash(state, key, read).into();
    }
    let both = records_of_both(&held, &added);
    count_homes(state, both.iter().copied(), row);
    if !has_room(row) {
        return Answer::refused(state, NO_ROOM, read).into();
    }
    area.copy_from_slice(&remake(state, both.iter().copied()));
    let state = State {
        records: both.len() as u32,
        ..state
    };
    Answer::accepted(state, read).into()
}

/// The records of either file. The error is the refusal that comes first: "the
/// living file's 1 and 2, its row's 3, its 4 and 9, the other's 1, 2, 4 and 9".
fn both_sets(living: Site, other: Site, row_length: usize) -> Result<(Set, Set), Merged> {
    let about = |file: u16| move |answer: Answer| Merged { answer, file };
    if let Some(refused) = refused_early(living.state, living.area) {
        return Err(about(1)(refused));
    }
    if row_length != usize::from(living.state.cap) {
        let refused = Answer::refused(living.state, WRONG_ROW, 0);
        return Err(about(1)(refused));
    }
    let held = judged(living).map_err(about(1))?;
    let added = judged(other)
        .map_err(|refused| behind_first(living.state, refused))
        .map_err(about(2))?;
    Ok((held, added))
}

/// The lowest key that both hold with two values. "A record in both, the same
/// in all fields," is no clash.
fn lowest_clash(held: &Set, added: &Set) -> Option<u64> {
    let two_values = |(key, value): &(&u64, &u64)| added.get(key).is_some_and(|new| new != *value);
    held.iter().find(two_values).map(|(key, _)| *key)
}

/// "13 with the lowest clashing key in the value field".
fn clash(state: State, key: u64, read: usize) -> Answer {
    Answer {
        value: key,
        ..Answer::refused(state, CLASH, read)
    }
}

/// All records of both files; one that is in both "counts once".
fn records_of_both(held: &Set, added: &Set) -> Vec<Record> {
    let mut both = held.clone();
    both.extend(added);
    both.into_iter()
        .map(|(key, value)| Record { key, value })
        .collect()
}

#[cfg(test)]
mod tests;
