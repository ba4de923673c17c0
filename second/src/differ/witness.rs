//! Every comparison held against the check of each file, the images from
//! scratch and the list itself, read back and applied.

use crate::answer::{Answer, OUT_OF_RANGE, WRONG_AREA, WRONG_ROOM};
use crate::calls::Call;
use crate::differ::read_back::{read_back, Difference};
use crate::differ::{differ, Compared, Site};
use crate::image::records_of;
use crate::page::Record;
use crate::witness::must;
use std::collections::{BTreeMap, BTreeSet};

/// Makes a comparison and checks it. An error says what doesn't agree.
pub fn witnessed(first: Site, second: Site, room: &mut [u8]) -> Result<Compared, String> {
    let before = room.to_vec();
    let compared = differ(first, second, room);
    let told = |what: String| {
        let (one, two) = (first.state, second.state);
        format!("{what}: a comparison of {one:?} and {two:?} gave {compared:?}")
    };
    room_kept(&compared, &before, room).map_err(told)?;
    match refused_by_check(first, second)? {
        Some(refused) => {
            must(compared == refused, &format!("should be {refused:?}")).map_err(told)?
        }
        None => against_the_sets(first, second, room, &compared).map_err(told)?,
    }
    Ok(compared)
}

/// "room beyond them keeps its bytes", and after any refusal "the room is
/// unchanged and the length is 0".
fn room_kept(compared: &Compared, before: &[u8], room: &[u8]) -> Result<(), String> {
    let taken = compared.taken as usize;
    must(taken <= room.len(), "more is taken than there is room")?;
    must(before[taken..] == room[taken..], "the room wasn't kept")?;
    let refused = compared.answer.refusal != 0;
    must(!refused || taken == 0, "a refusal took room")
}

/// What a check of the first file says against it, and then one of the second;
/// both are held against the image. None where both are right.
fn refused_by_check(first: Site, second: Site) -> Result<Option<Compared>, String> {
    let checked = |site: Site| {
        crate::witness::witnessed(Call::Check, site.state, &mut site.area.to_vec(), &mut [])
    };
    let one = checked(first)?;
    let two = checked(second)?;
    let (file, refused, read_before) = match (one.refusal, two.refusal) {
        (0, 0) => return Ok(None),
        (0, _) => (2, two, one.read),
        _ => (1, one, 0),
    };
    let read = match refused.refusal {
        OUT_OF_RANGE | WRONG_AREA => 0,
        _ => read_before + refused.read,
    };
    let answer = Answer {
        read,
        state: first.state,
        ..refused
    };
    Ok(Some(Compared {
        answer,
        file,
        taken: 0,
    }))
}

/// Two files that pass their checks. "15 exactly when the room is shorter than
/// the whole list", and otherwise a list that says what differs.
fn against_the_sets(
    first: Site,
    second: Site,
    room: &[u8],
    compared: &Compared,
) -> Result<(), String> {
    let held = |site: Site| records_of(site.state, site.area).ok_or("checked, but no image");
    let (one, two) = (held(first)?, held(second)?);
    let read = usize::from(first.state.cap) + usize::from(second.state.cap);
    let whole = whole_length(&one, &two);
    let right = if room.len() < whole {
        Answer::refused(first.state, WRONG_ROOM, read).into()
    } else {
        Compared {
            taken: whole as u32,
            ..Answer::accepted(first.state, read).into()
        }
    };
    must(*compared == right, &format!("should be {right:?}"))?;
    if compared.answer.refusal == 0 {
        let list = read_back(&room[..whole]).ok_or("what is written is no list")?;
        leads_over(&list, &one, &two)?;
    }
    Ok(())
}

/// How long a list has to be, from numbers of keys and of records alone.
fn whole_length(one: &[Record], two: &[Record]) -> usize {
    let keys =
        |records: &[Record]| -> BTreeSet<u64> { records.iter().map(|record| record.key).collect() };
    let pairs = |records: &[Record]| -> BTreeSet<(u64, u64)> {
        records
            .iter()
            .map(|record| (record.key, record.value))
            .collect()
    };
    let in_both = keys(one).intersection(&keys(two)).count();
    let the_same = pairs(one).intersection(&pairs(two)).count();
    let only_in_one = one.len() + two.len() - 2 * in_both;
    20 * only_in_one + 28 * (in_both - the_same) + 16
}

/// "Each difference stands once", "rising by key"; applied to the first set one
/// after the other, each to what it says of it, they give the second.
fn leads_over(list: &[Difference], one: &[Record], two: &[Record]) -> Result<(), String> {
    let rising = list.windows(2).all(|pair| pair[0].key() < pair[1].key());
    must(rising, "the list doesn't rise by key")?;
    let set = |records: &[Record]| -> BTreeMap<u64, u64> {
        records
            .iter()
            .map(|record| (record.key, record.value))
            .collect()
    };
    let mut now = set(one);
    let said = list.iter().all(|difference| match *difference {
        Difference::OnlyFirst(Record { key, value }) => now.remove(&key) == Some(value),
        Difference::OnlySecond(Record { key, value }) => now.insert(key, value).is_none(),
        Difference::TwoValues { key, first, second } => {
            first != second && now.insert(key, second) == Some(first)
        }
    });
    must(said, "the list says what the first file doesn't hold")?;
    must(now == set(two), "the list doesn't lead to the second file")
}

#[cfg(test)]
mod tests;
