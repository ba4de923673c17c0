//! What a call on an image has to come to, worked out from its records alone.

use crate::answer::{ABSENT, CLASH, GROWN_OUT, NOT_GROWN, NO_ROOM, REPEAT, WRONG_ROW};
use crate::calls::Call;
use crate::page::Record;
use crate::room::fits;
use crate::state::State;

/// The refusal and the value of an answer, and the records and the state that
/// the call leaves.
pub struct Expected {
    pub refusal: u16,
    pub value: u64,
    pub state: State,
    pub records: Vec<Record>,
}

/// Works it out without walking or judging a page. An error tells that the
/// two ways of looking for room disagree.
pub fn expect(
    asked: Call,
    state: State,
    row_length: usize,
    records: Vec<Record>,
) -> Result<Expected, String> {
    match asked {
        Call::Put { key, value } => expect_put(state, records, Record { key, value }),
        Call::Find { key } => Ok(expect_find(state, records, key)),
        Call::Remove { key } => Ok(expect_remove(state, records, key)),
        Call::Grow => expect_grown(state, row_length, records),
        Call::Shrink => Ok(expect_shrunk(state, records)),
        _ => Ok(Expected {
            refusal: 0,
            value: 0,
            state,
            records,
        }),
    }
}

fn held(records: &[Record], key: u64) -> Option<u64> {
    records
        .iter()
        .find(|record| record.key == key)
        .map(|record| record.value)
}

fn keys(records: &[Record]) -> Vec<u64> {
    records.iter().map(|record| record.key).collect()
}

fn expect_put(state: State, mut records: Vec<Record>, new: Record) -> Result<Expected, String> {
    if let Some(value) = held(&records, new.key) {
        let repeats = records.contains(&new);
        return Ok(Expected {
            refusal: if repeats { REPEAT } else { CLASH },
            value,
            state,
            records,
        });
    }
    records.push(new);
    if fits(state, &keys(&records))? {
        return Ok(Expected {
            refusal: 0,
            value: 0,
            state: state.one_more(),
            records,
        });
    }
    records.pop();
    Ok(Expected {
        refusal: NO_ROOM,
        value: 0,
        state,
        records,
    })
}

fn expect_find(state: State, records: Vec<Record>, key: u64) -> Expected {
    let found = held(&records, key);
    let refusal = if found.is_some() { 0 } else { ABSENT };
    Expected {
        refusal,
        value: found.unwrap_or(0),
        state,
        records,
    }
}

fn expect_remove(state: State, mut records: Vec<Record>, key: u64) -> Expected {
    if held(&records, key).is_none() {
        return Expected {
            refusal: ABSENT,
            value: 0,
            state,
            records,
        };
    }
    records.retain(|record| record.key != key);
    Expected {
        refusal: 0,
        value: 0,
        state: state.one_less(),
        records,
    }
}

/// The refusal that a grow or a shrink gets before any page is judged, whatever
/// the pages hold. The state is in range and the area has its length.
pub fn refused_unread(asked: Call, state: State, row_length: usize) -> Option<u16> {
    match asked {
        Call::Grow if row_length != usize::from(state.cap) => Some(WRONG_ROW),
        Call::Grow if state.pages == state.cap => Some(GROWN_OUT),
        Call::Shrink if state.at_start_pages() => Some(NOT_GROWN),
        _ => None,
    }
}

fn expect_grown(state: State, row_length: usize, records: Vec<Record>) -> Result<Expected, String> {
    let grown = state.one_page_grown();
    let refusal = match refused_unread(Call::Grow, state, row_length) {
        Some(refusal) => refusal,
        None if fits(grown, &keys(&records))? => 0,
        None => NO_ROOM,
    };
    Ok(expect_resized(refusal, state, grown, records))
}

/// Room isn't asked for, since a shrink may not be refused for want of it. The
/// witness lays these records out at the smaller size all the same, and would
/// tell if they had none there.
fn expect_shrunk(state: State, records: Vec<Record>) -> Expected {
    let refusal = refused_unread(Call::Shrink, state, 0).unwrap_or(0);
    expect_resized(refusal, state, state.one_page_shrunk(), records)
}

/// The records stay the same; only where nothing is refused is there another
/// size.
fn expect_resized(refusal: u16, state: State, other: State, records: Vec<Record>) -> Expected {
    Expected {
        refusal,
        value: 0,
        state: if refusal == 0 { other } else { state },
        records,
    }
}
