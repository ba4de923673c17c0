//! A pay run: many puts in one call, with a reply for each in lent room.

use crate::answer::{Answer, BAD_RECORD, WRONG_ROOM};
use crate::calls::Call;
use crate::commands::{parse, read_head, reply, HEAD_BYTES, PUT_BYTES, PUT_KIND, REPLY_BYTES};
use crate::state::State;
use crate::witness::witnessed;

/// Makes the puts of a run one after the other. The answer is that of the run
/// itself, with the state that its last put left; what became of each put
/// stands in the room only, so nothing but 10 and 15 is told here. An error
/// says where a put doesn't agree with what it should have come to.
pub fn pay_run(
    state: State,
    area: &mut [u8],
    records: &[u8],
    room: &mut [u8],
) -> Result<Answer, String> {
    let Some(puts) = puts_of(records) else {
        return Ok(Answer::refused(state, BAD_RECORD, 0));
    };
    if room.len() != REPLY_BYTES * puts.len() {
        return Ok(Answer::refused(state, WRONG_ROOM, 0));
    }
    let mut state = state;
    for (put, place) in puts.into_iter().zip(room.chunks_exact_mut(REPLY_BYTES)) {
        let answer = witnessed(put, state, area, &mut [])?;
        place.copy_from_slice(&reply(&answer));
        state = answer.state;
    }
    Ok(Answer::accepted(state, 0))
}

/// The puts that the bytes spell, None where they aren't "whole put records
/// with right heads".
fn puts_of(records: &[u8]) -> Option<Vec<Call>> {
    let records = records.chunks_exact(PUT_BYTES);
    if !records.remainder().is_empty() {
        return None;
    }
    records.map(put_of).collect()
}

fn put_of(record: &[u8]) -> Option<Call> {
    let (head, body) = record.split_at(HEAD_BYTES);
    (read_head(head)? == (PUT_KIND, PUT_BYTES)).then(|| parse(PUT_KIND, body))
}

#[cfg(test)]
mod tests;
