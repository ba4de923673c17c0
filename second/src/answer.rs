//! What a call answers.

use crate::state::State;

pub const OUT_OF_RANGE: u16 = 1;
pub const WRONG_AREA: u16 = 2;
pub const WRONG_ROW: u16 = 3;
pub const BROKEN: u16 = 4;
pub const ABSENT: u16 = 5;
/// A put of a held key with the value that is held.
pub const REPEAT: u16 = 6;
/// A put, a growth or a merge that the lent pages have no place for; no shrink
/// is.
pub const NO_ROOM: u16 = 7;
pub const GROWN_OUT: u16 = 8;
pub const NOT_THE_IMAGE: u16 = 9;
pub const BAD_RECORD: u16 = 10;
pub const CUT_OFF: u16 = 11;
pub const TOO_MANY_PAGES: u16 = 12;
/// A put of a held key with another value, or a merge of two files that hold a
/// key with two values.
pub const CLASH: u16 = 13;
/// A shrink of a file that has the pages it started with: P = n0 x N.
pub const NOT_GROWN: u16 = 14;
/// A room that isn't as long as the replies of a run, or is shorter than the
/// list of a comparison.
pub const WRONG_ROOM: u16 = 15;

/// The kind of a reply.
const REPLY_KIND: u16 = 513;

/// The answer with the state after the call. Refusal 0 means accepted.
#[derive(Clone, Copy, Debug, PartialEq, Eq)]
pub struct Answer {
    pub refusal: u16,
    pub page: u16,
    pub value: u64,
    pub read: u32,
    pub moved: u32,
    pub state: State,
}

impl Answer {
    /// Accepted, leaving this state; "page is 0, and value is 0 for all but
    /// find".
    pub fn accepted(state: State, read: usize) -> Answer {
        Answer {
            refusal: 0,
            page: 0,
            value: 0,
            read: read as u32,
            moved: 0,
            state,
        }
    }

    /// Refused: "a refusal leaves area and state unchanged".
    pub fn refused(state: State, refusal: u16, read: usize) -> Answer {
        Answer {
            refusal,
            ..Answer::accepted(state, read)
        }
    }

    /// Refused for a broken page, the only refusal that tells a page.
    pub fn broken(state: State, page: usize, read: usize) -> Answer {
        Answer {
            page: page as u16,
            ..Answer::refused(state, BROKEN, read)
        }
    }

    /// Refused because the key of a put is held: a repeat where the held value
    /// is offered, a clash otherwise. Both tell the held value; but for them only
    /// a merge tells something in its place.
    pub fn held(state: State, held: u64, offered: u64, read: usize) -> Answer {
        let refusal = if held == offered { REPEAT } else { CLASH };
        Answer {
            value: held,
            ..Answer::refused(state, refusal, read)
        }
    }

    /// What every reply has behind its length: kind, refusal, page and value.
    pub fn push_start(&self, bytes: &mut Vec<u8>) {
        bytes.extend(REPLY_KIND.to_le_bytes());
        bytes.extend(self.refusal.to_le_bytes());
        bytes.extend(self.page.to_le_bytes());
        bytes.extend(self.value.to_le_bytes());
    }
}
