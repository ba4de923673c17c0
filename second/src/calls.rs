//! The eight calls, with the refusals that come before any page is judged.

use crate::answer::{Answer, ABSENT, OUT_OF_RANGE, WRONG_AREA};
use crate::page::{write, Page, Record};
use crate::state::State;
use crate::walk::{walk, End};

/// A call with what it asks for.
#[derive(Clone, Copy, Debug, PartialEq, Eq)]
pub enum Call {
    Due,
    Format {
        n0: u16,
        groups: u16,
        sweeps: u16,
        cap: u16,
        /// As wide as a raw call gives it, so that no byte goes unlooked at.
        edition: u64,
    },
    Put {
        key: u64,
        value: u64,
    },
    Find {
        key: u64,
    },
    Remove {
        key: u64,
    },
    Grow,
    Check,
    Shrink,
}

/// Makes a call. Only an accepted one changes the area, and only grow the row.
pub fn call(call: Call, state: State, area: &mut [u8], row: &mut [u32]) -> Answer {
    match call {
        Call::Due => Answer::accepted(state, 0),
        Call::Format {
            n0,
            groups,
            sweeps,
            cap,
            edition,
        } => format(state, State::asked(n0, groups, sweeps, cap, edition), area),
        other => match refused_early(state, area) {
            Some(answer) => answer,
            None => on_a_file(other, state, area, row),
        },
    }
}

/// What every call on a file is refused with before any page is judged.
pub fn refused_early(state: State, area: &[u8]) -> Option<Answer> {
    let refusal = if !state.in_range() {
        OUT_OF_RANGE
    } else if area.len() != state.area_bytes() {
        WRONG_AREA
    } else {
        return None;
    };
    Some(Answer::refused(state, refusal, 0))
}

fn on_a_file(call: Call, state: State, area: &mut [u8], row: &mut [u32]) -> Answer {
    match call {
        Call::Put { key, value } => crate::put::put(state, area, Record { key, value }),
        Call::Find { key } => find(state, area, key),
        Call::Remove { key } => crate::remove::remove(state, area, key),
        Call::Grow => crate::resize::grow(state, area, row),
        Call::Check => crate::check::check(state, area),
        Call::Shrink => crate::resize::shrink(state, area),
        Call::Due | Call::Format { .. } => Answer::accepted(state, 0),
    }
}

/// "judged on the numbers it is asked for, not on the state before it".
fn format(before: State, asked: Option<State>, area: &mut [u8]) -> Answer {
    let Some(asked) = asked.filter(|asked| asked.in_range()) else {
        return Answer::refused(before, OUT_OF_RANGE, 0);
    };
    if area.len() != asked.area_bytes() {
        return Answer::refused(before, WRONG_AREA, 0);
    }
    for address in 0..usize::from(asked.cap) {
        write(area, address, &Page::EMPTY);
    }
    Answer::accepted(asked, 0)
}

fn find(state: State, area: &[u8], key: u64) -> Answer {
    let found = walk(state, area, key);
    match found.end {
        End::Broken { address } => Answer::broken(state, address, found.read),
        End::Held { slot, page, .. } => Answer {
            value: page.values[slot],
            ..Answer::accepted(state, found.read)
        },
        End::Stopped { .. } | End::RanOut => Answer::refused(state, ABSENT, found.read),
    }
}
