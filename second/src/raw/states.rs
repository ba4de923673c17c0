//! A state as its bytes: n0, N, s, P, cap, edition (2 each), r (4).

use crate::bytes::{four, two};
use crate::state::State;

/// The bytes of a state.
pub const STATE_BYTES: usize = 16;

/// The state that its bytes spell; those behind them aren't looked at.
pub fn state_of(bytes: &[u8]) -> State {
    State {
        n0: two(bytes, 0),
        groups: two(bytes, 2),
        sweeps: two(bytes, 4),
        pages: two(bytes, 6),
        cap: two(bytes, 8),
        edition: two(bytes, 10),
        records: four(bytes, 12),
    }
}

/// The bytes of a state, as a record has them and a second file.
pub fn state_bytes(state: State) -> Vec<u8> {
    let State {
        n0,
        groups,
        sweeps,
        pages,
        cap,
        edition,
        records,
    } = state;
    let mut bytes = Vec::with_capacity(STATE_BYTES);
    for number in [n0, groups, sweeps, pages, cap, edition] {
        bytes.extend(number.to_le_bytes());
    }
    bytes.extend(records.to_le_bytes());
    bytes
}
