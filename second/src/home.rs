//! Where a key lives: the draws and the walk through the enlargements.

use crate::state::State;

/// The modulus of the minimal standard generator, 2^31 - 1.
pub const MODULUS: u64 = 2_147_483_647;
/// Its factor.
pub const FACTOR: u64 = 16_807;

/// "seed = (K mod 2147483646) + 1".
pub fn seed_of(key: u64) -> u64 {
    key % (MODULUS - 1) + 1
}

/// "each next draw 16807 times the last, same modulus".
pub fn next_draw(last: u64) -> u64 {
    FACTOR * last % MODULUS
}

/// How many draws an edition passes over before the one of step 1: "step x
/// uses draw x + 10" in edition 2.
fn passed_over(edition: u16) -> usize {
    if edition == 2 {
        10
    } else {
        0
    }
}

/// The draw before that of step 1, each step using the next one; in edition 1
/// that is the seed.
pub fn draw_before_steps(edition: u16, key: u64) -> u64 {
    (0..passed_over(edition)).fold(seed_of(key), |draw, _| next_draw(draw))
}

/// np of the x-th enlargement, x counted from 1.
pub fn pages_per_group(n0: u64, x: u64) -> u64 {
    n0 + (x - 1) % n0
}

/// "The key is a mover if draw x times (np + 1) is at most 2147483647." The
/// draw is the one that step x uses.
pub fn is_mover(draw: u64, np: u64) -> bool {
    draw * (np + 1) <= MODULUS
}

/// The page that a mover at this address goes to when its group is enlarged,
/// with size F and G groups at the start of the enlargement.
pub fn new_address(address: u64, size: u64, groups: u64, sweeps: u64) -> u64 {
    let k = groups - 1 - address % groups;
    let w = k % sweeps;
    size + w * (groups / sweeps) + w.min(groups % sweeps) + k / sweeps
}

/// The home of a key. The state has to be in range.
pub fn home(state: State, key: u64) -> u64 {
    let n0 = u64::from(state.n0);
    let sweeps = u64::from(state.sweeps);
    let pages = u64::from(state.pages);
    let mut size = state.start_pages();
    let mut groups = u64::from(state.groups);
    let mut address = key % size;
    let mut draw = draw_before_steps(state.edition, key);
    let mut x = 1;
    while size < pages {
        draw = next_draw(draw);
        if is_mover(draw, pages_per_group(n0, x)) {
            let new = new_address(address, size, groups, sweeps);
            address = if new < pages { new } else { address };
        }
        size += groups;
        if (x - 1) % n0 == n0 - 1 {
            groups *= 2;
        }
        x += 1;
    }
    address
}

#[cfg(test)]
mod tests;
