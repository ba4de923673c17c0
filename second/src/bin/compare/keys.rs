//! Keys to try: clustered, consecutive, random and extreme ones.

use crate::random::Random;
use second::home::home;
use second::state::State;

/// The modulus of the seeds; keys that differ by it draw alike.
const SEEDS: u64 = 2_147_483_646;

#[derive(Clone, Copy)]
enum Style {
    /// Keys of one home.
    Clustered {
        home: u64,
    },
    Consecutive {
        next: u64,
    },
    Random,
    Extreme,
    /// Keys so small and few that they come again and again.
    Few {
        below: u64,
    },
}

/// A source of keys of one style.
#[derive(Clone)]
pub struct Keys(Style);

impl Keys {
    pub fn new(random: &mut Random, state: State) -> Keys {
        let pages = u64::from(state.pages);
        Keys(match random.index(7) {
            0 => Style::Clustered {
                home: random.within(0, pages - 1),
            },
            1 => Style::Clustered { home: pages - 1 },
            2 => Style::Consecutive { next: 0 },
            3 => Style::Consecutive {
                next: extreme(random).wrapping_sub(20),
            },
            4 => Style::Random,
            5 => Style::Extreme,
            _ => Style::Few {
                below: random.within(1, 12 * u64::from(state.cap) + 4),
            },
        })
    }

    pub fn draw(&mut self, random: &mut Random, state: State) -> u64 {
        match &mut self.0 {
            Style::Clustered { home } => key_with_home(random, state, *home),
            Style::Consecutive { next } => {
                *next = next.wrapping_add(1);
                next.wrapping_sub(1)
            }
            Style::Random => random.next(),
            Style::Extreme => extreme(random),
            Style::Few { below } => random.within(0, *below - 1),
        }
    }
}

/// A key of this home, or any key where a hundred tries found none.
pub fn key_with_home(random: &mut Random, state: State, wanted: u64) -> u64 {
    let narrow = random.one_in(2);
    for _ in 0..100 {
        let word = random.next();
        let key = if narrow { word % 5000 } else { word };
        if home(state, key) == wanted {
            return key;
        }
    }
    random.next()
}

/// Keys at the edges of what 64 bits and the seeds can tell apart.
pub fn extreme(random: &mut Random) -> u64 {
    let near = random.pick(&[u64::MAX, 0, 0, 1, 2]);
    match random.index(6) {
        0 => random.pick(&[0, 1, u64::MAX, u64::MAX - 1]),
        1 => SEEDS.wrapping_mul(random.within(0, 3)).wrapping_add(near),
        2 => SEEDS
            .wrapping_mul(random.within(0, u64::MAX / SEEDS))
            .wrapping_add(near),
        3 => (1u64 << random.index(64)).wrapping_add(near),
        4 => (u64::MAX / SEEDS * SEEDS).wrapping_add(near),
        _ => SEEDS.wrapping_mul(random.within(0, 40)),
    }
}
