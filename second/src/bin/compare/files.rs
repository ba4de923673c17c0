//! Files to make calls on: parameters, and images of many fillings.

use crate::keys::{key_with_home, Keys};
use crate::random::Random;
use second::bytes::two;
use second::image::page_bytes;
use second::page::{Record, PAGE_BYTES, SLOTS};
use second::put::put;
use second::state::State;

/// A file with its area, the keys it holds and a source of further ones.
#[derive(Clone)]
pub struct File {
    pub state: State,
    pub area: Vec<u8>,
    pub held: Vec<u64>,
    pub keys: Keys,
}

/// Pages to lend: mostly 1 to 8, at times up to 64.
fn cap(random: &mut Random) -> u16 {
    let cap = match random.index(60) {
        0 => random.within(17, 64),
        1..=3 => random.within(9, 16),
        4..=15 => random.within(5, 8),
        16..=19 => 1,
        _ => random.within(2, 5),
    };
    cap as u16
}

/// A state in range with no records, of either edition.
pub fn parameters(random: &mut Random) -> State {
    let cap = cap(random);
    parameters_for(random, cap)
}

/// A state in range with no records, for so many lent pages.
pub fn parameters_for(random: &mut Random, cap: u16) -> State {
    let cap = u64::from(cap);
    // Files that start small are the ones that have far to grow.
    let small = !random.one_in(3);
    let n0 = random.within(1, cap.min(if small { 2 } else { 4 }));
    let most = (cap / n0).min(64);
    let groups = random.within(1, if small { most.min(2) } else { most });
    let sweeps = random.within(1, 8);
    let pages = match random.index(4) {
        0 => n0 * groups,
        1 => random.within(n0 * groups, cap),
        2 => (n0 * groups).max(cap - 1),
        _ => cap,
    };
    let edition = random.within(1, 2);
    let numbers = [n0, groups, sweeps, pages, cap, edition];
    let [n0, groups, sweeps, pages, cap, edition] = numbers.map(|n| n as u16);
    State {
        n0,
        groups,
        sweeps,
        pages,
        cap,
        edition,
        records: 0,
    }
}

/// The same numbers with the other edition.
pub fn of_other_edition(state: State) -> State {
    State {
        edition: 3 - state.edition,
        ..state
    }
}

/// The image of no records.
pub fn empty_area(state: State) -> Vec<u8> {
    (0..usize::from(state.cap))
        .flat_map(|address| page_bytes(address, &[]))
        .collect()
}

/// How many records to aim at: none, a few, any number, nearly full, full.
fn aim(random: &mut Random, state: State) -> u64 {
    let most = state.most_records();
    match random.index(6) {
        0 => random.within(0, 1),
        1 => random.within(0, most.min(14)),
        2 => most - random.within(0, most.min(3)),
        3 => most,
        _ => random.within(0, most),
    }
}

/// An image of a random filling.
pub fn image(random: &mut Random) -> File {
    let state = parameters(random);
    filled(random, state)
}

/// An image of a random filling, with these numbers.
pub fn filled(random: &mut Random, state: State) -> File {
    let mut file = File::empty(random, state);
    let aim = aim(random, state);
    for _ in 0..aim {
        let key = file.keys.draw(random, state);
        file.add(random, key);
    }
    // What found no room is made up for with keys of the lowest home, so that
    // full files come about whatever the style.
    for _ in file.held.len() as u64..aim {
        let key = key_with_home(random, state, 0);
        file.add(random, key);
    }
    file
}

/// A run of three full pages or more from one home up, and its last page.
pub fn long_run(random: &mut Random) -> (File, usize) {
    let cap = random.within(3, 9);
    let state = parameters_for(random, cap as u16);
    let home = random.within(0, u64::from(state.pages - 1).min(cap - 3));
    let last = random.within(home + 2, cap - 1) as usize;
    let mut file = File::empty(random, state);
    // Keys of that home aren't always found, so some tries go elsewhere.
    for _ in 0..4 * state.most_records() {
        if file.full_page(last) {
            break;
        }
        let key = key_with_home(random, state, home);
        file.add(random, key);
    }
    (file, last)
}

impl File {
    pub fn empty(random: &mut Random, state: State) -> File {
        File {
            state,
            area: empty_area(state),
            held: Vec::new(),
            keys: Keys::new(random, state),
        }
    }

    fn full_page(&self, address: usize) -> bool {
        let head = &self.area[PAGE_BYTES * address..];
        usize::from(two(head, 8)) == SLOTS
    }

    /// Adds keys of the lowest home until no slot is left, or nearly so where
    /// such keys are hard to find.
    pub fn fill_up(&mut self, random: &mut Random) {
        for _ in 0..4 * self.state.most_records() {
            if self.state.at_most_records() {
                return;
            }
            let key = key_with_home(random, self.state, 0);
            self.add(random, key);
        }
    }

    /// Adds a key, where there is room for it.
    pub fn add(&mut self, random: &mut Random, key: u64) {
        let value = random.value();
        let answer = put(self.state, &mut self.area, Record { key, value });
        self.state = answer.state;
        if answer.refusal == 0 {
            self.held.push(key);
        }
    }

    /// A key to ask for: often a held one.
    pub fn some_key(&mut self, random: &mut Random) -> u64 {
        if !self.held.is_empty() && random.one_in(2) {
            return random.pick(&self.held);
        }
        match random.index(4) {
            0 => key_with_home(random, self.state, 0),
            1 => random.next(),
            _ => self.keys.draw(random, self.state),
        }
    }
}
