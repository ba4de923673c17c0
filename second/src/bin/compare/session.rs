//! Sessions of sensible commands, for logs.

use crate::files::parameters_for;
use crate::keys::Keys;
use crate::random::Random;
use crate::values::{again, other};
use second::commands::{FORMAT_KIND, HEAD_BYTES};
use second::state::State;

/// A command with these bytes behind its head.
fn with_head(kind: u16, body: Vec<u8>) -> Vec<u8> {
    let length = (HEAD_BYTES + body.len()) as u16;
    let head = [length.to_le_bytes(), kind.to_le_bytes()].concat();
    [head, body].concat()
}

pub fn command(kind: u16, body: &[u64]) -> Vec<u8> {
    let bytes = body.iter().flat_map(|number| number.to_le_bytes());
    with_head(kind, bytes.collect())
}

/// A format with these numbers: n0, N, s and cap, with an edition or without.
pub fn format(numbers: &[u16]) -> Vec<u8> {
    let bytes = numbers.iter().flat_map(|number| number.to_le_bytes());
    with_head(FORMAT_KIND, bytes.collect())
}

/// A fresh file of so many lent pages, and the command that asks for it. An
/// edition of 1 is told or left out.
fn fresh(random: &mut Random, cap: u64) -> (State, Vec<u8>) {
    let mut state = parameters_for(random, cap as u16);
    state.pages = state.n0 * state.groups;
    let left_out = state.edition == 1 && random.one_in(2);
    let State {
        n0,
        groups,
        sweeps,
        cap,
        edition,
        ..
    } = state;
    let numbers = [n0, groups, sweeps, cap, edition];
    let told = if left_out { 4 } else { 5 };
    (state, format(&numbers[..told]))
}

/// A format and commands after it: phases of filling, growing, emptying,
/// shrinking and mixed ones, as many as the number of commands lasts for.
pub fn session(random: &mut Random, cap: u64, commands: u64) -> Vec<u8> {
    let (state, mut bytes) = fresh(random, cap);
    let mut phase = Phase::new(random, state);
    for left in (0..commands).rev() {
        if left == commands - 1 || random.one_in(40) {
            phase.weights = random.pick(&PHASES);
        }
        bytes.extend(phase.command(random));
    }
    bytes
}

/// A file filled with keys of the lowest home, half the time to its last
/// slot, and asked to grow, which then often finds no room, and to shrink. Its
/// keys are put again: with their values, with others, and with others once
/// they were removed.
pub fn put_again(random: &mut Random) -> Vec<u8> {
    let cap = random.within(1, 5);
    let (state, mut bytes) = fresh(random, cap);
    let missing = if random.one_in(2) {
        0
    } else {
        random.within(1, 12 * cap - 1)
    };
    let mut held: Vec<(u64, u64)> = (0..12 * cap - missing)
        .map(|number| (number * state.start_pages(), random.value()))
        .collect();
    for &(key, value) in &held {
        bytes.extend(command(258, &[key, value]));
    }
    bytes.extend(command(261, &[]));
    for _ in 0..random.within(4, 40) {
        let at = random.index(held.len());
        let (key, value) = held[at];
        bytes.extend(match random.index(11) {
            0 => command(259, &[key]),
            1 => command(261, &[]),
            2 => command(263, &[]),
            3 => {
                held[at].1 = other(random, value);
                [command(260, &[key]), command(258, &[key, held[at].1])].concat()
            }
            _ => command(258, &[key, again(random, value)]),
        });
    }
    bytes
}

/// A file filled at its first size, then taken up and down over several
/// expansions, at times a step further than it goes. Between two ways some
/// commands of all kinds come, and a check.
pub fn up_and_down(random: &mut Random) -> Vec<u8> {
    let cap = random.within(2, 24);
    let (state, mut bytes) = fresh(random, cap);
    let steps = cap - state.start_pages() + 1;
    let mut phase = Phase::new(random, state);
    for _ in 0..random.within(0, 9 * state.start_pages()) {
        bytes.extend(phase.put(random));
    }
    phase.weights = MIXED;
    for _ in 0..random.within(1, 3) {
        for kind in [261, 263] {
            let ways = random.within(1, steps) as usize;
            bytes.extend(command(kind, &[]).repeat(random.pick(&[ways, steps as usize])));
            bytes.extend(command(262, &[]));
            for _ in 0..random.index(4) {
                bytes.extend(phase.command(random));
            }
        }
    }
    bytes
}

/// How often, of a hundred, each phase puts, finds, removes, grows, checks and
/// shrinks. The last two empty a file page by page and go up and down.
const PHASES: [[u64; 6]; 7] = [
    [87, 4, 2, 4, 2, 1],
    [70, 5, 3, 20, 2, 0],
    [8, 4, 82, 2, 4, 0],
    MIXED,
    [40, 2, 2, 54, 2, 0],
    [4, 4, 62, 2, 4, 24],
    [28, 4, 8, 28, 4, 28],
];
const MIXED: [u64; 6] = [40, 15, 28, 8, 5, 4];

struct Phase {
    state: State,
    keys: Keys,
    /// The keys that were put and not removed since, each with the value it
    /// was first put with. Some of them found no room.
    put: Vec<(u64, u64)>,
    weights: [u64; 6],
}

impl Phase {
    /// A phase on a fresh file, with no weights yet.
    fn new(random: &mut Random, state: State) -> Phase {
        Phase {
            keys: Keys::new(random, state),
            state,
            put: Vec::new(),
            weights: [0; 6],
        }
    }

    fn command(&mut self, random: &mut Random) -> Vec<u8> {
        let mut ticket = random.within(0, 99);
        let mut chosen = 0;
        while chosen < 5 && ticket >= self.weights[chosen] {
            ticket -= self.weights[chosen];
            chosen += 1;
        }
        match chosen {
            0 => self.put(random),
            1 => command(259, &[self.key(random)]),
            2 => command(260, &[self.forget(random)]),
            3 => command(261, &[]),
            4 => command(262, &[]),
            _ => command(263, &[]),
        }
    }

    fn put(&mut self, random: &mut Random) -> Vec<u8> {
        let again = random.one_in(10);
        let key = if again {
            self.key(random)
        } else {
            self.keys.draw(random, self.state)
        };
        command(258, &[key, self.value(random, key)])
    }

    /// For a key that was put its value or another one, for a new one any.
    fn value(&mut self, random: &mut Random, key: u64) -> u64 {
        if let Some(&(_, value)) = self.put.iter().find(|(put, _)| *put == key) {
            return again(random, value);
        }
        let value = random.value();
        self.put.push((key, value));
        value
    }

    /// A key that was put, or another one.
    fn key(&mut self, random: &mut Random) -> u64 {
        if self.put.is_empty() || random.one_in(5) {
            return self.keys.draw(random, self.state);
        }
        random.pick(&self.put).0
    }

    fn forget(&mut self, random: &mut Random) -> u64 {
        if self.put.is_empty() || random.one_in(10) {
            return self.key(random);
        }
        let at = random.index(self.put.len());
        self.put.swap_remove(at).0
    }
}

#[cfg(test)]
mod tests {
    use super::*;
    use crate::table::Table;
    use second::bytes::two;
    use second::commands::REPLY_BYTES;

    /// Files that go up and down do so over two full expansions and more, and
    /// are images at both ends of a way.
    #[test]
    fn files_come_down_as_far_as_they_went_up() {
        let (mut far, mut ends) = (0, Table::default());
        for piece in 0..60 {
            let input = up_and_down(&mut Random::new(6, piece));
            let mut output = Vec::new();
            assert!(second::log::run(&mut &input[..], &mut output).is_ok());
            let sizes: Vec<u16> = output
                .chunks_exact(REPLY_BYTES)
                .map(|reply| two(reply, 24))
                .collect();
            let top = sizes.iter().position(|&pages| pages >= 4 * sizes[0]);
            far += u32::from(top.is_some_and(|at| sizes[at..].contains(&sizes[0])));
            tally(&input, &output, &mut ends);
        }
        assert!(far >= 10, "{far}");
        let refusals: [(u16, &[u16]); 3] = [(261, &[0, 8]), (262, &[0]), (263, &[0, 14])];
        assert_eq!(ends.missing(&refusals), []);
        let beyond = ends.beyond(&refusals);
        assert!(beyond.iter().all(|(kind, _)| ![262, 263].contains(kind)));
    }

    /// Counts the refusals of a log whose commands all have replies.
    fn tally(input: &[u8], output: &[u8], table: &mut Table) {
        let mut rest = input;
        for reply in output.chunks_exact(REPLY_BYTES) {
            table.count(two(rest, 2), two(reply, 4));
            rest = &rest[usize::from(two(rest, 0))..];
        }
        assert!(rest.is_empty());
    }

    /// Keys put again are told to be held, as repeats and as clashes, and all
    /// others find room.
    #[test]
    fn what_is_put_again_is_held() {
        let mut table = Table::default();
        for piece in 0..40 {
            let input = put_again(&mut Random::new(5, piece));
            let mut output = Vec::new();
            assert!(second::log::run(&mut &input[..], &mut output).is_ok());
            tally(&input, &output, &mut table);
        }
        let put: [(u16, &[u16]); 1] = [(258, &[0, 6, 13])];
        assert_eq!(table.missing(&put), []);
        let beyond = table.beyond(&put);
        assert!(beyond.iter().all(|&(kind, _)| kind != 258), "{beyond:?}");
    }
}
