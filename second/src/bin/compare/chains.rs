//! Chains of calls from a format on, each given what the last one left.

use crate::cases::asking_for;
use crate::files::{of_other_edition, parameters, parameters_for, File};
use crate::keys::{key_with_home, Keys};
use crate::random::Random;
use crate::runs::some_run;
use crate::sink::Sink;
use crate::values::offered;
use second::bytes::eight;
use second::commands::{FORMAT_KIND, HEAD_BYTES, PUT_BYTES};
use second::image::standing;
use second::raw::Case;
use second::state::State;

/// What a stretch of a chain mostly does.
#[derive(Clone, Copy)]
enum Mood {
    Fill,
    GrowWhenDue,
    Grow,
    Empty,
    Mixed,
    Shrink,
    UpAndDown,
}

pub fn chain(random: &mut Random, sink: &mut Sink) -> Result<(), String> {
    let asked = if random.one_in(50) {
        let cap = random.within(20, 64) as u16;
        parameters_for(random, cap)
    } else {
        parameters(random)
    };
    let mut file = File {
        state: State::default(),
        area: random.bytes(asked.area_bytes()),
        held: Vec::new(),
        keys: Keys::new(random, asked),
    };
    file.format(asked, sink)?;
    for _ in 0..random.within(1, 4) {
        if random.one_in(8) {
            file.format(of_other_edition(file.state), sink)?;
        }
        let moods = [
            Mood::Fill,
            Mood::GrowWhenDue,
            Mood::Grow,
            Mood::Empty,
            Mood::Mixed,
            Mood::Shrink,
            Mood::UpAndDown,
        ];
        let mood = random.pick(&moods);
        file.live(random, mood, sink)?;
    }
    file.call(262, 0, 0, sink)
}

/// A file that lives through a chain of calls.
impl File {
    /// Makes one call on the file as it is, and keeps what it leaves.
    pub fn keep(&mut self, case: Case, sink: &mut Sink) -> Result<(), String> {
        let area = std::mem::take(&mut self.area);
        let state = self.state;
        let after = sink.ask(Case {
            state,
            area,
            ..case
        })?;
        self.state = after.state;
        self.area = after.area;
        let records = standing(&self.area).into_iter();
        self.held = records.map(|(_, record)| record.key).collect();
        Ok(())
    }

    pub fn call(&mut self, kind: u16, a: u64, b: u64, sink: &mut Sink) -> Result<(), String> {
        // A shrink is lent a row too, which it may not touch.
        let entries = if [261, 263].contains(&kind) {
            usize::from(self.state.cap)
        } else {
            0
        };
        let case = Case {
            kind,
            a,
            b,
            row: vec![0xdead_beef; entries],
            ..Case::default()
        };
        self.keep(case, sink)
    }

    /// Begins the file anew, with these numbers.
    fn format(&mut self, asked: State, sink: &mut Sink) -> Result<(), String> {
        let (a, b) = asking_for(asked);
        self.call(FORMAT_KIND, a, b, sink)
    }

    /// Makes a run, then calls that have to meet what it left: its first and
    /// its last key, and any other one.
    fn pay(&mut self, random: &mut Random, sink: &mut Sink) -> Result<(), String> {
        let case = some_run(random, self);
        let put: Vec<u8> = case.second.clone();
        self.keep(case, sink)?;
        let items = put.len() / PUT_BYTES;
        if items == 0 {
            return Ok(());
        }
        for item in [0, items - 1, random.index(items)] {
            let key = eight(&put, PUT_BYTES * item + HEAD_BYTES);
            let kind = random.pick(&[258, 259, 259, 260]);
            let value = offered(random, &self.area, key);
            self.call(kind, key, value, sink)?;
        }
        Ok(())
    }

    fn live(&mut self, random: &mut Random, mood: Mood, sink: &mut Sink) -> Result<(), String> {
        let room = 12 * u64::from(self.state.cap);
        let most = if room > 200 { 120 } else { room + 10 };
        for _ in 0..random.within(1, most) {
            if sink.full() {
                return Ok(());
            }
            if random.one_in(20) {
                self.pay(random, sink)?;
            }
            let kind = self.next_kind(random, mood);
            let key = self.next_key(random, kind);
            let value = if kind == 258 {
                offered(random, &self.area, key)
            } else {
                0
            };
            self.call(kind, key, value, sink)?;
        }
        Ok(())
    }

    fn may_grow(&self) -> bool {
        self.state.pages < self.state.cap
    }

    fn may_shrink(&self) -> bool {
        !self.state.at_start_pages()
    }

    fn next_kind(&self, random: &mut Random, mood: Mood) -> u16 {
        if random.one_in(12) {
            return random.pick(&[256, 259, 261, 262, 263]);
        }
        match mood {
            Mood::Fill => 258,
            Mood::GrowWhenDue if self.state.due() && self.may_grow() => 261,
            Mood::GrowWhenDue => 258,
            Mood::Grow if self.may_grow() => random.pick(&[258, 261]),
            Mood::Grow => random.pick(&[258, 258, 260]),
            Mood::Empty if self.held.is_empty() => random.pick(&[258, 260]),
            Mood::Empty => 260,
            Mood::Mixed => random.pick(&[258, 258, 259, 260, 260, 261, 263]),
            Mood::Shrink if self.may_shrink() => random.pick(&[260, 263]),
            Mood::Shrink => random.pick(&[258, 260, 261]),
            Mood::UpAndDown => random.pick(&[258, 260, 261, 263]),
        }
    }

    fn next_key(&mut self, random: &mut Random, kind: u16) -> u64 {
        let fresh = if kind == 258 { 10 } else { 1 };
        if ![258, 259, 260].contains(&kind) {
            0
        } else if !self.held.is_empty() && random.index(11) >= fresh {
            random.pick(&self.held)
        } else if random.one_in(8) {
            let home = random.within(0, u64::from(self.state.pages) - 1);
            key_with_home(random, self.state, home)
        } else {
            self.keys.draw(random, self.state)
        }
    }
}

#[cfg(test)]
mod tests {
    use super::*;
    use crate::sink::Asked;
    use second::bytes::two;
    use second::raw::RUN_KIND;
    use std::collections::BTreeSet;

    fn case_of(asked: &Asked) -> Case {
        Case::parse(&asked.record).expect("a record")
    }

    /// The kind and the refusal of a call that comes right behind a run and
    /// asks for a key that the run itself brought in.
    fn after_a_run(pair: &[Asked]) -> Option<(u16, u16)> {
        let (run, next) = (case_of(&pair[0]), case_of(&pair[1]));
        let standing_with = |area: &[u8]| {
            let mut records = standing(area).into_iter();
            records.any(|(_, record)| record.key == next.a)
        };
        let brought_in = !standing_with(&run.area) && standing_with(&next.area);
        (run.kind == RUN_KIND && brought_in).then(|| (next.kind, two(&pair[1].reply, 6)))
    }

    /// What a run brought in is found, put again with its value and another,
    /// and removed.
    #[test]
    fn calls_meet_what_a_run_left() {
        let mut sink = Sink::new(6, 20_000);
        for piece in 0..200 {
            let made = chain(&mut Random::new(6, piece), &mut sink);
            assert_eq!(made, Ok(()));
        }
        let met: BTreeSet<(u16, u16)> = sink.asked.windows(2).filter_map(after_a_run).collect();
        for pair in [(258, 6), (258, 13), (259, 0), (260, 0)] {
            assert!(met.contains(&pair), "{pair:?} in {met:?}");
        }
    }
}
