//! Shrinks in histories and on files of their own: up and down over several
//! expansions, full, overflowing or damaged, and at the first size.

use crate::breaks::break_page;
use crate::cases::call_of;
use crate::files::{filled, image, parameters, parameters_for, File};
use crate::keys::key_with_home;
use crate::loose::{loosen, scatter, wrong_count};
use crate::random::Random;
use crate::sink::Sink;
use crate::wrong::{wrong_edition, wrong_length};
use second::state::State;

/// Each scene asks for more than one shrink.
pub fn shrinks(random: &mut Random, sink: &mut Sink) -> Result<(), String> {
    match random.index(8) {
        0 | 1 => up_and_down(random, sink),
        2 => full(random, sink),
        3 => overflowing(random, sink),
        4 | 5 => damaged(random, sink),
        _ => at_the_first_size(random, sink),
    }
}

/// The numbers of a file that starts with at most so many pages and is lent
/// more of them, and how many it starts with.
fn lent_more(random: &mut Random, most: u64, more: u64) -> (State, u16) {
    let mut state = parameters_for(random, most as u16);
    state.cap += more as u16;
    (state, state.n0 * state.groups)
}

/// From the first size to the last one, back, and at times elsewhere, with a
/// put or a removal now and then. At either end a step more may be asked for
/// than there is. Most files start so small that they go through several
/// expansions.
fn up_and_down(random: &mut Random, sink: &mut Sink) -> Result<(), String> {
    let (most, more) = match random.index(12) {
        0 => (random.within(1, 12), random.within(1, 24)),
        _ => (random.within(1, 4), random.within(2, 12)),
    };
    let (mut state, first) = lent_more(random, most, more);
    state.pages = first;
    let last = state.cap;
    let mut file = filled(random, state);
    let mut targets = vec![last + random.pick(&[0, 1]), first - random.pick(&[0, 1])];
    for _ in 0..random.index(3) {
        targets.push(random.within(first.into(), last.into()) as u16);
    }
    for target in targets {
        file.resize_to(random, target, sink)?;
    }
    file.call(262, 0, 0, sink)
}

impl File {
    /// Steps towards a size, refused ones too, at times with a key between or
    /// with a step back at once.
    fn resize_to(&mut self, random: &mut Random, to: u16, sink: &mut Sink) -> Result<(), String> {
        let up = self.state.pages < to;
        let (there, back) = if up { (261, 263) } else { (263, 261) };
        for _ in 0..self.state.pages.abs_diff(to) {
            if sink.full() {
                return Ok(());
            }
            if random.one_in(6) {
                let (kind, key) = (random.pick(&[258, 260]), self.some_key(random));
                self.call(kind, key, random.value(), sink)?;
            }
            self.call(there, 0, 0, sink)?;
            if random.one_in(6) {
                self.call(back, 0, 0, sink)?;
                self.call(there, 0, 0, sink)?;
            }
        }
        Ok(())
    }
}

/// No slot is free, or hardly one.
fn full(random: &mut Random, sink: &mut Sink) -> Result<(), String> {
    let mut file = image(random);
    file.fill_up(random);
    for _ in 0..random.within(2, 6) {
        let kind = random.pick(&[261, 263, 263, 263]);
        file.call(kind, 0, 0, sink)?;
    }
    Ok(())
}

/// Keys of the last home fill its page and go on above it, so that a shrink
/// has to bring them down from there; then down to the first size.
fn overflowing(random: &mut Random, sink: &mut Sink) -> Result<(), String> {
    let most = random.within(1, 6);
    let (mut state, first) = lent_more(random, most, 4);
    state.pages = random.within(u64::from(first) + 1, u64::from(state.cap) - 2) as u16;
    let mut file = filled(random, state);
    let last = u64::from(state.pages) - 1;
    for _ in 0..random.within(12, 40) {
        let key = key_with_home(random, state, last);
        file.add(random, key);
    }
    file.resize_to(random, first - 1, sink)
}

/// Whatever the file is like once it was damaged, a check has to say of it what
/// a shrink does, but where that finds nothing to give back.
fn damaged(random: &mut Random, sink: &mut Sink) -> Result<(), String> {
    let mut file = image(random);
    match random.index(5) {
        0 => wrong_count(random, &mut file.state),
        1 => loosen(random, &mut file),
        2 => scatter(random, &mut file),
        3 => break_any(random, &mut file),
        _ => {
            break_any(random, &mut file);
            break_any(random, &mut file);
        }
    }
    for kind in [263, 262, 263] {
        let case = call_of(random, &mut file, kind);
        sink.ask(case)?;
    }
    Ok(())
}

fn break_any(random: &mut Random, file: &mut File) {
    let address = random.index(usize::from(file.state.cap));
    break_page(random, file.state, &mut file.area, address);
}

/// P = n0 x N, and nothing or something else is wrong as well. Each scene goes
/// through all of it, so that none has to be waited for.
fn at_the_first_size(random: &mut Random, sink: &mut Sink) -> Result<(), String> {
    let mut state = parameters(random);
    state.pages = state.n0 * state.groups;
    let mut file = filled(random, state);
    for way in 0..5 {
        let mut case = call_of(random, &mut file, 263);
        match way {
            0 => {}
            1 => case.state.records = 12 * u32::from(state.cap) + 1,
            2 => case.state.edition = wrong_edition(random),
            3 => wrong_length(random, &mut case.area),
            _ => wrong_count(random, &mut case.state),
        }
        sink.ask(case)?;
    }
    break_any(random, &mut file);
    let case = call_of(random, &mut file, 263);
    sink.ask(case).map(|_| ())
}

#[cfg(test)]
mod tests {
    use super::*;
    use crate::sink::Asked;
    use second::bytes::{four, two};
    use second::raw::{Case, REPLY_HEAD, STRING_HEAD};
    use std::collections::BTreeMap;

    /// State and area of a reply. Its state ends before due, the last two bytes
    /// of its head.
    fn left(reply: &[u8]) -> (&[u8], &[u8]) {
        let area = REPLY_HEAD + STRING_HEAD;
        let length = four(reply, REPLY_HEAD) as usize;
        (
            &reply[REPLY_HEAD - 18..REPLY_HEAD - 2],
            &reply[area..area + length],
        )
    }

    /// The kind of the second of two accepted calls that are each other's way
    /// back, made one right behind the other.
    fn way_back(pair: &[Asked]) -> Option<u16> {
        let [there, back] = pair else {
            return None;
        };
        let accepted = [there, back].map(|asked| two(&asked.reply, 6) == 0);
        let turned = [(261, 263), (263, 261)].contains(&(there.kind, back.kind));
        let next = Case::parse(&back.record).expect("a record");
        let follows = left(&there.reply).1 == next.area;
        (accepted == [true; 2] && turned && follows).then_some(back.kind)
    }

    /// Both ways are asked to lead back at once, on files of many records, and
    /// they do: the second call leaves what the first was given.
    #[test]
    fn every_way_is_followed_by_the_way_back() {
        let mut sink = Sink::new(9, 20_000);
        for piece in 0..300 {
            let made = shrinks(&mut Random::new(9, piece), &mut sink);
            assert_eq!(made, Ok(()));
        }
        let mut turns: BTreeMap<u16, u64> = BTreeMap::new();
        for pair in sink.asked.windows(2) {
            let Some(kind) = way_back(pair) else {
                continue;
            };
            let given = Case::parse(&pair[0].record).expect("a record");
            assert_eq!(
                left(&pair[1].reply),
                (&pair[0].record[6..22], &given.area[..])
            );
            *turns.entry(kind).or_default() += u64::from(given.state.records > 12);
        }
        for kind in [261, 263] {
            let times = turns.get(&kind).copied().unwrap_or(0);
            assert!(times >= 20, "{kind}: {times} times");
        }
    }
}
