//! Puts of keys that are held, where another refusal might be thought to come
//! first: on full files, at the end of a long run of full pages, and on bytes
//! that are no image though the walk meets nothing wrong.

use crate::breaks::break_page;
use crate::files::{image, long_run, File};
use crate::loose::{loosen, scatter, wrong_count};
use crate::random::Random;
use crate::sink::Sink;
use crate::values::other;
use second::home::home;
use second::image::standing;
use second::raw::Case;
use second::walk::{walk, End};

pub fn held_again(random: &mut Random, sink: &mut Sink) -> Result<(), String> {
    match random.index(4) {
        0 => full_file(random, sink),
        1 => end_of_a_run(random, sink),
        _ => no_image(random, sink),
    }
}

/// Where r is 12 x cap, neither 7 nor 9 may come instead.
fn full_file(random: &mut Random, sink: &mut Sink) -> Result<(), String> {
    let mut file = image(random);
    file.fill_up(random);
    for _ in 0..2 {
        let key = random.pick(&file.held);
        both(random, &file, key, sink)?;
    }
    Ok(())
}

/// The key stands pages above its home, on the last page of its run.
fn end_of_a_run(random: &mut Random, sink: &mut Sink) -> Result<(), String> {
    let (file, last) = long_run(random);
    let keys: Vec<u64> = standing(&file.area)
        .into_iter()
        .filter(|&(address, record)| {
            address == last && home(file.state, record.key) + 2 <= last as u64
        })
        .map(|(_, record)| record.key)
        .collect();
    if let Some(&highest) = keys.last() {
        both(random, &file, highest, sink)?;
        let any = random.pick(&keys);
        both(random, &file, any, sink)?;
    }
    Ok(())
}

/// The count is wrong, pages don't follow one another as they should, or a
/// page is broken that the walk doesn't come to.
fn no_image(random: &mut Random, sink: &mut Sink) -> Result<(), String> {
    let mut file = image(random);
    let way = random.index(4);
    match way {
        0 => wrong_count(random, &mut file.state),
        1 => loosen(random, &mut file),
        2 => scatter(random, &mut file),
        _ => {}
    }
    for _ in 0..2 {
        let Some(key) = findable(random, &file) else {
            continue;
        };
        if way == 3 {
            break_elsewhere(random, &mut file, key);
        }
        both(random, &file, key, sink)?;
    }
    Ok(())
}

/// A key that a walk finds, if one of a few tries does.
fn findable(random: &mut Random, file: &File) -> Option<u64> {
    let tries = if file.held.is_empty() { 0 } else { 12 };
    (0..tries)
        .map(|_| random.pick(&file.held))
        .find(|&key| matches!(walk(file.state, &file.area, key).end, End::Held { .. }))
}

/// Breaks a page that the walk for a key doesn't come to, if there is one.
fn break_elsewhere(random: &mut Random, file: &mut File, key: u64) {
    let walked = walk(file.state, &file.area, key);
    let first = walked.home as usize;
    let met = first..first + walked.read;
    let others: Vec<usize> = (0..usize::from(file.state.cap))
        .filter(|address| !met.contains(address))
        .collect();
    if !others.is_empty() {
        let address = random.pick(&others);
        break_page(random, file.state, &mut file.area, address);
    }
}

/// Offers a key with the value that the walk finds and with another one.
fn both(random: &mut Random, file: &File, key: u64, sink: &mut Sink) -> Result<(), String> {
    let End::Held { slot, page, .. } = walk(file.state, &file.area, key).end else {
        return Ok(());
    };
    let held = page.values[slot];
    for value in [held, other(random, held)] {
        sink.ask(Case {
            kind: 258,
            state: file.state,
            a: key,
            b: value,
            area: file.area.clone(),
            ..Case::default()
        })?;
    }
    Ok(())
}

#[cfg(test)]
mod tests {
    use super::*;
    use second::answer::{CLASH, REPEAT};
    use second::bytes::two;
    use second::image::records_of;
    use second::page::judge;
    use second::state::State;
    use std::collections::BTreeMap;

    /// What a put of a held key may meet.
    #[derive(Clone, Copy, Debug, PartialEq, Eq, PartialOrd, Ord)]
    enum Place {
        FullFile,
        EndOfARun,
        WrongCount,
        BrokenBelow,
        BrokenAbove,
        Loose,
    }

    const PLACES: [Place; 6] = [
        Place::FullFile,
        Place::EndOfARun,
        Place::WrongCount,
        Place::BrokenBelow,
        Place::BrokenAbove,
        Place::Loose,
    ];

    fn is_at(case: &Case, place: Place) -> bool {
        let Case {
            state, ref area, ..
        } = *case;
        let walked = walk(state, area, case.a);
        let End::Held { address, page, .. } = walked.end else {
            return false;
        };
        let broken = |pages: std::ops::Range<usize>| {
            pages
                .into_iter()
                .any(|address| judge(state, area, address).is_none())
        };
        let cap = usize::from(state.cap);
        let full = |address| judge(state, area, address).is_some_and(|page| page.full());
        let ends = page.full() && (address + 1 == cap || !full(address + 1));
        let standing = standing(area).len() as u32;
        let counted = State {
            records: standing,
            ..state
        };
        let images = [state, counted].map(|state| records_of(state, area).is_some());
        match place {
            Place::FullFile => images[0] && state.at_most_records(),
            Place::EndOfARun => images[0] && walked.read > 2 && ends,
            Place::WrongCount => images == [false, true],
            Place::BrokenBelow => broken(0..walked.home as usize),
            Place::BrokenAbove => broken(address + 1..cap),
            Place::Loose => !images[1] && !broken(0..cap),
        }
    }

    /// Every put is a repeat or a clash, and both come at every place.
    #[test]
    fn both_come_everywhere() {
        let mut sink = Sink::new(4, 10_000);
        for piece in 0..600 {
            let made = held_again(&mut Random::new(4, piece), &mut sink);
            assert_eq!(made, Ok(()));
        }
        let mut reached: BTreeMap<(Place, u16), u64> = BTreeMap::new();
        for asked in &sink.asked {
            let case = Case::parse(&asked.record).expect("a record");
            let refusal = two(&asked.reply, 6);
            assert!([REPEAT, CLASH].contains(&refusal));
            for place in PLACES.into_iter().filter(|&place| is_at(&case, place)) {
                *reached.entry((place, refusal)).or_default() += 1;
            }
        }
        for place in PLACES {
            for refusal in [REPEAT, CLASH] {
                let times = reached.get(&(place, refusal)).copied().unwrap_or(0);
                assert!(times >= 20, "{place:?} with {refusal}: {times} times");
            }
        }
    }
}
