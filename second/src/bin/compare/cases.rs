//! Single raw calls on files of all kinds, right and wrong.

use crate::breaks::break_page;
use crate::chains::chain;
use crate::comparisons::comparisons;
use crate::edition_scenes::{misread, wrong_editions};
use crate::files::{image, of_other_edition, parameters, File};
use crate::held::held_again;
use crate::loose::{loosen, scatter, wrong_count};
use crate::merges::merges;
use crate::merging::some_merge;
use crate::random::Random;
use crate::runs::{pay_runs, some_run};
use crate::shrinks::shrinks;
use crate::sink::Sink;
use crate::sites::some_comparison;
use crate::values::offered;
use crate::wrong::{wrong_asked, wrong_format, wrong_length, wrong_row, wrong_state};
use second::commands::FORMAT_KIND;
use second::page::PAGE_BYTES;
use second::raw::{Case, COMPARE_KIND, MERGE_KIND, RUN_KIND};
use second::state::State;

/// Generates one scene: a file and some calls on it.
pub fn scene(random: &mut Random, sink: &mut Sink) -> Result<(), String> {
    match random.index(76) {
        0..=2 => chain(random, sink),
        3..=8 => {
            let mut file = image(random);
            several(random, &mut file, sink)
        }
        9..=11 => out_of_range(random, sink),
        12..=14 => lengths(random, sink),
        15..=21 => broken(random, sink),
        22..=27 => loosened(random, sink),
        28..=33 => scattered(random, sink),
        34..=35 => mismatched(random, sink),
        36 => noise(random, sink),
        37..=39 => formats(random, sink),
        40..=42 => held_again(random, sink),
        43..=44 => misread(random, sink),
        45 => wrong_editions(random, sink),
        46..=48 => shrinks(random, sink),
        49..=58 => comparisons(random, sink),
        59..=69 => merges(random, sink),
        _ => pay_runs(random, sink),
    }
}

/// A call on a file, with a row of the right length for grow; a shrink may have
/// one like it, though it needs none.
pub fn some_call(random: &mut Random, file: &mut File) -> Case {
    match random.index(16) {
        0 => return some_comparison(random, file),
        1 => return some_merge(random, file),
        _ => {}
    }
    let kind = random.pick(&[
        256, 258, 258, 258, 259, 259, 260, 260, 260, 261, 261, 262, 263, 263, RUN_KIND,
    ]);
    call_of(random, file, kind)
}

pub fn call_of(random: &mut Random, file: &mut File, kind: u16) -> Case {
    match kind {
        RUN_KIND => return some_run(random, file),
        COMPARE_KIND => return some_comparison(random, file),
        MERGE_KIND => return some_merge(random, file),
        _ => {}
    }
    let entries = if kind == 261 || (kind == 263 && random.one_in(3)) {
        usize::from(file.state.cap)
    } else {
        random.index(3)
    };
    let row = (0..entries).map(|_| random.next() as u32).collect();
    let a = match kind {
        258..=260 => file.some_key(random),
        _ => 0,
    };
    let b = match kind {
        258 => offered(random, &file.area, a),
        _ => 0,
    };
    Case {
        kind,
        state: file.state,
        a,
        b,
        area: file.area.clone(),
        row,
        ..Case::default()
    }
}

pub fn several(random: &mut Random, file: &mut File, sink: &mut Sink) -> Result<(), String> {
    for _ in 0..random.within(2, 8) {
        let case = some_call(random, file);
        sink.ask(case)?;
    }
    Ok(())
}

/// Calls with a state number out of range, low or high.
fn out_of_range(random: &mut Random, sink: &mut Sink) -> Result<(), String> {
    let mut file = image(random);
    for _ in 0..6 {
        let mut case = some_call(random, &mut file);
        case.state = wrong_state(random, file.state);
        sink.ask(case)?;
    }
    Ok(())
}

/// Areas and rows of wrong lengths.
fn lengths(random: &mut Random, sink: &mut Sink) -> Result<(), String> {
    let mut file = image(random);
    for _ in 0..4 {
        let mut case = some_call(random, &mut file);
        wrong_length(random, &mut case.area);
        sink.ask(case)?;
        let mut case = call_of(random, &mut file, 261);
        wrong_row(random, &mut case.row);
        sink.ask(case)?;
    }
    Ok(())
}

/// An image with one broken page or two, asked for keys that meet it or not.
fn broken(random: &mut Random, sink: &mut Sink) -> Result<(), String> {
    let mut file = image(random);
    if random.one_in(4) {
        scatter(random, &mut file);
    }
    for _ in 0..if random.one_in(3) { 2 } else { 1 } {
        let address = random.index(usize::from(file.state.cap));
        break_page(random, file.state, &mut file.area, address);
    }
    several(random, &mut file, sink)
}

fn loosened(random: &mut Random, sink: &mut Sink) -> Result<(), String> {
    let mut file = image(random);
    loosen(random, &mut file);
    several(random, &mut file, sink)
}

fn scattered(random: &mut Random, sink: &mut Sink) -> Result<(), String> {
    let mut file = image(random);
    scatter(random, &mut file);
    several(random, &mut file, sink)?;
    // A broken page among scattered ones meets shifts that images never ask.
    let address = random.index(usize::from(file.state.cap));
    break_page(random, file.state, &mut file.area, address);
    several(random, &mut file, sink)
}

/// r at 0 or at 12 x cap, or elsewhere, with pages that hold another number.
fn mismatched(random: &mut Random, sink: &mut Sink) -> Result<(), String> {
    let mut file = image(random);
    for _ in 0..3 {
        wrong_count(random, &mut file.state);
        let kind = random.pick(&[258, 260, 261, 262, 263]);
        let case = call_of(random, &mut file, kind);
        sink.ask(case)?;
        file.state.records = 0;
        let case = call_of(random, &mut file, 260);
        sink.ask(case)?;
        file.state.records = file.state.most_records() as u32;
        let case = call_of(random, &mut file, 258);
        sink.ask(case)?;
        // A run may come to the last record that r allows and go on.
        file.state.records -= random.index(4) as u32;
        let case = call_of(random, &mut file, RUN_KIND);
        sink.ask(case)?;
    }
    Ok(())
}

/// Random bytes, whole areas or single stretches of them.
fn noise(random: &mut Random, sink: &mut Sink) -> Result<(), String> {
    let mut file = image(random);
    if random.one_in(2) {
        file.area = random.bytes(PAGE_BYTES * usize::from(file.state.cap));
    } else {
        let start = random.index(file.area.len());
        let end = (start + random.index(40)).min(file.area.len());
        let stretch = random.bytes(end - start);
        file.area[start..end].copy_from_slice(&stretch);
    }
    several(random, &mut file, sink)
}

/// Formats over any state and any bytes, with numbers right and wrong.
fn formats(random: &mut Random, sink: &mut Sink) -> Result<(), String> {
    for _ in 0..4 {
        let asked = parameters(random);
        let (mut a, mut b) = asking_for(asked);
        if !random.one_in(3) {
            a = four_numbers(wrong_format(random, asked));
        }
        if random.one_in(4) {
            let bytes = random.within(0, 8);
            b = wrong_asked(random, bytes);
        }
        let mut area = random.bytes(asked.area_bytes());
        if random.one_in(4) {
            wrong_length(random, &mut area);
        }
        let row = vec![random.next() as u32; random.index(3)];
        // The edition before may be the asked one, the other one or none.
        let state = match random.index(4) {
            0 => asked,
            1 => of_other_edition(asked),
            _ => wrong_state(random, asked),
        };
        sink.ask(Case {
            kind: FORMAT_KIND,
            state,
            a,
            b,
            area,
            row,
            ..Case::default()
        })?;
    }
    Ok(())
}

/// The a and the b of a format that asks for these numbers.
pub fn asking_for(state: State) -> (u64, u64) {
    let numbers = [state.n0, state.groups, state.sweeps, state.cap];
    (four_numbers(numbers), u64::from(state.edition))
}

/// The four numbers of a format as one, two bytes each, lowest first.
fn four_numbers(numbers: [u16; 4]) -> u64 {
    numbers
        .iter()
        .rev()
        .fold(0, |all, &number| all << 16 | u64::from(number))
}
