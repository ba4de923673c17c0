//! The figures to try, worked out and printed one a line.

use crate::answer::Answer;
use crate::calls::Call;
use crate::home::{draw_before_steps, home, is_mover, new_address, next_draw, pages_per_group};
use crate::log::Failure;
use crate::state::{State, EDITIONS};
use crate::trial::Trial;
use std::io::Write;

/// Prints all the figures.
pub fn run(output: &mut impl Write) -> Result<(), Failure> {
    let mut lines = draws();
    lines.push(growth_order());
    lines.extend(homes());
    lines.extend(movers());
    lines.extend(movers_by_edition());
    lines.extend(due());
    lines.extend(small_files().map_err(Failure::Mismatch)?);
    for line in lines {
        writeln!(output, "{line}")?;
    }
    Ok(())
}

fn draws() -> Vec<String> {
    let seen: Vec<u64> = std::iter::successors(Some(1), |&last| Some(next_draw(last)))
        .skip(1)
        .take(10_000)
        .collect();
    let line = |x: usize| format!("seed 1, draw {x}: {}", seen[x - 1]);
    [1, 2, 3, 4, 10_000].map(line).to_vec()
}

/// The groups in the order in which the new pages 16 to 23 come.
fn growth_order() -> String {
    let group_of = |page| (0..8).find(|&group| new_address(group, 16, 8, 3) == page);
    let order: Vec<String> = (16..24)
        .filter_map(group_of)
        .map(|group: u64| group.to_string())
        .collect();
    format!(
        "n0 2, N 8, s 3, pages 16 to 23 come from groups: {}",
        order.join(", ")
    )
}

/// The file of the homes, the movers and due.
const FILE: State = State {
    n0: 2,
    groups: 2,
    sweeps: 1,
    pages: 4,
    cap: 8,
    edition: 1,
    records: 0,
};

fn homes() -> Vec<String> {
    let mut lines = Vec::new();
    for key in 0..2 {
        for pages in 4..9 {
            let at = home(State { pages, ..FILE }, key);
            lines.push(format!("n0 2, N 2, s 1, key {key}, P {pages}: home {at}"));
        }
    }
    lines
}

/// Of the keys from 0 up all move at x 1 in edition 1, up to this one.
const LAST_MOVER: u64 = 42590;

/// Whether a key moves at x 1 where n0 is 2.
fn moves_at_one(edition: u16, key: u64) -> bool {
    let draw = next_draw(draw_before_steps(edition, key));
    is_mover(draw, pages_per_group(2, 1))
}

fn movers() -> Vec<String> {
    let line = |key| {
        let moves = moves_at_one(FILE.edition, key);
        format!(
            "n0 2, N 2, s 1, key {key}, x 1: {}",
            if moves { "mover" } else { "no mover" }
        )
    };
    [LAST_MOVER, LAST_MOVER + 1].map(line).to_vec()
}

/// How many of the small keys move at once in each edition.
fn movers_by_edition() -> Vec<String> {
    let line = |edition| {
        let keys = 0..=LAST_MOVER;
        let count = keys.filter(|&key| moves_at_one(edition, key)).count();
        format!("n0 2, edition {edition}: of keys 0 to {LAST_MOVER}, {count} are movers at x 1")
    };
    EDITIONS.map(line).collect()
}

fn due() -> Vec<String> {
    let line = |records| {
        let due = State { records, ..FILE }.due();
        format!(
            "P 4, {records} records: {}",
            if due { "due" } else { "not due" }
        )
    };
    [38, 39].map(line).to_vec()
}

fn told(answer: Answer) -> String {
    let Answer {
        refusal,
        value,
        moved,
        ..
    } = answer;
    format!("refusal {refusal}, value {value}, moved {moved}")
}

fn small_files() -> Result<Vec<String>, String> {
    let mut lines = twelve_then_grow()?;
    lines.extend(thirteen_then_grow()?);
    lines.extend(one_page()?);
    Ok(lines)
}

/// The call that offers key 12.
const KEY_TWELVE: Call = Call::Put {
    key: 12,
    value: 120,
};

fn twelve_then_grow() -> Result<Vec<String>, String> {
    let mut file = Trial::of_ones(2)?;
    file.put_up_to(11)?;
    let grown = file.ask(Call::Grow)?;
    let mut lines = vec![format!("cap 2, keys 0 to 11, grow: {}", told(grown))];
    lines.extend(then_holds(&file));
    let refused = file.ask(KEY_TWELVE)?;
    lines.push(format!("  then put of key 12: {}", told(refused)));
    lines.push(then_shrink(&mut file)?);
    lines.extend(then_holds(&file));
    lines.push(then_shrink(&mut file)?);
    Ok(lines)
}

/// What the first two pages hold after a call.
fn then_holds(file: &Trial) -> [String; 2] {
    [0, 1].map(|page| format!("  page {page} then holds {:?}", file.keys_on(page)))
}

fn then_shrink(file: &mut Trial) -> Result<String, String> {
    let answer = file.ask(Call::Shrink)?;
    Ok(format!("  then shrink: {}", told(answer)))
}

fn thirteen_then_grow() -> Result<Vec<String>, String> {
    let mut file = Trial::of_ones(2)?;
    file.put_up_to(12)?;
    let mut lines = Vec::new();
    for page in 0..2 {
        let keys = file.keys_on(page);
        lines.push(format!("cap 2, keys 0 to 12, page {page} holds {keys:?}"));
    }
    lines.push(format!("  then grow: {}", told(file.ask(Call::Grow)?)));
    Ok(lines)
}

fn one_page() -> Result<Vec<String>, String> {
    let mut file = Trial::of_ones(1)?;
    file.put_up_to(11)?;
    let thirteenth = told(file.ask(KEY_TWELVE)?);
    let held = told(file.ask(Call::Put { key: 5, value: 50 })?);
    let clash = told(file.ask(Call::Put { key: 5, value: 1 })?);
    Ok(vec![
        format!("cap 1, thirteenth key: {thirteenth}"),
        format!("cap 1, held key 5 (value 50) put again: {held}"),
        format!("cap 1, held key 5 (value 50) put with value 1: {clash}"),
    ])
}

#[cfg(test)]
mod tests {
    use super::*;
    use crate::answer::{CLASH, NOT_GROWN, NO_ROOM, REPEAT};

    #[test]
    fn twelve_keys_then_grow() {
        let mut file = Trial::of_ones(2).expect("agrees");
        assert_eq!(file.put_up_to(11), Ok(0));
        assert_eq!(
            file.ask(Call::Grow).map(|a| (a.refusal, a.moved)),
            Ok((0, 12))
        );
        assert_eq!(file.keys_on(0), []);
        assert_eq!(file.keys_on(1), (0..12).collect::<Vec<u64>>());
        let refused = file.ask(Call::Put { key: 12, value: 0 });
        assert_eq!(refused.map(|answer| answer.refusal), Ok(NO_ROOM));
        let mut shrink = || file.ask(Call::Shrink).map(|a| (a.refusal, a.moved));
        assert_eq!([shrink(), shrink()], [Ok((0, 12)), Ok((NOT_GROWN, 0))]);
        assert_eq!(file.keys_on(0), (0..12).collect::<Vec<u64>>());
        assert_eq!(file.keys_on(1), []);
    }

    /// In edition 2 draw 11 moves six of the twelve, so key 12 finds room
    /// where it found none before.
    #[test]
    fn twelve_keys_then_grow_in_the_second_edition() {
        let mut file = Trial::of_edition(2, 2).expect("agrees");
        assert_eq!(file.put_up_to(11), Ok(0));
        let grown = file.ask(Call::Grow);
        assert_eq!(grown.map(|a| (a.refusal, a.moved)), Ok((0, 6)));
        let refusal = file.ask(KEY_TWELVE).map(|answer| answer.refusal);
        assert_eq!(refusal, Ok(0));
        assert_eq!(file.keys_on(0), [1, 3, 4, 6, 9, 11, 12]);
        assert_eq!(file.keys_on(1), [0, 2, 5, 7, 8, 10]);
        assert_eq!(file.state.edition, 2);
        // Six come back to page 0, so that key 12 has to leave it.
        let shrunk = file.ask(Call::Shrink);
        assert_eq!(shrunk.map(|a| (a.refusal, a.moved)), Ok((0, 7)));
        assert_eq!(file.keys_on(0), (0..12).collect::<Vec<u64>>());
        assert_eq!(file.keys_on(1), [12]);
    }

    #[test]
    fn thirteen_keys_then_grow() {
        let mut file = Trial::of_ones(2).expect("agrees");
        assert_eq!(file.put_up_to(12), Ok(0));
        assert_eq!(file.keys_on(0), (0..12).collect::<Vec<u64>>());
        assert_eq!(file.keys_on(1), [12]);
        assert_eq!(
            file.ask(Call::Grow).map(|answer| answer.refusal),
            Ok(NO_ROOM)
        );
    }

    #[test]
    fn one_page_alone() {
        let mut file = Trial::of_ones(1).expect("agrees");
        assert_eq!(file.put_up_to(12), Ok(NO_ROOM));
        for (value, refusal) in [(50, REPEAT), (1, CLASH)] {
            let held = file.ask(Call::Put { key: 5, value });
            assert_eq!(
                held.map(|a| (a.refusal, a.value, a.read)),
                Ok((refusal, 50, 1))
            );
        }
    }

    #[test]
    fn the_printed_figures() {
        let mut output = Vec::new();
        run(&mut output).expect("agrees");
        let text = String::from_utf8_lossy(&output).into_owned();
        for line in [
            "seed 1, draw 10000: 1043618065",
            "n0 2, N 8, s 3, pages 16 to 23 come from groups: 7, 4, 1, 6, 3, 0, 5, 2",
            "n0 2, N 2, s 1, key 0, P 7: home 6",
            "n0 2, N 2, s 1, key 42590, x 1: mover",
            "P 4, 39 records: due",
            "  then grow: refusal 7, value 0, moved 0",
        ] {
            assert!(text.lines().any(|printed| printed == line), "{line}");
        }
        let together = "n0 2, N 2, s 1, key 42591, x 1: no mover
n0 2, edition 1: of keys 0 to 42590, 42591 are movers at x 1
n0 2, edition 2: of keys 0 to 42590, 14192 are movers at x 1
P 4, 38 records: not due
";
        assert!(text.contains(together), "{text}");
        let up_and_down = "cap 2, keys 0 to 11, grow: refusal 0, value 0, moved 12
  page 0 then holds []
  page 1 then holds [0, 1, 2, 3, 4, 5, 6, 7, 8, 9, 10, 11]
  then put of key 12: refusal 7, value 0, moved 0
  then shrink: refusal 0, value 0, moved 12
  page 0 then holds [0, 1, 2, 3, 4, 5, 6, 7, 8, 9, 10, 11]
  page 1 then holds []
  then shrink: refusal 14, value 0, moved 0
cap 2, keys 0 to 12, page 0 holds [0, 1, 2, 3, 4, 5, 6, 7, 8, 9, 10, 11]
";
        assert!(text.contains(up_and_down), "{text}");
    }
}
