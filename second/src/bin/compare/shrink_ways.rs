//! What a shrink was like: rows of the table beside those of the calls.

use crate::ways::Pair;
use second::answer::{NOT_GROWN, OUT_OF_RANGE, WRONG_AREA};
use second::check::check;
use second::image::{lay_out, standing};
use second::page::Record;
use second::raw::Case;
use second::state::State;
use std::collections::BTreeMap;

/// How many pages above the one given back the highest record lay that came
/// down.
pub const CAME_DOWN: u16 = 1030;
/// By how many pages a record went up at most, to make way for others.
pub const WENT_UP: u16 = 1031;
/// The step, x of the rules, that had brought the page given back.
pub const STEP: u16 = 1032;
/// Whether the file held no record (0), some (1) or as many as there may be
/// (2).
pub const FILLED: u16 = 1033;
/// Where P = n0 x N: the refusal that comes before 14, or what a check says,
/// which comes behind it.
pub const FIRST_SIZE: u16 = 1034;
/// Whether there was no row (0), any (1) or one as long as grow's (2).
pub const ROW: u16 = 1035;

/// From these on, pages and steps are counted together.
const MANY_PAGES: usize = 2;
const LATE_STEP: u16 = 5;

/// All that has to come of the rows above. All but one are of accepted shrinks.
pub const SHRINK_PAIRS: [(u16, &[u16]); 6] = [
    (CAME_DOWN, &[0, 1, 2]),
    (WENT_UP, &[0, 1, 2]),
    (STEP, &[1, 2, 3, 4, LATE_STEP]),
    (FILLED, &[0, 1, 2]),
    (FIRST_SIZE, &[0, OUT_OF_RANGE, WRONG_AREA, 4, 9]),
    (ROW, &[0, 1, 2]),
];

/// The pairs that an answered case counts for, as the call left it.
pub fn pairs(case: &Case, refusal: u16) -> Vec<Pair> {
    match (case.kind, refusal) {
        (263, 0) => accepted(case),
        (263, _) if case.state.at_start_pages() => first_size(case, refusal),
        _ => Vec::new(),
    }
}

fn first_size(case: &Case, refusal: u16) -> Vec<Pair> {
    let told = match refusal {
        NOT_GROWN => check(case.state, &case.area).refusal,
        earlier => earlier,
    };
    vec![(FIRST_SIZE, told)]
}

fn accepted(case: &Case) -> Vec<Pair> {
    let state = case.state;
    let filled = match state.records {
        0 => 0,
        _ if state.at_most_records() => 2,
        _ => 1,
    };
    let row = match case.row.len() {
        0 => 0,
        cap if cap == usize::from(state.cap) => 2,
        _ => 1,
    };
    let mut pairs = moves(case);
    let step = step_of(state).min(LATE_STEP);
    pairs.extend([(STEP, step), (FILLED, filled), (ROW, row)]);
    pairs
}

/// How far records went. "At most one image exists", so where they lay before
/// is found by laying them out anew.
fn moves(case: &Case) -> Vec<Pair> {
    let after = standing(&case.area);
    let records: Vec<Record> = after.iter().map(|(_, record)| *record).collect();
    let area = lay_out(case.state.one_page_grown(), &records).unwrap_or_default();
    let before: BTreeMap<u64, usize> = standing(&area)
        .into_iter()
        .map(|(page, record)| (record.key, page))
        .collect();
    let ways = after
        .iter()
        .filter_map(|(page, record)| before.get(&record.key).map(|&from| (from, *page)));
    let down = ways.clone().filter(|(from, to)| to < from);
    let from = down.map(|(from, _)| from).max();
    let up = ways.map(|(from, to)| to.saturating_sub(from)).max();
    let together = |pages: usize| pages.min(MANY_PAGES) as u16;
    // The page given back has the number of those that are left.
    let above = |from: usize| (CAME_DOWN, together(from - usize::from(case.state.pages)));
    let mut pairs = vec![(WENT_UP, together(up.unwrap_or(0)))];
    pairs.extend(from.map(above));
    pairs
}

/// x of the step that brought the page behind the last one.
fn step_of(state: State) -> u16 {
    let mut groups = u64::from(state.groups);
    let mut size = state.start_pages() + groups;
    let mut x = 1;
    while size <= u64::from(state.pages) {
        if x % state.n0 == 0 {
            groups *= 2;
        }
        size += groups;
        x += 1;
    }
    x
}

#[cfg(test)]
mod tests {
    use super::*;
    use second::trial::Trial;

    /// The pairs of a shrink from three pages to two with n0 2, N and s 1 and
    /// four lent pages, of a file that holds these keys. Those up to 42590 live
    /// on the third page, and those behind them don't.
    fn of(keys: impl IntoIterator<Item = u64>, row: usize) -> Vec<Pair> {
        let mut file = Trial::fresh([2, 1, 1], 4, 1).expect("agrees");
        file.ask(second::calls::Call::Grow).expect("agrees");
        assert_eq!(file.put_all(keys), Ok(0));
        let mut case = Case {
            kind: 263,
            state: file.state,
            area: file.area,
            row: vec![3; row],
            ..Case::default()
        };
        let answered = case.answer().expect("agrees").map(|(answer, _)| answer);
        pairs(&case, answered.map_or(1, |answer| answer.refusal))
    }

    #[test]
    fn accepted_shrinks_are_told_apart() {
        let told = |up, filled, row| vec![(WENT_UP, up), (STEP, 1), (FILLED, filled), (ROW, row)];
        assert_eq!(of([], 0), told(0, 0, 0));
        assert_eq!(of([42591], 3), told(0, 1, 1));
        let with = |from: u16, mut told: Vec<Pair>| {
            told.insert(1, (CAME_DOWN, from));
            told
        };
        assert_eq!(of([5], 4), with(0, told(0, 1, 2)));
        assert_eq!(of(0..14, 5), with(1, told(0, 1, 1)));
        // Seven come before twelve that stay, so that seven of these go up.
        let odd = || (42591..=42613).step_by(2);
        assert_eq!(of((0..14).chain(odd()), 4), with(1, told(1, 1, 2)));
        // All 48 slots are used, and the odd ones end up on the last page.
        let even = (42592..=42614).step_by(2);
        let all = (0..24).chain(even).chain(odd());
        assert_eq!(of(all, 0), with(1, told(2, 2, 0)));
    }

    #[test]
    fn first_sizes_tell_what_else_is_wrong() {
        let file = Trial::of_ones(2).expect("agrees");
        let case = Case {
            kind: 263,
            state: file.state,
            area: file.area,
            ..Case::default()
        };
        assert_eq!(pairs(&case, 14), [(FIRST_SIZE, 0)]);
        assert_eq!(pairs(&case, 2), [(FIRST_SIZE, 2)]);
        let mut counted = case.clone();
        counted.state.records = 1;
        assert_eq!(pairs(&counted, 14), [(FIRST_SIZE, 9)]);
        counted.area[256] ^= 1;
        assert_eq!(pairs(&counted, 14), [(FIRST_SIZE, 4)]);
        counted.state.pages = 2;
        assert_eq!(pairs(&counted, 4), []);
        assert_eq!(pairs(&Case { kind: 262, ..case }, 0), []);
    }

    /// Pages 16 to 23 come with the first step, 24 to 31 with the second; then
    /// there are twice the groups, and 32 to 47 come with the third.
    #[test]
    fn steps_are_those_of_the_rules() {
        let step = |n0, groups, pages| {
            step_of(State {
                n0,
                groups,
                pages,
                ..State::default()
            })
        };
        let at = [16, 23, 24, 31, 32, 47, 48].map(|page| step(2, 8, page));
        assert_eq!(at, [1, 1, 2, 2, 3, 3, 4]);
        let at = [1, 2, 3, 4, 7, 8, 16, 32].map(|page| step(1, 1, page));
        assert_eq!(at, [1, 2, 2, 3, 3, 4, 5, 6]);
    }
}
