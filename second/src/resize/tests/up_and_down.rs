//! Growing and shrinking up and down over several expansions.

use super::*;
use crate::image::standing;
use std::collections::BTreeMap;

/// n0, N and s of a file, and its edition: every n0, fewer sweeps than groups
/// and more, both editions.
fn starts() -> Vec<([u16; 3], u64)> {
    let mut starts = Vec::new();
    for n0 in 1..=4 {
        for groups in [1, 3] {
            for sweeps in [1, 2, 8] {
                starts.extend([1, 2].map(|edition| ([n0, groups, sweeps], edition)));
            }
        }
    }
    starts
}

/// Ten keys a page of the start: small ones, many of which move at once, and
/// ones all over the 64 bits.
fn keys(start_pages: u64) -> Vec<u64> {
    let spread = |at: u64| at.wrapping_mul(0x9e37_79b9_7f4a_7c15);
    let many = 5 * start_pages;
    (0..many).chain((1..=many).map(spread)).collect()
}

/// A file that has room to double twice, filled at its first size.
fn filled((start, edition): ([u16; 3], u64)) -> Trial {
    let pages = start[0] * start[1];
    let mut file = Trial::fresh(start, 4 * pages + 3, edition).expect("agrees");
    assert_eq!(file.put_all(keys(u64::from(pages))), Ok(0));
    file
}

/// Goes to a size step by step, each of them accepted and reading every page.
fn go(file: &mut Trial, pages: u16, mut seen: impl FnMut(&Trial, u32)) {
    while file.state.pages != pages {
        let up = file.state.pages < pages;
        let before = file.state;
        let answer = asked(file, if up { Call::Grow } else { Call::Shrink });
        let state = if up {
            before.one_page_grown()
        } else {
            before.one_page_shrunk()
        };
        let moved = answer.moved;
        let accepted = Answer::accepted(state, usize::from(state.cap));
        assert_eq!(answer, Answer { moved, ..accepted });
        seen(file, moved);
    }
}

/// How many records lie above their homes.
fn overflow(file: &Trial) -> usize {
    let above = |&(page, record): &(usize, Record)| home(file.state, record.key) < page as u64;
    let records = standing(&file.area);
    records.iter().filter(|one| above(one)).count()
}

/// The records stay the same, so each size has one area, whichever way it is
/// come to. The first way leads up through all of them.
#[test]
fn every_size_has_its_bytes_on_every_way() {
    let mut lay_above = 0;
    for start in starts() {
        let mut file = filled(start);
        let (first, top) = (file.state.pages, file.state.cap - 2);
        let mut areas = BTreeMap::from([(first, file.area.clone())]);
        go(&mut file, top, |file, _| {
            areas.insert(file.state.pages, file.area.clone());
            lay_above += overflow(file);
        });
        let half = first + (top - first) / 2;
        for pages in [first, half, first + 1, top, half, top - 1, top, first] {
            go(&mut file, pages, |file, _| {
                assert!(areas[&file.state.pages] == file.area, "{:?}", file.state);
            });
        }
        is_refused_with_fourteen(&file);
    }
    assert!(lay_above > 1000, "{lay_above}");
}

/// As many records move on the way down as moved on the way up, step by step.
#[test]
fn as_many_move_down_as_up() {
    for start in starts() {
        let mut file = filled(start);
        let (first, top) = (file.state.pages, file.state.cap - 2);
        let (mut up, mut down) = (Vec::new(), Vec::new());
        go(&mut file, top, |_, moved| up.push(moved));
        go(&mut file, first, |_, moved| down.insert(0, moved));
        assert_eq!(up, down);
        assert!(up.iter().any(|&moved| moved > 0));
    }
}

/// "In January a client's register loses a third of its records": what is left
/// is at every size on the way down as if it had never been elsewhere.
#[test]
fn after_the_leavers_only_the_rest_counts() {
    for start in starts() {
        let mut file = filled(start);
        let (first, top) = (file.state.pages, file.state.cap - 2);
        go(&mut file, top, |_, _| {});
        let mut rest = keys(u64::from(first));
        for leaver in (0..rest.len()).step_by(3).rev() {
            let key = rest.remove(leaver);
            assert_eq!(asked(&mut file, Call::Remove { key }).refusal, 0);
        }
        go(&mut file, first, |_, _| {});
        let (numbers, edition) = start;
        let mut other = Trial::fresh(numbers, file.state.cap, edition).expect("agrees");
        assert_eq!(other.put_all(rest.into_iter().rev()), Ok(0));
        assert_eq!(file.state, other.state);
        assert!(file.area == other.area);
    }
}
