//! Check: judging the whole file, with which grow and shrink begin too.

use crate::answer::{Answer, NOT_THE_IMAGE};
use crate::page::{judge, Page};
use crate::state::State;

/// Checks an area of the right length, with a state in range.
pub fn check(state: State, area: &[u8]) -> Answer {
    match judge_all(state, area) {
        Ok(pages) => Answer::accepted(state, pages.len()),
        Err(refused) => refused,
    }
}

/// Judges "pages from 0 upward", stopping at the first broken one, and gives
/// them all where the area is the image of r records. The error is the refusal
/// that every call gives that judges the whole file.
pub fn judge_all(state: State, area: &[u8]) -> Result<Vec<Page>, Answer> {
    let mut pages = Vec::new();
    for address in 0..usize::from(state.cap) {
        match judge(state, area, address) {
            Some(page) => pages.push(page),
            None => return Err(Answer::broken(state, address, address + 1)),
        }
    }
    let held: usize = pages.iter().map(|page| page.count).sum();
    if held == state.records as usize && no_gaps(&pages) && rising(&pages) {
        Ok(pages)
    } else {
        Err(Answer::refused(state, NOT_THE_IMAGE, pages.len()))
    }
}

/// "each record lies at its home or higher with every page from its home up
/// to the one before it full". The page rules see to "or higher".
fn no_gaps(pages: &[Page]) -> bool {
    let mut run_start = 0;
    for (address, page) in pages.iter().enumerate() {
        if (0..page.count).any(|slot| page.place(slot).0 < run_start) {
            return false;
        }
        if !page.full() {
            run_start = address as u64 + 1;
        }
    }
    true
}

/// "reading the pages upward gives rising (home, key), never equal".
fn rising(pages: &[Page]) -> bool {
    let mut last = None;
    for page in pages.iter().filter(|page| page.count > 0) {
        if last >= Some(page.place(0)) {
            return false;
        }
        last = page.last_place();
    }
    true
}
