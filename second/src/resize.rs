//! Grow and shrink by one page: a check of the whole file, then the image for
//! the other size. Only a growth can find that there is no room for it.

use crate::answer::{Answer, GROWN_OUT, NOT_GROWN, NO_ROOM, WRONG_ROW};
use crate::check::judge_all;
use crate::home::home;
use crate::page::{judge, write, Page, Record, SLOTS};
use crate::put::put;
use crate::state::State;

/// Grows an area of the right length, with a state in range. The row has a
/// count for each lent page, and those counts decide whether there is room.
pub fn grow(state: State, area: &mut [u8], row: &mut [u32]) -> Answer {
    if row.len() != usize::from(state.cap) {
        return Answer::refused(state, WRONG_ROW, 0);
    }
    if state.pages == state.cap {
        return Answer::refused(state, GROWN_OUT, 0);
    }
    let pages = match judge_all(state, area) {
        Ok(pages) => pages,
        Err(refused) => return refused,
    };
    let grown = state.one_page_grown();
    count_homes(grown, records(&pages), row);
    if !has_room(row) {
        return Answer::refused(state, NO_ROOM, pages.len());
    }
    resized(grown, &pages, area)
}

/// Shrinks an area of the right length, with a state in range. No room is
/// looked for: at the smaller size every key has the home it had or a lower
/// one, so that all records might even stay where they lie.
pub fn shrink(state: State, area: &mut [u8]) -> Answer {
    if state.at_start_pages() {
        return Answer::refused(state, NOT_GROWN, 0);
    }
    match judge_all(state, area) {
        Ok(pages) => resized(state.one_page_shrunk(), &pages, area),
        Err(refused) => refused,
    }
}

/// Makes the image for the size of the other state, once the pages have passed
/// their check and nothing can be refused any more.
fn resized(other: State, pages: &[Page], area: &mut [u8]) -> Answer {
    let made = remake(other, records(pages));
    area.copy_from_slice(&made);
    Answer {
        moved: moved_between(other, pages, area),
        ..Answer::accepted(other, pages.len())
    }
}

fn records(pages: &[Page]) -> impl Iterator<Item = Record> + '_ {
    pages
        .iter()
        .flat_map(|page| (0..page.count).map(|slot| page.record(slot)))
}

/// Fills the row with "the number of records of each home" at the size of this
/// state: the one to grow to, or the one that a merge leaves.
pub fn count_homes(state: State, records: impl Iterator<Item = Record>, row: &mut [u32]) {
    row.fill(0);
    for record in records {
        row[home(state, record.key) as usize] += 1;
    }
}

/// Each page keeps twelve and passes the rest on; nothing may be left over.
pub fn has_room(row: &[u32]) -> bool {
    let left_over = row.iter().fold(0, |passed, &count| {
        (passed + count).saturating_sub(SLOTS as u32)
    });
    left_over == 0
}

/// Puts every record into an empty file of this size. The order of putting
/// doesn't matter, since "at most one image exists". A growth and a merge were
/// seen to have room and a shrink always has, so a put that is refused is a
/// mistake of this program: it stops here rather than lose a record.
pub fn remake(size: State, records: impl Iterator<Item = Record>) -> Vec<u8> {
    let mut made = vec![0; size.area_bytes()];
    for address in 0..usize::from(size.cap) {
        write(&mut made, address, &Page::EMPTY);
    }
    let mut state = State { records: 0, ..size };
    for record in records {
        let answer = put(state, &mut made, record);
        assert_eq!(
            answer.refusal, 0,
            "a record of a checked file found no place"
        );
        state = answer.state;
    }
    made
}

/// "for grow, the number of records whose page differs"; a shrink has "moved"
/// counted "the same way".
fn moved_between(other: State, before: &[Page], area: &[u8]) -> u32 {
    let mut moved = 0;
    for (address, old) in before.iter().enumerate() {
        let stayed = judge(other, area, address).map_or(0, |new| in_both(old, &new));
        moved += (old.count - stayed) as u32;
    }
    moved
}

fn in_both(old: &Page, new: &Page) -> usize {
    let now = &new.keys[..new.count];
    old.keys[..old.count]
        .iter()
        .filter(|key| now.contains(key))
        .count()
}

#[cfg(test)]
mod tests;
