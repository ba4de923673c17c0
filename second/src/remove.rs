//! Remove: the walk, then first records coming back from the pages above.

use crate::answer::{Answer, ABSENT, NOT_THE_IMAGE};
use crate::page::{judge, write, Page};
use crate::state::State;
use crate::walk::{walk, End, Walk};

/// The pages as they will be, from the one that held the key upward, and how
/// many pages above that one were looked at.
struct Closing {
    pages: Vec<Page>,
    read: usize,
}

/// Removes a key from an area of the right length, with a state in range.
pub fn remove(state: State, area: &mut [u8], key: u64) -> Answer {
    let Walk { read, end, .. } = walk(state, area, key);
    match end {
        End::Broken { address } => Answer::broken(state, address, read),
        End::Stopped { .. } | End::RanOut => Answer::refused(state, ABSENT, read),
        End::Held {
            address,
            slot,
            page,
        } => match close_up(state, area, address, slot, page) {
            Ok(closing) => settle(state, area, address, read, closing),
            Err(above) => Answer::broken(state, address + above, read + above),
        },
    }
}

/// Closes the slots up and lets first records come back, page after page.
/// Nothing is written here. An error tells how far above the first page the
/// broken one lies.
fn close_up(
    state: State,
    area: &[u8],
    first: usize,
    slot: usize,
    page: Page,
) -> Result<Closing, usize> {
    let mut pages = Vec::new();
    let mut was_full = page.full();
    let mut here = page;
    here.remove(slot);
    let mut read = 0;
    // "If the page was full and the next page exists", the next is looked at.
    while was_full && first + pages.len() + 1 < usize::from(state.cap) {
        let address = first + pages.len();
        read = pages.len() + 1;
        let mut next = judge(state, area, address + 1).ok_or(read)?;
        // "its first record has a home no higher than this page"
        if next.count == 0 || next.place(0).0 > address as u64 {
            break;
        }
        was_full = next.full();
        let none_left_over = here.insert(next.place(0).0, next.record(0)).is_none();
        debug_assert!(none_left_over);
        next.remove(0);
        pages.push(here);
        here = next;
    }
    pages.push(here);
    Ok(Closing { pages, read })
}

/// Gives the answer and, only where it is yes, writes the pages. Every page
/// after the first gave one held record to the page below it.
fn settle(state: State, area: &mut [u8], first: usize, walked: usize, closing: Closing) -> Answer {
    let read = walked + closing.read;
    if state.records == 0 {
        return Answer::refused(state, NOT_THE_IMAGE, read);
    }
    for (offset, page) in closing.pages.iter().enumerate() {
        write(area, first + offset, page);
    }
    let moved = closing.pages.len() - 1;
    Answer {
        moved: moved as u32,
        ..Answer::accepted(state.one_less(), read)
    }
}
