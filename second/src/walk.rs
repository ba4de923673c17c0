//! The walk from a key's home upward, shared by find, put and remove.

use crate::home::home;
use crate::page::{judge, Page};
use crate::state::State;

/// How a walk ended.
#[derive(Clone, Copy, Debug, PartialEq, Eq)]
pub enum End {
    /// A broken page was met.
    Broken { address: usize },
    /// The key stands in this slot.
    Held {
        address: usize,
        slot: usize,
        page: Page,
    },
    /// The key is absent and this is the page its place would be on.
    Stopped { address: usize, page: Page },
    /// The walk met only full pages to the end of the area.
    RanOut,
}

/// A finished walk. The pages judged are those from `home` up, `read` of them.
#[derive(Clone, Copy, Debug)]
pub struct Walk {
    pub home: u64,
    pub read: usize,
    pub end: End,
}

/// Walks for a key. The state has to be in range and the area as long as it
/// says.
pub fn walk(state: State, area: &[u8], key: u64) -> Walk {
    let home = home(state, key);
    let first = home as usize;
    for address in first..usize::from(state.cap) {
        if let Some(end) = look(state, area, address, (home, key)) {
            return Walk {
                home,
                read: address - first + 1,
                end,
            };
        }
    }
    Walk {
        home,
        read: usize::from(state.cap) - first,
        end: End::RanOut,
    }
}

/// Looks at one page; None means that the walk goes on to the next.
fn look(state: State, area: &[u8], address: usize, sought: (u64, u64)) -> Option<End> {
    let Some(page) = judge(state, area, address) else {
        return Some(End::Broken { address });
    };
    if let Some(slot) = (0..page.count).find(|&slot| page.keys[slot] == sought.1) {
        return Some(End::Held {
            address,
            slot,
            page,
        });
    }
    // "a page that isn't full, or whose last record stands after the sought"
    let stops = !page.full() || page.last_place() > Some(sought);
    stops.then_some(End::Stopped { address, page })
}
