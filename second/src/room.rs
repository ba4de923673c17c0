//! Whether records have room, decided without laying them out: there is room
//! exactly when every record can be given a slot of its own on its home page
//! or a higher one.

use crate::home::home;
use crate::page::SLOTS;
use crate::state::State;

/// Above this many records only the counting is done, to keep runs quick.
const SEARCHED: usize = 120;

/// Whether keys have room in a file of this size. An error tells that the two
/// ways of deciding disagree.
pub fn fits(state: State, keys: &[u64]) -> Result<bool, String> {
    let homes: Vec<usize> = keys.iter().map(|&key| home(state, key) as usize).collect();
    let cap = usize::from(state.cap);
    let counted = by_counting(cap, &homes);
    if homes.len() <= SEARCHED && by_search(cap, &homes) != counted {
        return Err(format!(
            "counting says {counted} for {cap} pages and homes {homes:?}"
        ));
    }
    Ok(counted)
}

/// Hall's condition: the records that may only use the pages from some page
/// on are never more than those pages have slots. Sets of other shapes ask
/// for less, since the pages open to a record are always such a suffix.
pub fn by_counting(cap: usize, homes: &[usize]) -> bool {
    (0..cap).all(|start| {
        let bound = homes.iter().filter(|&&home| home >= start).count();
        bound <= SLOTS * (cap - start)
    })
}

/// Looks for the arrangement itself, one record after the other, taking the
/// highest free page first and moving others away where none is free.
pub fn by_search(cap: usize, homes: &[usize]) -> bool {
    let mut search = Search {
        homes,
        guests: vec![Vec::new(); cap],
    };
    (0..homes.len()).all(|record| search.seat(record, &mut vec![false; cap]))
}

struct Search<'a> {
    homes: &'a [usize],
    /// The records seated on each page.
    guests: Vec<Vec<usize>>,
}

impl Search<'_> {
    /// Seats a record, along an augmenting path if need be. Pages already
    /// tried on this path aren't tried again.
    fn seat(&mut self, record: usize, tried: &mut [bool]) -> bool {
        for page in (self.homes[record]..self.guests.len()).rev() {
            if tried[page] {
                continue;
            }
            tried[page] = true;
            if self.guests[page].len() < SLOTS {
                self.guests[page].push(record);
                return true;
            }
            if self.swap_in(record, page, tried) {
                return true;
            }
        }
        false
    }

    /// Makes a place on a full page by seating one of its guests elsewhere.
    fn swap_in(&mut self, record: usize, page: usize, tried: &mut [bool]) -> bool {
        for place in 0..SLOTS {
            let guest = self.guests[page][place];
            if self.seat(guest, tried) {
                self.guests[page][place] = record;
                return true;
            }
        }
        false
    }
}

#[cfg(test)]
mod tests {
    use super::*;

    #[test]
    fn thirteen_on_the_last_page_have_no_room() {
        let homes = vec![1; 13];
        assert!(!by_counting(2, &homes));
        assert!(!by_search(2, &homes));
        assert!(by_search(2, &homes[..12]));
        assert!(by_search(3, &homes));
    }

    #[test]
    fn low_homes_make_way_for_high_ones() {
        let homes: Vec<usize> = [vec![0; 12], vec![1; 12], vec![2; 12]].concat();
        assert!(by_search(3, &homes));
        assert!(by_counting(3, &homes));
    }

    #[test]
    fn both_ways_agree_on_many_homes() {
        let mut seed = 1;
        for size in 0..600 {
            let cap = 1 + size % 5;
            let homes: Vec<usize> = (0..size % 61)
                .map(|_| {
                    seed = crate::home::next_draw(seed);
                    seed as usize % cap
                })
                .collect();
            assert_eq!(
                by_counting(cap, &homes),
                by_search(cap, &homes),
                "{homes:?}"
            );
        }
    }
}
