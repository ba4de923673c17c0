//! Put: the walk, then the shift of last records to the pages above.

use crate::answer::{Answer, NOT_THE_IMAGE, NO_ROOM};
use crate::home::home;
use crate::page::{judge, write, Page, Record};
use crate::state::State;
use crate::walk::{walk, End, Walk};

/// What the shift upward came to. `read` counts the pages above the first.
enum Shift {
    Broken { address: usize, read: usize },
    PastTheEnd { read: usize },
    Settled { pages: Vec<Page> },
}

/// Puts a record into an area of the right length, with a state in range.
pub fn put(state: State, area: &mut [u8], record: Record) -> Answer {
    let Walk { home, read, end } = walk(state, area, record.key);
    match end {
        End::Broken { address } => Answer::broken(state, address, read),
        End::Held { slot, page, .. } => Answer::held(state, page.values[slot], record.value, read),
        End::RanOut => Answer::refused(state, NO_ROOM, read),
        End::Stopped { address, page } => {
            let shift = shift_up(state, area, address, page, (home, record));
            settle(state, area, address, read, shift)
        }
    }
}

/// Brings the record into the ending page and passes last records on "to the
/// first page that wasn't full". Nothing is written here.
fn shift_up(
    state: State,
    area: &[u8],
    first: usize,
    page: Page,
    (home_of_new, record): (u64, Record),
) -> Shift {
    let mut page = page;
    let mut carried = page.insert(home_of_new, record);
    let mut pages = vec![page];
    while let Some(record) = carried {
        let read = pages.len();
        let address = first + read;
        if address == usize::from(state.cap) {
            return Shift::PastTheEnd { read: read - 1 };
        }
        let Some(mut next) = judge(state, area, address) else {
            return Shift::Broken { address, read };
        };
        carried = next.insert(home(state, record.key), record);
        pages.push(next);
    }
    Shift::Settled { pages }
}

/// Gives the answer and, only where it is yes, writes the pages. Every page
/// after the first took one held record from the page below it.
fn settle(state: State, area: &mut [u8], first: usize, walked: usize, shift: Shift) -> Answer {
    let pages = match shift {
        Shift::Broken { address, read } => return Answer::broken(state, address, walked + read),
        Shift::PastTheEnd { read } => return Answer::refused(state, NO_ROOM, walked + read),
        Shift::Settled { pages } => pages,
    };
    let moved = pages.len() - 1;
    if state.at_most_records() {
        return Answer::refused(state, NOT_THE_IMAGE, walked + moved);
    }
    for (offset, page) in pages.iter().enumerate() {
        write(area, first + offset, page);
    }
    Answer {
        moved: moved as u32,
        ..Answer::accepted(state.one_more(), walked + moved)
    }
}

#[cfg(test)]
mod tests {
    use super::*;
    use crate::answer::{BROKEN, CLASH, REPEAT};
    use crate::image::page_bytes;
    use crate::page::PAGE_BYTES;
    use crate::trial::Trial;

    /// A file of one home, 0, that holds the keys from 0 up, each with its
    /// tenfold as value.
    fn file(cap: u16, keys: u64) -> Trial {
        let mut file = Trial::of_ones(cap).expect("agrees");
        for key in 0..keys {
            let value = 10 * key;
            let answer = put(file.state, &mut file.area, Record { key, value });
            assert_eq!(answer.refusal, 0, "key {key}");
            file.state = answer.state;
        }
        file
    }

    /// Puts into a file that may not change by it, and gives refusal, value
    /// and pages read.
    fn refused(file: &Trial, key: u64, value: u64) -> (u16, u64, u32) {
        let mut area = file.area.clone();
        let answer = put(file.state, &mut area, Record { key, value });
        assert!(area == file.area && answer.state == file.state);
        assert_eq!(answer.moved, 0);
        assert!(answer.page == 0 || answer.refusal == BROKEN);
        (answer.refusal, answer.value, answer.read)
    }

    #[test]
    fn the_held_value_repeats_and_any_other_clashes() {
        let file = file(2, 5);
        assert_eq!(refused(&file, 3, 30), (REPEAT, 30, 1));
        for bit in 0..64 {
            assert_eq!(refused(&file, 3, 30 ^ (1 << bit)), (CLASH, 30, 1));
        }
        // Not even the key, a neighbour's value or nothing stands for it.
        for other in [3, 20, 40, 0, u64::MAX] {
            assert_eq!(refused(&file, 3, other), (CLASH, 30, 1));
        }
        assert_eq!(refused(&file, 0, 0), (REPEAT, 0, 1));
        assert_eq!(refused(&file, 0, 1), (CLASH, 0, 1));
    }

    #[test]
    fn a_removed_key_takes_another_value() {
        let mut file = file(2, 5);
        let removed = crate::remove::remove(file.state, &mut file.area, 3);
        let record = Record { key: 3, value: 31 };
        let answer = put(removed.state, &mut file.area, record);
        assert_eq!(answer.refusal, 0);
        file.state = answer.state;
        assert_eq!(refused(&file, 3, 30), (CLASH, 31, 1));
        assert_eq!(refused(&file, 3, 31), (REPEAT, 31, 1));
    }

    #[test]
    fn a_full_file_tells_both_apart() {
        let file = file(3, 36);
        assert!(file.state.at_most_records());
        for (key, read) in [(0, 1), (11, 1), (12, 2), (35, 3)] {
            assert_eq!(refused(&file, key, 10 * key), (REPEAT, 10 * key, read));
            assert_eq!(refused(&file, key, 7), (CLASH, 10 * key, read));
        }
        assert_eq!(refused(&file, 36, 7), (NO_ROOM, 0, 3));
    }

    #[test]
    fn the_last_page_of_a_full_run() {
        // The run ends before the area does, and every page of it is full.
        let file = file(5, 48);
        assert_eq!(refused(&file, 47, 471), (CLASH, 470, 4));
        assert_eq!(refused(&file, 47, 470), (REPEAT, 470, 4));
        assert_eq!(refused(&file, 36, 361), (CLASH, 360, 4));
    }

    /// What is wrong outside the walk isn't seen, and 9 comes after it.
    #[test]
    fn no_image_but_good_pages_on_the_way() {
        let mut file = file(4, 30);
        for records in [0, 29, 31, 48] {
            file.state.records = records;
            assert_eq!(refused(&file, 20, 1), (CLASH, 200, 2));
            assert_eq!(refused(&file, 20, 200), (REPEAT, 200, 2));
        }
        assert_eq!(refused(&file, 30, 300), (NOT_THE_IMAGE, 0, 3));
        file.area[2 * PAGE_BYTES] ^= 1;
        assert_eq!(refused(&file, 20, 1), (CLASH, 200, 2));
        assert_eq!(refused(&file, 20, 200), (REPEAT, 200, 2));
        assert_eq!(refused(&file, 25, 1), (BROKEN, 0, 3));
        file.area[0] ^= 1;
        assert_eq!(refused(&file, 20, 1), (BROKEN, 0, 1));
    }

    /// Where a key stands twice, the one that the walk meets is the held one.
    #[test]
    fn the_first_of_two_values_counts() {
        let mut file = file(2, 12);
        let second = Record { key: 5, value: 51 };
        file.area[PAGE_BYTES..].copy_from_slice(&page_bytes(1, &[second]));
        assert_eq!(refused(&file, 5, 50), (REPEAT, 50, 1));
        assert_eq!(refused(&file, 5, 51), (CLASH, 50, 1));
    }
}
