//! No file that passes its check is out of room for a shrink, however full it
//! is.

use super::*;
use crate::calls::call;
use crate::home::next_draw;
use crate::image::{records_of, standing};
use crate::room::fits;

/// Keys all over the 64 bits, so that every home gets some.
fn spread(at: u64) -> u64 {
    at.wrapping_mul(0x9e37_79b9_7f4a_7c15)
}

/// Puts a key and gives the refusal.
fn put_key(file: &mut Trial, key: u64) -> u16 {
    let value = !key;
    let answer = put(file.state, &mut file.area, Record { key, value });
    file.state = answer.state;
    answer.refusal
}

/// Puts keys of one home until one finds no room. From that home on, or from
/// further down, every lent page is full then.
fn fill_from(file: &mut Trial, wanted: u64) {
    let state = file.state;
    let some = (1..1 << 20).map(spread);
    let mut keys = some.filter(|&key| home(state, key) == wanted);
    assert!(keys.any(|key| put_key(file, key) == NO_ROOM), "{state:?}");
}

fn copy(file: &Trial) -> Trial {
    Trial {
        state: file.state,
        area: file.area.clone(),
    }
}

/// Shrinks a copy of a file and finds every record in it, with its value.
fn shrinks_and_keeps_all(file: &Trial) {
    let mut shrunk = copy(file);
    let answer = asked(&mut shrunk, Call::Shrink);
    let smaller = Answer::accepted(file.state.one_page_shrunk(), file.state.cap.into());
    let moved = answer.moved;
    assert_eq!(answer, Answer { moved, ..smaller });
    for (_, Record { key, value }) in standing(&file.area) {
        let found = asked(&mut shrunk, Call::Find { key });
        assert_eq!((found.refusal, found.value), (0, value));
    }
}

/// Keys of the last home overflow up to the last lent page until not one more
/// has room. First nothing else is held, then no slot is free anywhere.
#[test]
fn the_last_lent_pages_are_full() {
    let starts = [
        ([1, 1, 1], 4),
        ([2, 1, 1], 5),
        ([1, 3, 2], 6),
        ([4, 1, 8], 7),
    ];
    for ((start, cap), edition) in starts.into_iter().flat_map(|file| [(file, 1), (file, 2)]) {
        for pages in start[0] * start[1] + 1..=cap {
            let mut file = Trial::fresh(start, cap, edition).expect("agrees");
            file.state.pages = pages;
            fill_from(&mut file, u64::from(pages) - 1);
            let counts: Vec<usize> = (0..cap)
                .map(|page| file.keys_on(page.into()).len())
                .collect();
            let (below, above) = counts.split_at(usize::from(pages) - 1);
            assert!(below.iter().all(|&count| count == 0));
            assert!(above.iter().all(|&count| count == SLOTS));
            shrinks_and_keeps_all(&file);
            fill_from(&mut file, 0);
            assert!(file.state.at_most_records());
            shrinks_and_keeps_all(&file);
        }
    }
}

/// Numbers in no order, the same ones in every run.
struct Draws(u64);

impl Draws {
    /// One from low to high, both included.
    fn within(&mut self, low: u64, high: u64) -> u64 {
        self.0 = next_draw(self.0);
        low + self.0 % (high - low + 1)
    }
}

/// An empty file of either edition that is one to five pages larger than at
/// its start, with at most three lent behind them.
fn grown(draws: &mut Draws) -> Trial {
    let start = [4, 3, 8].map(|most| draws.within(1, most) as u16);
    let pages = start[0] * start[1] + draws.within(1, 5) as u16;
    let cap = pages + draws.within(0, 3) as u16;
    let mut file = Trial::fresh(start, cap, draws.within(1, 2)).expect("agrees");
    file.state.pages = pages;
    file
}

/// Small keys and any keys, then all that has room from up to three homes.
fn fill(file: &mut Trial, draws: &mut Draws) {
    for _ in 0..draws.within(0, 60) {
        put_key(file, draws.within(0, 200));
        put_key(file, spread(draws.within(1, 1 << 30)));
    }
    for _ in 0..draws.within(0, 3) {
        let home = draws.within(0, u64::from(file.state.pages) - 1);
        fill_from(file, home);
    }
}

/// Makes a call that no witness looks at, and gives the refusal.
fn plainly(file: &mut Trial, asked: Call) -> u16 {
    let mut row = vec![7; usize::from(file.state.cap)];
    let answer = call(asked, file.state, &mut file.area, &mut row);
    file.state = answer.state;
    answer.refusal
}

/// The records of an image, by key.
fn held(file: &Trial) -> Vec<Record> {
    let mut records = records_of(file.state, &file.area).expect("an image");
    records.sort_unstable_by_key(|record| record.key);
    records
}

/// Goes one page down, with room for all records and none lost, and from there
/// up again to the same bytes.
fn one_page_down(file: &mut Trial) {
    let before = copy(file);
    let (state, records) = (before.state, held(file));
    assert_eq!(plainly(file, Call::Check), 0, "{state:?}");
    assert_eq!(plainly(file, Call::Shrink), 0, "{state:?}");
    assert_eq!(file.state, state.one_page_shrunk());
    assert_eq!(plainly(file, Call::Check), 0, "{state:?}");
    assert!(held(file) == records, "{state:?}");
    let keys: Vec<u64> = records.iter().map(|record| record.key).collect();
    assert_eq!(fits(file.state, &keys), Ok(true));
    let mut back = copy(file);
    assert_eq!(plainly(&mut back, Call::Grow), 0, "{state:?}");
    assert!(back.state == state && back.area == before.area, "{state:?}");
}

/// Many small files go down to their first size. About half of the shrinks
/// meet a last lent page that is full, where room would run out first.
#[test]
fn every_file_that_passes_its_check_shrinks() {
    let mut draws = Draws(1985);
    let (mut shrinks, mut full_at_the_end, mut all_full) = (0, 0, 0);
    for _ in 0..400 {
        let mut file = grown(&mut draws);
        fill(&mut file, &mut draws);
        while !file.state.at_start_pages() {
            let last = usize::from(file.state.cap) - 1;
            shrinks += 1;
            full_at_the_end += u32::from(file.keys_on(last).len() == SLOTS);
            all_full += u32::from(file.state.at_most_records());
            one_page_down(&mut file);
        }
    }
    assert!(shrinks > 1000, "{shrinks}");
    assert!(full_at_the_end > shrinks / 3, "{full_at_the_end}");
    assert!(all_full > 20, "{all_full}");
}

/// Thirteen records that live on the last of two pages have no place there,
/// and laying them out doesn't end with one of them lost.
#[test]
#[should_panic(expected = "a record of a checked file found no place")]
fn a_record_without_a_place_stops_the_program() {
    let mut file = Trial::of_ones(2).expect("agrees");
    assert_eq!(file.put_up_to(12), Ok(0));
    let pages = judge_all(file.state, &file.area).expect("an image");
    remake(file.state.one_page_grown(), records(&pages));
}
