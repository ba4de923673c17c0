//! Shrinks, with what they come to worked out from the rules.

use super::*;
use crate::answer::{NOT_THE_IMAGE, OUT_OF_RANGE, WRONG_AREA};
use crate::calls::Call;
use crate::image::page_bytes;
use crate::page::PAGE_BYTES;
use crate::trial::Trial;
use crate::witness::witnessed;

mod always_room;
mod up_and_down;

/// A fresh file with n0 2, N and s 1, and four lent pages. At two pages a key
/// lives on page K mod 2. At three, the first step's movers live on page 2:
/// "every key from 0 to 42590", and not 42591. Draw 1 of those behind it rises
/// by 16807 from key to key, so for thousands of them it stays too large.
fn fresh() -> Trial {
    Trial::fresh([2, 1, 1], 4, 1).expect("agrees")
}

/// The same file grown to three pages, holding these keys.
fn holding(keys: impl IntoIterator<Item = u64>) -> Trial {
    let mut file = fresh();
    assert_eq!(asked(&mut file, Call::Grow).refusal, 0);
    assert_eq!(file.put_all(keys), Ok(0));
    file
}

fn asked(file: &mut Trial, call: Call) -> Answer {
    file.ask(call).expect("agrees")
}

/// Every second key from the first on, up to the last.
fn every_second(first: u64, last: u64) -> Vec<u64> {
    (first..=last).step_by(2).collect()
}

/// Shrinks a file from three pages to two and sees how many records moved, and
/// that growing gives it back.
fn shrink_moving(file: &mut Trial, moved: u32) {
    let (state, area) = (file.state, file.area.clone());
    let shrunk = asked(file, Call::Shrink);
    let wanted = Answer {
        moved,
        ..Answer::accepted(State { pages: 2, ..state }, 4)
    };
    assert_eq!(shrunk, wanted);
    let mut back = Trial {
        state: file.state,
        area: file.area.clone(),
    };
    assert_eq!(asked(&mut back, Call::Grow), Answer { state, ..wanted });
    assert!(back.area == area);
}

/// Fourteen keys share page 2 once it is there, so the highest lie above their
/// home; with key 14 there are three of them. All come down.
#[test]
fn overflow_is_pulled_back() {
    let mut file = fresh();
    assert_eq!(file.put_up_to(13), Ok(0));
    assert_eq!(asked(&mut file, Call::Grow).moved, 14);
    assert_eq!(file.put_all([14]), Ok(0));
    assert_eq!(file.keys_on(2), (0..12).collect::<Vec<u64>>());
    assert_eq!(file.keys_on(3), [12, 13, 14]);
    shrink_moving(&mut file, 15);
    let pages = [0, 1, 2, 3].map(|page| file.keys_on(page));
    let none = Vec::new();
    assert_eq!(
        pages,
        [every_second(0, 14), every_second(1, 13), none.clone(), none]
    );
}

/// Page 1 is full of keys that stay; those that come back go before them, and
/// seven of the old ones lie above their home from then on.
#[test]
fn what_comes_back_takes_its_place_in_order() {
    let stay = every_second(42591, 42613);
    let mut file = holding((0..14).chain(stay.clone()).chain([42592]));
    let pages = [0, 1, 2, 3].map(|page| file.keys_on(page));
    assert_eq!(pages, [vec![42592], stay, (0..12).collect(), vec![12, 13]]);
    shrink_moving(&mut file, 14 + 7);
    let pages = [0, 1, 2, 3].map(|page| file.keys_on(page));
    let low = [every_second(0, 12), vec![42592]].concat();
    let middle = [every_second(1, 13), every_second(42591, 42599)].concat();
    assert_eq!(pages, [low, middle, every_second(42601, 42613), vec![]]);
}

/// Of 48 records on four full pages only the keys 1, 3, .. 11 find themselves
/// on the page they were on.
#[test]
fn a_full_file_has_room() {
    let stay = every_second(42592, 42614);
    let also = every_second(42591, 42613);
    let mut file = holding((0..24).chain(stay.clone()).chain(also.clone()));
    assert!(file.state.at_most_records());
    shrink_moving(&mut file, 48 - 6);
    let pages = [0, 1, 2, 3].map(|page| file.keys_on(page));
    let back = [every_second(0, 22), every_second(1, 23)];
    assert_eq!(pages, [back[0].clone(), stay, back[1].clone(), also]);
}

/// Where nothing lives on the page that goes, no byte changes.
#[test]
fn nothing_moves_without_records_of_the_last_home() {
    for keys in [vec![], vec![42591, 42592]] {
        let mut file = holding(keys);
        let before = file.area.clone();
        shrink_moving(&mut file, 0);
        assert!(file.area == before);
    }
}

/// Makes a shrink that is refused, once nothing was seen to change by it.
fn refused(file: &Trial) -> Answer {
    let before = vec![7; usize::from(file.state.cap)];
    let (mut area, mut row) = (file.area.clone(), before.clone());
    let answer = witnessed(Call::Shrink, file.state, &mut area, &mut row).expect("agrees");
    assert_ne!(answer.refusal, 0);
    assert!(area == file.area && answer.state == file.state && row == before);
    answer
}

fn is_refused_with_fourteen(file: &Trial) {
    assert_eq!(refused(file), Answer::refused(file.state, 14, 0));
}

/// Whatever the pages hold, none of them is read.
#[test]
fn fourteen_where_nothing_has_grown() {
    for (n0, groups) in [(1, 1), (1, 7), (2, 3), (3, 1), (4, 2), (4, 64)] {
        for (edition, more) in [(1, 0), (1, 2), (2, 0), (2, 2)] {
            let cap = n0 * groups + more;
            let mut file = Trial::fresh([n0, groups, 3], cap, edition).expect("agrees");
            is_refused_with_fourteen(&file);
            assert_eq!(file.put_up_to(10), Ok(0));
            is_refused_with_fourteen(&file);
            file.state.records -= 1;
            is_refused_with_fourteen(&file);
            file.area[PAGE_BYTES - 1] ^= 1;
            is_refused_with_fourteen(&file);
        }
    }
}

/// Once it has grown and shrunk again it is as if it had never grown.
#[test]
fn fourteen_once_all_is_given_back() {
    let mut file = holding(0..5);
    shrink_moving(&mut file, 5);
    is_refused_with_fourteen(&file);
}

#[test]
fn the_lowest_broken_page_is_told() {
    let good = holding((0..14).chain([42591, 42592]));
    for low in 0..4 {
        for high in low..4 {
            let mut file = Trial {
                state: good.state,
                area: good.area.clone(),
            };
            // The second byte of a page's length, changed once or twice.
            file.area[PAGE_BYTES * low + 1] ^= 2;
            file.area[PAGE_BYTES * high + 1] ^= 4;
            let told = Answer::broken(file.state, low, low + 1);
            assert_eq!(refused(&file), told);
            // A count that is wrong as well comes after it.
            file.state.records = 0;
            assert_eq!(
                refused(&file),
                Answer {
                    state: file.state,
                    ..told
                }
            );
        }
    }
}

#[test]
fn nine_where_the_count_is_wrong() {
    let mut file = holding(0..14);
    for records in (0..=48).filter(|&records| records != 14) {
        file.state.records = records;
        let nine = Answer::refused(file.state, NOT_THE_IMAGE, 4);
        assert_eq!(refused(&file), nine);
    }
}

/// The count is right and every page passes its rules, but key 0 lies on page
/// 3 though its home, page 2, has room.
#[test]
fn nine_where_a_record_lies_too_high() {
    let mut file = holding([0]);
    let record = Record { key: 0, value: 0 };
    let pages = [(0, &[][..]), (1, &[]), (2, &[]), (3, &[record])];
    file.area = pages.map(|(page, held)| page_bytes(page, held)).concat();
    let nine = Answer::refused(file.state, NOT_THE_IMAGE, 4);
    assert_eq!(refused(&file), nine);
}

/// "order is now 1, 2, 14, 4, 9": all is wrong at first, and one thing after
/// the other is put right. Behind the last of them the shrink is accepted.
#[test]
fn refusals_come_in_their_order() {
    let mut file = holding(0..14);
    (file.state.pages, file.state.records) = (2, 49);
    file.area[PAGE_BYTES] ^= 1;
    let last = file.area.pop();
    assert_eq!(refused(&file), Answer::refused(file.state, OUT_OF_RANGE, 0));
    file.state.records = 48;
    assert_eq!(refused(&file), Answer::refused(file.state, WRONG_AREA, 0));
    file.area.extend(last);
    is_refused_with_fourteen(&file);
    file.state.pages = 3;
    assert_eq!(refused(&file), Answer::broken(file.state, 1, 2));
    file.area[PAGE_BYTES] ^= 1;
    let nine = Answer::refused(file.state, NOT_THE_IMAGE, 4);
    assert_eq!(refused(&file), nine);
    file.state.records = 14;
    shrink_moving(&mut file, 14);
}

/// "It needs no row": one of any length comes back as it came, and the answer
/// is the same.
#[test]
fn no_row_is_looked_at() {
    let file = holding(0..14);
    let shrunk = |length: usize| {
        let (mut area, mut row) = (file.area.clone(), vec![0xdead_beef; length]);
        let answer = witnessed(Call::Shrink, file.state, &mut area, &mut row);
        assert_eq!(row, vec![0xdead_beef; length]);
        (answer, area)
    };
    let bare = shrunk(0);
    assert_eq!(bare.0.as_ref().map(|answer| answer.refusal), Ok(0));
    for length in [1, 2, 3, 4, 5, 4096] {
        assert!(shrunk(length) == bare, "{length}");
    }
}
