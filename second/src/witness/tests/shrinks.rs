//! Shrinks as they should be, and wrong ones that have to be noticed.

use super::*;
use crate::answer::NOT_GROWN;

/// The file of one record grown to two pages.
const GROWN: State = State { pages: 2, ..STATE };

/// What a right shrink of the grown file answers.
const SHRUNK: Answer = Answer {
    refusal: 0,
    page: 0,
    value: 0,
    read: 2,
    moved: 1,
    state: STATE,
};

#[test]
fn a_shrink_is_expected_as_it_comes() {
    let (mut area, mut row) = (one_record_at(GROWN), [5; 3]);
    let shrunk = witnessed(Call::Shrink, GROWN, &mut area, &mut row);
    assert_eq!(shrunk, Ok(SHRUNK));
    assert!(area == one_record() && row == [5; 3]);
    let again = witnessed(Call::Shrink, STATE, &mut area, &mut row);
    assert_eq!(again, Ok(Answer::refused(STATE, NOT_GROWN, 0)));
}

/// A shrink that takes the check lightly, or refuses where it may not, is
/// noticed on any bytes.
#[test]
fn a_shrink_without_its_check_is_noticed() {
    let grown = one_record_at(GROWN);
    let accepts = |state, area: &[u8], answer: Answer| {
        checked_first(Call::Shrink, state, area, &[], &answer).is_ok()
    };
    let refused = |refusal, read| Answer::refused(GROWN, refusal, read);
    assert!(accepts(GROWN, &grown, SHRUNK));
    assert!(!accepts(GROWN, &grown, Answer { read: 1, ..SHRUNK }));
    assert!(!accepts(GROWN, &grown, refused(NOT_THE_IMAGE, 2)));
    assert!(!accepts(GROWN, &grown, refused(NOT_GROWN, 0)));
    assert!(!accepts(GROWN, &grown, refused(NO_ROOM, 2)));
    let mut broken = grown.clone();
    broken[256] ^= 1;
    assert!(accepts(GROWN, &broken, Answer::broken(GROWN, 1, 2)));
    assert!(!accepts(GROWN, &broken, Answer::broken(GROWN, 0, 1)));
    assert!(!accepts(GROWN, &broken, refused(NOT_THE_IMAGE, 2)));
    assert!(!accepts(GROWN, &broken, SHRUNK));
    // At its first size no page is judged, though both are broken.
    broken[0] ^= 1;
    let right = Answer::refused(STATE, NOT_GROWN, 0);
    assert!(accepts(STATE, &broken, right));
    assert!(!accepts(STATE, &broken, Answer { read: 2, ..right }));
    assert!(!accepts(STATE, &broken, Answer::broken(STATE, 0, 1)));
}

/// Behind its check a growth may be refused with 7 and with nothing else, and a
/// shrink with nothing at all.
#[test]
fn only_a_growth_may_find_no_room() {
    let allowed = |asked, state, area: &[u8]| -> Vec<u16> {
        let accepts = |&refusal: &u16| {
            let answer = Answer::refused(state, refusal, 2);
            checked_first(asked, state, area, &[0; 2], &answer).is_ok()
        };
        (1..=20).filter(accepts).collect()
    };
    assert_eq!(allowed(Call::Grow, STATE, &one_record()), [NO_ROOM]);
    assert_eq!(allowed(Call::Shrink, GROWN, &one_record_at(GROWN)), []);
}

/// A shrink is held against the image that the records have at the smaller
/// size, and isn't made of what is no image.
#[test]
fn a_shrink_that_leaves_other_bytes_is_noticed() {
    let grown = one_record_at(GROWN);
    let accepts = |state: State, after: &[u8], answer: Answer| {
        against_the_image(Call::Shrink, state, &grown, after, &[], &answer).is_ok()
    };
    assert!(accepts(GROWN, &one_record(), SHRUNK));
    assert!(!accepts(GROWN, &grown, SHRUNK));
    assert!(!accepts(
        GROWN,
        &one_record(),
        Answer { moved: 0, ..SHRUNK }
    ));
    assert!(!accepts(
        GROWN,
        &one_record(),
        Answer { value: 4, ..SHRUNK }
    ));
    let not_smaller = Answer {
        state: GROWN,
        ..SHRUNK
    };
    assert!(!accepts(GROWN, &one_record(), not_smaller));
    let no_room = Answer::refused(GROWN, NO_ROOM, 2);
    assert!(!accepts(GROWN, &grown, no_room));
    let two = State {
        records: 2,
        ..GROWN
    };
    assert!(!accepts(two, &one_record(), SHRUNK) && !accepts(two, &grown, no_room));
}

/// Both ways lead back to the same bytes, the same state and as many moves.
#[test]
fn a_wrong_way_back_is_noticed() {
    let (low, high) = (one_record(), one_record_at(GROWN));
    let leads_back = |asked, state, before: &[u8], after: &[u8], answer: Answer| {
        there_and_back(asked, state, before, after, &answer).is_ok()
    };
    let grew = Answer {
        state: GROWN,
        ..SHRUNK
    };
    let shrink = |after: &[u8], answer| leads_back(Call::Shrink, GROWN, &high, after, answer);
    let grow = |after: &[u8], answer| leads_back(Call::Grow, STATE, &low, after, answer);
    assert!(shrink(&low, SHRUNK) && grow(&high, grew));
    assert!(!shrink(&high, SHRUNK) && !grow(&low, grew));
    for (moved, read) in [(0, 2), (1, 1), (2, 2)] {
        assert!(!shrink(
            &low,
            Answer {
                moved,
                read,
                ..SHRUNK
            }
        ));
        assert!(!grow(
            &high,
            Answer {
                moved,
                read,
                ..grew
            }
        ));
    }
    let other = lay_out(STATE, &[Record { key: 3, value: 5 }]).unwrap_or_default();
    assert!(!shrink(&other, SHRUNK));
    // What is refused leads nowhere.
    assert!(grow(&low, Answer::refused(STATE, NO_ROOM, 2)));
}
