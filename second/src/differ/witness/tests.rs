use super::*;
use crate::answer::NOT_THE_IMAGE;
use crate::test_files::{file, records, Pairs, STATE};

const ONE: &Pairs = &[(3, 4), (5, 6), (7, 8)];
const TWO: &Pairs = &[(5, 6), (7, 9), (8, 1)];

const GONE: Difference = Difference::OnlyFirst(Record { key: 3, value: 4 });
const COME: Difference = Difference::OnlySecond(Record { key: 8, value: 1 });
const CHANGED: Difference = two_values(8, 9);

/// Key 7 with these two values.
const fn two_values(first: u64, second: u64) -> Difference {
    let key = 7;
    Difference::TwoValues { key, first, second }
}

#[test]
fn wrong_lists_are_noticed() {
    let right = |list: &[Difference]| leads_over(list, &records(ONE), &records(TWO)).is_ok();
    assert!(right(&[GONE, CHANGED, COME]));
    for wrong in [
        &[][..],
        &[GONE, CHANGED],
        &[GONE, COME],
        &[CHANGED, COME],
        &[GONE, COME, CHANGED],
        &[CHANGED, GONE, COME],
        &[GONE, GONE, CHANGED, COME],
        &[GONE, CHANGED, COME, COME],
        &[GONE, two_values(9, 8), COME],
        &[GONE, two_values(8, 8), COME],
        &[GONE, two_values(8, 1), COME],
    ] {
        assert!(!right(wrong), "{wrong:?}");
    }
    // What is the same in both is no difference, nor is a record the other
    // file's because its key is.
    let only = |key, value| Difference::OnlyFirst(Record { key, value });
    let also = |key, value| Difference::OnlySecond(Record { key, value });
    let same = Difference::TwoValues {
        key: 5,
        first: 6,
        second: 6,
    };
    assert!(!right(&[GONE, same, CHANGED, COME]));
    assert!(!right(&[only(3, 5), CHANGED, COME]));
    assert!(!right(&[GONE, CHANGED, also(8, 2)]));
    assert!(!right(&[GONE, only(5, 6), CHANGED, COME]));
    assert!(!right(&[GONE, also(7, 9), COME]));
}

#[test]
fn the_length_is_that_of_what_differs() {
    let length = |one, two| whole_length(&records(one), &records(two));
    assert_eq!(length(ONE, TWO), 20 + 28 + 20 + 16);
    assert_eq!((length(ONE, ONE), length(&[], &[])), (16, 16));
    assert_eq!((length(ONE, &[]), length(&[], TWO)), (76, 76));
    assert_eq!(length(&[(1, 2), (3, 4)], &[(1, 4), (3, 2)]), 72);
}

/// Room written where it may not be, or more told than was written.
#[test]
fn a_room_that_isnt_kept_is_noticed() {
    let accepted = |taken| Compared {
        taken,
        ..Answer::accepted(STATE, 4).into()
    };
    let refused: Compared = Answer::refused(STATE, WRONG_ROOM, 4).into();
    let kept = |compared: Compared, room: [u8; 3]| room_kept(&compared, &[1, 2, 3], &room).is_ok();
    assert!(kept(accepted(2), [9, 9, 3]) && kept(accepted(3), [9, 9, 9]));
    assert!(!kept(accepted(2), [9, 9, 9]) && !kept(accepted(4), [1, 2, 3]));
    assert!(kept(refused, [1, 2, 3]) && !kept(refused, [9, 2, 3]));
    assert!(!kept(
        Compared {
            taken: 1,
            ..refused
        },
        [1, 2, 3]
    ));
}

/// The answers that are allowed for two right files and a room of this length.
fn allowed(room: &[u8], compared: Compared) -> bool {
    let ((one, one_area), (two, two_area)) = (file(STATE, ONE), file(STATE, TWO));
    let first = Site {
        state: one,
        area: &one_area,
    };
    let second = Site {
        state: two,
        area: &two_area,
    };
    against_the_sets(first, second, room, &compared).is_ok()
}

#[test]
fn only_one_answer_is_allowed() {
    let (state, area) = file(STATE, ONE);
    let (other, other_area) = file(STATE, TWO);
    let site = |state, area| Site { state, area };
    let mut room = vec![0; 90];
    let right = differ(site(state, &area), site(other, &other_area), &mut room);
    assert_eq!(
        (right.answer, right.taken),
        (Answer::accepted(state, 4), 84)
    );
    assert!(allowed(&room, right) && !allowed(&room[..83], right));
    let short: Compared = Answer::refused(state, WRONG_ROOM, 4).into();
    assert!(allowed(&room[..83], short) && !allowed(&room[..84], short));
    let told = |read, state| Compared {
        answer: Answer::accepted(state, read),
        ..right
    };
    assert!(allowed(&room, told(4, state)));
    assert!(!allowed(&room, told(3, state)) && !allowed(&room, told(4, STATE)));
    assert!(!allowed(&room, Compared { file: 1, ..right }));
    assert!(!allowed(&room, Compared { taken: 85, ..right }));
    let no_image: Compared = Answer::refused(state, NOT_THE_IMAGE, 4).into();
    assert!(!allowed(&room, no_image));
    for at in 0..84 {
        let mut wrong = room.clone();
        wrong[at] ^= 1;
        assert!(!allowed(&wrong, right), "byte {at}");
    }
}
