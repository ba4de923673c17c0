use super::*;
use crate::answer::NOT_THE_IMAGE;
use crate::test_files;

mod shrinks;

const STATE: State = State {
    records: 1,
    ..test_files::STATE
};

/// The image of key 3 with value 4.
fn one_record() -> Vec<u8> {
    one_record_at(STATE)
}

/// The same at the size of this state: at two pages it lies on page 1.
fn one_record_at(state: State) -> Vec<u8> {
    lay_out(state, &[Record { key: 3, value: 4 }]).unwrap_or_default()
}

#[test]
fn a_check_of_an_image_and_of_none() {
    let mut area = one_record();
    let yes = witnessed(Call::Check, STATE, &mut area, &mut []);
    assert_eq!(yes.map(|answer| answer.refusal), Ok(0));
    let two = State {
        records: 2,
        ..STATE
    };
    let no = witnessed(Call::Check, two, &mut area, &mut []);
    assert_eq!(no.map(|answer| answer.refusal), Ok(NOT_THE_IMAGE));
}

#[test]
fn a_repeat_and_a_clash_are_expected() {
    for (value, refusal) in [(4, REPEAT), (5, CLASH), (0, CLASH)] {
        let put = Call::Put { key: 3, value };
        let answer = witnessed(put, STATE, &mut one_record(), &mut []);
        assert_eq!(
            answer.map(|told| (told.refusal, told.value)),
            Ok((refusal, 4))
        );
    }
}

/// A format of one page that asks for this edition.
fn format(edition: u64) -> Call {
    Call::Format {
        n0: 1,
        groups: 1,
        sweeps: 1,
        cap: 1,
        edition,
    }
}

/// Editions lost, made up or let through are noticed.
#[test]
fn wrongly_told_editions_are_noticed() {
    let of = |edition| State { edition, ..STATE };
    let accepts = |asked, before: u16, after: u16| {
        let answer = Answer::accepted(of(after), 0);
        edition_told_rightly(asked, of(before), &answer).is_ok()
    };
    assert!(accepts(format(2), 0, 2) && accepts(format(1), 2, 1));
    assert!(!accepts(format(2), 2, 1) && !accepts(format(65537), 1, 1));
    assert!(!accepts(format(3), 3, 3) && !accepts(format(0), 0, 0));
    assert!(accepts(Call::Check, 2, 2) && accepts(Call::Due, 3, 3));
    assert!(!accepts(Call::Check, 2, 1) && !accepts(Call::Check, 3, 3));
    assert!(!accepts(Call::Due, 2, 1) && !accepts(Call::Grow, 0, 0));
}

/// Every call but due refuses an edition that there isn't, whatever else
/// is wrong, and a format looks at none but the one it asks for.
#[test]
fn the_edition_alone_is_refused() {
    let (key, value) = (3, 4);
    let calls = [
        Call::Put { key, value },
        Call::Find { key },
        Call::Remove { key },
        Call::Grow,
        Call::Check,
        Call::Shrink,
    ];
    for edition in [0, 3, 258, 65535] {
        let state = State { edition, ..STATE };
        for (call, length) in calls.into_iter().flat_map(|call| [(call, 512), (call, 9)]) {
            let mut area = one_record();
            area.truncate(length);
            let answer = witnessed(call, state, &mut area, &mut []);
            assert_eq!(answer, Ok(Answer::refused(state, 1, 0)), "{call:?}");
        }
        let due = witnessed(Call::Due, state, &mut [], &mut []);
        assert_eq!(due, Ok(Answer::accepted(state, 0)));
        let refused = witnessed(format(u64::from(edition)), STATE, &mut [0; 256], &mut []);
        assert_eq!(refused, Ok(Answer::refused(STATE, 1, 0)));
        let made = witnessed(format(2), state, &mut [0; 256], &mut []);
        assert_eq!(made.map(|answer| answer.state), Ok(second_of_one_page()));
    }
}

/// What an accepted format of edition 2 and one page leaves.
fn second_of_one_page() -> State {
    State {
        cap: 1,
        edition: 2,
        records: 0,
        ..STATE
    }
}

/// Answers that tell another value, mix the two up or come from another
/// call are noticed on any bytes.
#[test]
fn wrongly_told_values_are_noticed() {
    let put = |value| Call::Put { key: 3, value };
    let accepts = |asked, refusal, value| {
        let answer = Answer {
            value,
            ..Answer::refused(STATE, refusal, 1)
        };
        held_told_rightly(asked, &answer, &one_record()).is_ok()
    };
    assert!(accepts(put(4), REPEAT, 4) && accepts(put(5), CLASH, 4));
    assert!(!accepts(put(4), CLASH, 4) && !accepts(put(5), REPEAT, 4));
    assert!(!accepts(put(5), CLASH, 5) && !accepts(put(5), CLASH, 0));
    assert!(!accepts(put(5), REPEAT, 5));
    assert!(!accepts(Call::Find { key: 3 }, REPEAT, 4));
    assert!(!accepts(Call::Put { key: 2, value: 5 }, CLASH, 4));
}
