use super::*;
use crate::test_files::{file, records, Pairs, STATE};

mod by_other_calls;

/// The other file is lent three pages.
const OTHER_STATE: State = State { cap: 3, ..STATE };

/// What the row holds before a merge, for as many counts as it has.
const NINES: [u32; 3] = [9; 3];

const LIVING: &Pairs = &[(3, 4), (5, 6), (7, 8)];
const OTHER: &Pairs = &[(5, 6), (9, 0), (1, 2)];
const BOTH: &Pairs = &[(1, 2), (3, 4), (5, 6), (7, 8), (9, 0)];

/// A merge that is said to have come to something: the two files, the answer,
/// the area and the row that it left.
#[derive(Clone)]
struct Said {
    living: (State, Vec<u8>),
    other: (State, Vec<u8>),
    merged: Merged,
    area: Vec<u8>,
    row: Vec<u32>,
}

impl Said {
    /// What is right for these two sets, as the tests know it.
    fn right(living: &Pairs, other: &Pairs, answer: Answer) -> Said {
        let living = file(STATE, living);
        Said {
            other: file(OTHER_STATE, other),
            merged: Answer {
                state: living.0,
                ..answer
            }
            .into(),
            area: living.1.clone(),
            living,
            row: vec![9; 2],
        }
    }

    /// The accepted merge of the two sets above.
    fn accepted() -> Said {
        let (state, area) = file(STATE, BOTH);
        Said {
            merged: Answer::accepted(state, 5).into(),
            area,
            row: vec![5, 0],
            ..Said::right(LIVING, OTHER, Answer::accepted(STATE, 5))
        }
    }

    /// The refusal with this key where the other file has these records.
    fn clash(other: &Pairs, key: u64) -> Said {
        let answer = Answer {
            value: key,
            ..Answer::refused(STATE, CLASH, 5)
        };
        Said::right(LIVING, other, answer)
    }

    fn with(&self, change: impl Fn(&mut Said)) -> Said {
        let mut changed = self.clone();
        change(&mut changed);
        changed
    }

    fn made(&self) -> Made<'_> {
        Made {
            living: Site {
                state: self.living.0,
                area: &self.living.1,
            },
            other: Site {
                state: self.other.0,
                area: &self.other.1,
            },
            row_before: &NINES[..self.row.len()],
            merged: self.merged,
            area: &self.area,
            row: &self.row,
        }
    }

    fn allowed(&self) -> bool {
        self.made().judged().is_ok()
    }
}

#[test]
fn only_one_accepted_outcome_is_allowed() {
    let right = Said::accepted();
    assert!(right.allowed());
    let wrong: [fn(&mut Said); 11] = [
        |said| said.merged.file = 1,
        |said| said.merged.answer.page = 1,
        |said| said.merged.answer.value = 5,
        |said| said.merged.answer.moved = 1,
        |said| said.merged.answer.read = 2,
        |said| said.merged.answer.state.records = 6,
        |said| said.merged.answer.state.cap = 3,
        |said| said.row = vec![6, 0],
        |said| said.row = vec![5, 9],
        |said| said.row = vec![9, 9],
        |said| said.area.clone_from(&said.living.1),
    ];
    for (number, change) in wrong.into_iter().enumerate() {
        assert!(!right.with(change).allowed(), "change {number}");
    }
    for at in 0..512 {
        assert!(
            !right.with(|said| said.area[at] ^= 1).allowed(),
            "byte {at}"
        );
    }
    for refusal in 1..=16 {
        let refused = Said::right(LIVING, OTHER, Answer::refused(STATE, refusal, 5));
        let counted = refused.with(|said| said.row = vec![5, 0]);
        assert!(!refused.allowed() && !counted.allowed(), "{refusal}");
    }
}

/// Keys 5 and 7 clash: 5 is told, and nothing is written.
#[test]
fn only_the_lowest_clash_is_allowed() {
    let other = &[(7, 1), (5, 1), (3, 4), (1, 1)];
    let allowed = |key| Said::clash(other, key).allowed();
    let keys: Vec<u64> = (0..100).filter(|&key| allowed(key)).collect();
    assert_eq!(keys, [5]);
    let right = Said::clash(other, 5);
    let wrong: [fn(&mut Said); 5] = [
        |said| said.row[0] = 6,
        |said| said.area[271] ^= 1,
        |said| said.merged.answer.read = 2,
        |said| said.merged.answer.refusal = NO_ROOM,
        |said| said.merged.file = 2,
    ];
    for (number, change) in wrong.into_iter().enumerate() {
        assert!(!right.with(change).allowed(), "change {number}");
    }
    // Without a clash no key may be told.
    assert!((0..10).all(|key| !Said::clash(OTHER, key).allowed()));
}

/// 24 records have room and 25 don't; the row counts them all the same.
#[test]
fn no_room_is_allowed_exactly_where_there_is_none() {
    let keys =
        |keys: std::ops::Range<u64>| -> Vec<(u64, u64)> { keys.map(|key| (key, 0)).collect() };
    let refused = |last| {
        let (living, other) = (keys(0..20), keys(10..last));
        let said = Said::right(&living, &other, Answer::refused(STATE, NO_ROOM, 5));
        said.with(|said| said.row = vec![last as u32, 0])
    };
    assert!(!refused(24).allowed() && refused(25).allowed());
    assert!(!refused(25).with(|said| said.row = vec![9; 2]).allowed());
    assert!(!refused(25).with(|said| said.row[1] = 1).allowed());
    assert!(!refused(25)
        .with(|said| said.merged.answer.state.records = 25)
        .allowed());
}

/// The first cause there is may be told and no other, with the file that it is
/// about.
#[test]
fn refusals_are_allowed_in_their_order() {
    let told = |said: &Said| -> Vec<(u16, u16, u32)> {
        let mut allowed = Vec::new();
        for (refusal, file) in (1..=15).flat_map(|refusal| (0..3).map(move |file| (refusal, file)))
        {
            for read in 0..=5 {
                let mut said = said.clone();
                let state = said.living.0;
                let answer = Answer::refused(state, refusal, read as usize);
                said.merged = Merged { answer, file };
                allowed.extend(said.allowed().then_some((refusal, file, read)));
            }
        }
        allowed
    };
    let mut said = Said::right(LIVING, OTHER, Answer::accepted(STATE, 5));
    assert_eq!(told(&said), []);
    said.other.0.records = 2;
    assert_eq!(told(&said), [(NOT_THE_IMAGE, 2, 5)]);
    said.other.1[0] ^= 1;
    assert_eq!(told(&said), [(BROKEN, 2, 3)]);
    said.other.1.push(0);
    assert_eq!(told(&said), [(WRONG_AREA, 2, 0)]);
    said.other.0.edition = 0;
    assert_eq!(told(&said), [(OUT_OF_RANGE, 2, 0)]);
    said.living.0.records = 2;
    assert_eq!(told(&said), [(NOT_THE_IMAGE, 1, 2)]);
    said.living.1[0] ^= 1;
    said.area[0] ^= 1;
    assert_eq!(told(&said), [(BROKEN, 1, 1)]);
    said.row.push(9);
    assert_eq!(told(&said), [(WRONG_ROW, 1, 0)]);
    said.living.1.push(0);
    said.area.push(0);
    assert_eq!(told(&said), [(WRONG_AREA, 1, 0)]);
    said.living.0.n0 = 0;
    assert_eq!(told(&said), [(OUT_OF_RANGE, 1, 0)]);
}

/// An empty file may change neither a page nor the state; the row it may.
#[test]
fn an_empty_file_adds_nothing() {
    let right = Said::right(LIVING, &[], Answer::accepted(STATE, 5));
    let counted = right.with(|said| said.row = vec![3, 0]);
    assert!(counted.allowed() && !right.allowed());
    let kept = |said: &Said| said.made().kept_what_it_should().is_ok();
    assert!(kept(&counted));
    assert!(!kept(&counted.with(|said| said.area[16] ^= 1)));
    assert!(!kept(
        &counted.with(|said| said.merged.answer.state.records = 4)
    ));
}

#[test]
fn sets_are_put_together() {
    let [one, two] = [LIVING, OTHER].map(records);
    assert_eq!(clashing(&one, &two), []);
    assert_eq!(in_either(&one, &two).len(), 5);
    let other = records(&[(7, 9), (3, 4), (5, 5), (4, 6)]);
    assert_eq!(clashing(&one, &other), [5, 7]);
    assert_eq!(clashing(&other, &one), [7, 5]);
    let grown = State { pages: 2, ..STATE };
    // At two pages all of these live on page 1.
    assert_eq!(homes_counted(grown, &one), [0, 3]);
    assert_eq!(homes_counted(STATE, &one), [3, 0]);
    let second = State {
        edition: 2,
        ..grown
    };
    // In edition 2 keys 5 and 7 live on page 1, and 3 doesn't.
    assert_eq!(homes_counted(second, &one), [1, 2]);
}
