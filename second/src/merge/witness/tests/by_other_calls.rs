//! Each law about other calls by itself, with outcomes that it has to notice.

use super::*;

/// Outcomes of the merge of the two sets above that aren't right, all with
/// areas and states that pass their checks.
fn wrong_sets() -> Vec<Said> {
    let of = |pairs: &Pairs| {
        let (state, area) = file(STATE, pairs);
        Said {
            merged: Answer::accepted(state, 5).into(),
            area,
            ..Said::accepted()
        }
    };
    vec![
        of(LIVING),
        of(OTHER),
        of(&BOTH[1..]),
        of(&BOTH[..4]),
        of(&[BOTH, &[(11, 0)]].concat()),
        of(&[&BOTH[..4], &[(9, 1)]].concat()),
        of(&[&[(1, 2), (3, 5)], &BOTH[2..]].concat()),
    ]
}

#[test]
fn a_comparison_notices_other_sets_and_keys() {
    let holds = |said: &Said| said.made().as_compared().is_ok();
    assert!(holds(&Said::accepted()));
    for (number, wrong) in wrong_sets().iter().enumerate() {
        assert!(!holds(wrong), "set {number}");
    }
    let other = &[(7, 1), (5, 1), (3, 4)];
    let noticed = |key| !holds(&Said::clash(other, key));
    assert!(!noticed(5) && noticed(7) && noticed(3) && noticed(0));
    let overlooked = Said::right(LIVING, other, Answer::accepted(STATE, 5));
    assert!(!holds(&overlooked) && !holds(&Said::clash(OTHER, 5)));
}

#[test]
fn puts_notice_other_files_and_refusals() {
    let holds = |said: &Said| said.made().as_put_one_by_one().is_ok();
    assert!(holds(&Said::accepted()));
    for (number, wrong) in wrong_sets().iter().enumerate() {
        assert!(!holds(wrong), "set {number}");
    }
    let more = Said::accepted().with(|said| said.merged.answer.state.records = 6);
    assert!(!holds(&more));
    let refused = |refusal| Said::right(LIVING, OTHER, Answer::refused(STATE, refusal, 5));
    assert!(!holds(&refused(CLASH)) && !holds(&refused(NO_ROOM)));
    let clash = |refusal| Said::right(LIVING, &[(7, 1)], Answer::refused(STATE, refusal, 5));
    assert!(holds(&clash(CLASH)) && !holds(&clash(NO_ROOM)) && !holds(&clash(0)));
    let many: Vec<(u64, u64)> = (3..25).map(|key| (key, key + 1)).collect();
    let room = |last: usize, refusal| {
        let other = [&many[..last], &[(0, 0), (1, 0), (2, 0)]].concat();
        let said = Said::right(LIVING, &other, Answer::refused(STATE, refusal, 5));
        holds(&said)
    };
    // With the three below there are 25 of them, and 24 without the last.
    assert!(room(22, NO_ROOM) && !room(22, 0) && !room(22, CLASH));
    assert!(!room(21, NO_ROOM) && !room(21, CLASH));
}

/// Turned round, files of the same numbers come to the same bytes, and others
/// to the same set.
#[test]
fn the_other_way_round_notices_other_sets_and_bytes() {
    let holds = |said: &Said| said.made().other_way_round().is_ok();
    let alike = |said: &Said| {
        said.with(|said| {
            said.other = file(STATE, OTHER);
            said.merged.answer.read = 4;
        })
    };
    assert!(holds(&Said::accepted()) && holds(&alike(&Said::accepted())));
    for (number, wrong) in wrong_sets().iter().enumerate() {
        assert!(!holds(wrong) && !holds(&alike(wrong)), "set {number}");
    }
    // The records on the second page: the same set, but no image.
    let lifted = alike(&Said::accepted()).with(|said| {
        let (low, high) = said.area.split_at_mut(256);
        low.swap_with_slice(high);
    });
    assert!(!holds(&lifted));
    let counted = alike(&Said::accepted()).with(|said| said.row[0] = 6);
    assert!(!holds(&counted));
    let no_room = |said: Said| {
        said.with(|said| {
            said.merged.answer.refusal = NO_ROOM;
            said.merged.answer.state = said.living.0;
        })
    };
    assert!(!holds(&no_room(alike(&Said::accepted()))));
    let clash = |key| Said::clash(&[(7, 1), (5, 1)], key);
    assert!(holds(&clash(5)) && !holds(&clash(7)));
}

#[test]
fn once_more_notices_what_is_missing() {
    let holds = |said: &Said| said.made().once_more().is_ok();
    assert!(holds(&Said::accepted()));
    let wrong = wrong_sets();
    // What lacks a record of the other, or has it with another value.
    for number in [0, 2, 3, 5] {
        assert!(!holds(&wrong[number]), "set {number}");
    }
    let right = Said::accepted();
    assert!(!holds(&right.with(|said| said.row[1] = 1)));
    assert!(!holds(&right.with(|said| said.merged.answer.read = 4)));
    assert!(!holds(&right.with(|said| said.area[0] ^= 1)));
}
