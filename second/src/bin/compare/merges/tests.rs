use super::*;
use crate::merge_ways::MERGE_PAIRS;
use crate::sink::Asked;
use second::bytes::two;
use second::image::standing;
use second::raw::Case;
use std::collections::BTreeSet;

/// So many scenes, and what was asked in them.
fn asked(seed: u64, scenes: u64) -> Sink {
    let mut sink = Sink::new(seed, 1 << 20);
    for piece in 0..scenes {
        let made = merges(&mut Random::new(seed, piece), &mut sink);
        assert_eq!(made, Ok(()));
    }
    sink
}

/// The scenes alone bring all that has to come of merges.
#[test]
fn every_way_comes() {
    let sink = asked(15, 240);
    assert_eq!(sink.table.missing(&MERGE_PAIRS), []);
    let refusals: [(u16, &[u16]); 1] = [(MERGE_KIND, &[0, 1, 2, 3, 4, 7, 9, 13])];
    assert_eq!(sink.table.missing(&refusals), []);
}

/// The case that was asked, and what it became.
fn around(asked: &Asked) -> (Case, Case) {
    let before = Case::parse(&asked.record).expect("a record");
    let mut after = before.clone();
    let answered = after.answer().expect("agrees with itself");
    assert!(answered.is_some());
    (before, after)
}

/// Refused merges leave all as it was, but for the row where there is no room;
/// accepted ones leave the other file and the room.
#[test]
fn merges_change_nothing_but_what_they_should() {
    let sink = asked(16, 40);
    for asked in sink.asked.iter().filter(|asked| asked.kind == MERGE_KIND) {
        let (mut before, after) = around(asked);
        match two(&asked.reply, 6) {
            0 => {
                before.area.clone_from(&after.area);
                before.row.clone_from(&after.row);
                before.state.records = after.state.records;
            }
            7 => before.row.clone_from(&after.row),
            _ => {}
        }
        assert_eq!(after, before);
    }
}

/// The kind and the refusal of a call that comes right behind an accepted merge
/// and asks for a key that it brought in.
fn after_a_merge(pair: &[Asked]) -> Option<(u16, u16)> {
    let [merge, next] = pair else {
        return None;
    };
    let for_a_key = (258..=260).contains(&next.kind);
    if !for_a_key || merge.kind != MERGE_KIND || two(&merge.reply, 6) != 0 {
        return None;
    }
    let (before, after) = around(merge);
    let next_case = Case::parse(&next.record).expect("a record");
    let holds = |area: &[u8]| {
        let mut records = standing(area).into_iter();
        records.any(|(_, record)| record.key == next_case.a)
    };
    let follows = next_case.area == after.area && next_case.state == after.state;
    let brought_in = !holds(&before.area) && holds(&after.area);
    (follows && brought_in).then(|| (next.kind, two(&next.reply, 6)))
}

/// "After an accepted merge the records it added count as put": they are put
/// again with their value and another, found and removed.
#[test]
fn calls_meet_what_a_merge_left() {
    let sink = asked(17, 250);
    let met: BTreeSet<(u16, u16)> = sink.asked.windows(2).filter_map(after_a_merge).collect();
    for pair in [(258, 6), (258, 13), (259, 0), (260, 0)] {
        assert!(met.contains(&pair), "{pair:?} in {met:?}");
    }
}
