use super::*;
use crate::comparison_ways::COMPARISON_PAIRS;
use crate::fault_ways::FAULT_PAIRS;
use crate::list_ways::LIST_PAIRS;
use crate::sink::Asked;
use second::bytes::{four, two};
use second::raw::COMPARE_KIND;

/// So many scenes, and what was asked in them.
fn asked(seed: u64, scenes: u64) -> Sink {
    let mut sink = Sink::new(seed, 1 << 20);
    for piece in 0..scenes {
        let made = comparisons(&mut Random::new(seed, piece), &mut sink);
        assert_eq!(made, Ok(()));
    }
    sink
}

/// The scenes alone bring all that has to come of comparisons.
#[test]
fn every_way_comes() {
    let sink = asked(12, 200);
    let ways = [&LIST_PAIRS[..], &COMPARISON_PAIRS, &FAULT_PAIRS].concat();
    assert_eq!(sink.table.missing(&ways), []);
    let refusals: [(u16, &[u16]); 1] = [(COMPARE_KIND, &[0, 1, 2, 4, 9, 15])];
    assert_eq!(sink.table.missing(&refusals), []);
}

/// The list that a reply brings, where the comparison was accepted.
fn list(asked: &Asked) -> Option<Vec<u8>> {
    let room = Case::parse(&asked.record)?.room.len();
    let room = &asked.reply[asked.reply.len() - room..];
    let taken = four(&asked.reply, 32) as usize;
    (two(&asked.reply, 6) == 0).then(|| room[..taken].to_vec())
}

/// The numbers of differences that a list ends with.
fn counts(list: &[u8]) -> [u32; 3] {
    let closing = &list[list.len() - 12..];
    [0, 4, 8].map(|at| four(closing, at))
}

/// Asked the other way round, the first two counts are exchanged and the list
/// is as long as before.
#[test]
fn lists_are_mirrored_the_other_way_round() {
    let sink = asked(13, 150);
    let mut turned = 0;
    for pair in sink.asked.windows(2) {
        let is_swapped = |asked: &Asked| {
            let row = crate::comparison_ways::SWAPPED;
            asked.pairs.iter().any(|(known, _)| *known == row)
        };
        if !is_swapped(&pair[1]) {
            continue;
        }
        if let [Some(there), Some(back)] = [&pair[0], &pair[1]].map(list) {
            let [first, second, both] = counts(&there);
            assert_eq!(counts(&back), [second, first, both]);
            assert_eq!(there.len(), back.len());
            turned += 1;
        }
    }
    assert!(turned >= 100, "{turned}");
}

/// Nothing is lost of the row, the area and the state, whatever is wrong.
#[test]
fn comparisons_change_nothing_but_the_room() {
    let sink = asked(14, 40);
    for asked in sink.asked.iter().filter(|asked| asked.kind == COMPARE_KIND) {
        let before = Case::parse(&asked.record).expect("a record");
        let mut after = before.clone();
        let answered = after.answer().expect("agrees with itself");
        assert!(answered.is_some());
        if two(&asked.reply, 6) == 0 {
            after.room.clone_from(&before.room);
        }
        assert_eq!(after, before);
    }
}
