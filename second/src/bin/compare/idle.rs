//! The fields that no call looks at yet, filled with anything now and then.

use crate::random::Random;
use second::raw::{Case, COMPARE_KIND, LONGEST_STRING, MERGE_KIND, RUN_KIND};

/// One in so many cases has another number in a field, and other bytes in a
/// string.
const NUMBERS: u64 = 4;
const STRINGS: u64 = 6;

/// Fills idle fields of a case; the reply must be the same but for the room.
pub fn fill(random: &mut Random, case: &mut Case) {
    // Due, grow, check, shrink, a run and the calls on two files take no number
    // at all; format and put take two.
    let room_counts = [RUN_KIND, COMPARE_KIND].contains(&case.kind);
    let second_counts = room_counts || case.kind == MERGE_KIND;
    let no_number = second_counts || [256, 261, 262, 263].contains(&case.kind);
    if no_number && random.one_in(NUMBERS) {
        case.a = number(random);
    }
    if ![257, 258].contains(&case.kind) && random.one_in(NUMBERS) {
        case.b = number(random);
    }
    if random.one_in(NUMBERS) {
        case.c = number(random);
    }
    if !second_counts && random.one_in(STRINGS) {
        case.second = string(random, &case.area);
    }
    if !room_counts && random.one_in(STRINGS) {
        case.room = string(random, &case.area);
    }
}

/// A number: an edition or a run, right or wrong, or any other.
fn number(random: &mut Random) -> u64 {
    if random.one_in(2) {
        return random.pick(&[0, 1, 2, 65535, 65536, 1 << 32]);
    }
    random.value()
}

/// Mostly a few bytes; at times the area again, or as many as there may be.
fn string(random: &mut Random, area: &[u8]) -> Vec<u8> {
    let length = match random.index(40) {
        0 => LONGEST_STRING - random.index(2),
        1..=4 => return area.to_vec(),
        5..=7 => random.within(200, 600) as usize,
        _ => random.within(1, 30) as usize,
    };
    random.bytes(length)
}

#[cfg(test)]
mod tests {
    use super::*;

    /// The same cases with idle fields and without get the same replies, up
    /// to the room, and every idle field is filled for every kind.
    #[test]
    fn nothing_but_the_room_changes() {
        let mut random = Random::new(3, 0);
        let mut filled = std::collections::BTreeSet::new();
        for round in 0..2200 {
            let kind = 256 + (round % 11) as u16;
            let mut file = crate::files::image(&mut random);
            let plain = crate::cases::call_of(&mut random, &mut file, kind);
            let mut idle = plain.clone();
            fill(&mut random, &mut idle);
            let differ = [
                idle.a != plain.a,
                idle.b != plain.b,
                idle.c != plain.c,
                idle.second != plain.second,
                idle.room != plain.room,
            ];
            filled.extend((0..5).filter(|&at| differ[at]).map(|at| (kind, at)));
            assert!(second::raw::Case::parse(&idle.record()) == Some(idle.clone()));
            let (same, room) = (idle.room == plain.room, idle.room.clone());
            let mut expected = reply(plain);
            if !same {
                expected = with_room(expected, &room);
            }
            assert_eq!(reply(idle), expected, "round {round}");
        }
        // All five for due, grow, check and shrink; a is asked of the others and
        // b of format and put, a run and a comparison are asked both strings and
        // a merge the first of them.
        assert_eq!(filled.len(), 11 * 5 - 4 - 2 - 2 * 2 - 1);
    }

    fn reply(mut case: Case) -> Vec<u8> {
        let answered = case.answer().expect("agrees with itself");
        answered.expect("a known kind").1
    }

    /// A reply with an empty room, given another one.
    fn with_room(mut reply: Vec<u8>, room: &[u8]) -> Vec<u8> {
        reply.truncate(reply.len() - 4);
        reply.extend((room.len() as u32).to_le_bytes());
        reply.extend(room);
        let length = reply.len() as u32;
        reply[..4].copy_from_slice(&length.to_le_bytes());
        reply
    }
}
