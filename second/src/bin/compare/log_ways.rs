//! What the formats of a log were like, and in which edition its commands were
//! accepted: rows of the table beside those of the commands.

use crate::editions::{accepted_row, wrong_alone, ALONE, FIRST, SECOND};
use crate::logs::{WRONG_FORMAT_LENGTHS, WRONG_SHRINK_LENGTHS};
use crate::show::nth_kind;
use crate::ways::Pair;
use second::answer::{BAD_RECORD, CUT_OFF, OUT_OF_RANGE};
use second::bytes::two;
use second::calls::Call;
use second::commands::{parse, FORMAT_KIND, HEAD_BYTES};

/// Refusals of formats that don't tell an edition, and of those that tell 1, 2
/// or another one.
pub const SHORT_FORMAT: u16 = 1040;
pub const LONG_FIRST: u16 = 1041;
pub const LONG_SECOND: u16 = 1042;
pub const LONG_OTHER: u16 = 1043;
/// Lengths that were wrong for a format.
pub const WRONG_LENGTH: u16 = 1044;
/// How many bytes there were of a format that would have told an edition.
pub const CUT_FORMAT: u16 = 1045;
/// Lengths that were wrong for a shrink.
pub const SHRINK_LENGTH: u16 = 1046;

/// The length of a format that tells its edition.
const LONG: u16 = 14;
const COMMANDS: &[u16] = &[257, 258, 259, 260, 261, 262, 263];

/// All that has to come of these rows and of those shared with raw calls.
pub const LOG_WAYS: [(u16, &[u16]); 10] = [
    (FIRST, COMMANDS),
    (SECOND, COMMANDS),
    (ALONE, &[257]),
    (SHORT_FORMAT, &[0, 1, 12]),
    (LONG_FIRST, &[0, 1, 12]),
    (LONG_SECOND, &[0, 1, 12]),
    (LONG_OTHER, &[1, 12]),
    (WRONG_LENGTH, WRONG_FORMAT_LENGTHS),
    (CUT_FORMAT, &[4, 5, 6, 7, 8, 9, 10, 11, 12, 13]),
    (SHRINK_LENGTH, WRONG_SHRINK_LENGTHS),
];

/// Goes through a log, to know of which edition the file is that each command
/// meets.
#[derive(Default)]
pub struct Follower {
    edition: u64,
}

impl Follower {
    /// The pairs that the next command counts for, given all that is left of
    /// the log and the refusal that the command got.
    pub fn pairs(&mut self, rest: &[u8], refusal: u16) -> Vec<Pair> {
        match (nth_kind(rest, 0), refusal) {
            (FORMAT_KIND, BAD_RECORD) => wrong_length(WRONG_LENGTH, rest, WRONG_FORMAT_LENGTHS),
            (263, BAD_RECORD) => wrong_length(SHRINK_LENGTH, rest, WRONG_SHRINK_LENGTHS),
            (FORMAT_KIND, CUT_OFF) if two(rest, 0) == LONG => {
                vec![(CUT_FORMAT, rest.len() as u16)]
            }
            (_, BAD_RECORD | CUT_OFF) => Vec::new(),
            (FORMAT_KIND, _) => self.format(&rest[..usize::from(two(rest, 0))], refusal),
            (kind, 0) => vec![self.accepted(kind)],
            _ => Vec::new(),
        }
    }

    fn accepted(&self, kind: u16) -> Pair {
        (accepted_row(self.edition as u16), kind)
    }

    fn format(&mut self, command: &[u8], refusal: u16) -> Vec<Pair> {
        let call = parse(FORMAT_KIND, &command[HEAD_BYTES..]);
        let Call::Format { edition, .. } = call else {
            return Vec::new();
        };
        let row = match edition {
            _ if command.len() < usize::from(LONG) => SHORT_FORMAT,
            1 => LONG_FIRST,
            2 => LONG_SECOND,
            _ => LONG_OTHER,
        };
        let mut pairs = vec![(row, refusal)];
        if refusal == OUT_OF_RANGE && wrong_alone(call).is_some() {
            pairs.push((ALONE, FORMAT_KIND));
        }
        if refusal == 0 {
            self.edition = edition;
            pairs.push(self.accepted(FORMAT_KIND));
        }
        pairs
    }
}

/// The wrong length of a command, where it is one of those that have to come.
fn wrong_length(row: u16, command: &[u8], have_to_come: &[u16]) -> Vec<Pair> {
    let length = two(command, 0);
    let told = have_to_come.contains(&length);
    told.then_some((row, length)).into_iter().collect()
}

#[cfg(test)]
mod tests {
    use super::*;
    use crate::session::{command, format};

    #[test]
    fn formats_are_told_apart() {
        let mut follower = Follower::default();
        let mut of = |numbers: &[u16], refusal| follower.pairs(&format(numbers), refusal);
        assert_eq!(of(&[1, 1, 1, 2], 0), [(SHORT_FORMAT, 0), (FIRST, 257)]);
        assert_eq!(of(&[1, 1, 1, 2, 1], 0), [(LONG_FIRST, 0), (FIRST, 257)]);
        assert_eq!(of(&[1, 1, 1, 2, 2], 0), [(LONG_SECOND, 0), (SECOND, 257)]);
        assert_eq!(of(&[1, 1, 1, 2, 3], 1), [(LONG_OTHER, 1), (ALONE, 257)]);
        assert_eq!(of(&[1, 1, 9, 2, 3], 1), [(LONG_OTHER, 1)]);
        assert_eq!(of(&[1, 1, 9, 2, 2], 1), [(LONG_SECOND, 1)]);
        assert_eq!(of(&[1, 1, 1, 129, 3], 12), [(LONG_OTHER, 12)]);
    }

    /// Only an accepted format gives the file another edition.
    #[test]
    fn commands_count_for_the_edition_they_meet() {
        let mut follower = Follower::default();
        let check = command(262, &[]);
        assert_eq!(follower.pairs(&check, 1), []);
        for (numbers, refusal, row) in [
            ([1, 1, 1, 2, 2], 0, SECOND),
            ([1, 1, 1, 2, 1], 1, SECOND),
            ([1, 1, 1, 2, 1], 0, FIRST),
            ([1, 1, 1, 2, 2], 12, FIRST),
        ] {
            follower.pairs(&format(&numbers), refusal);
            assert_eq!(follower.pairs(&check, 0), [(row, 262)]);
        }
    }

    #[test]
    fn wrong_lengths_and_cuts_are_told() {
        let mut follower = Follower::default();
        for (length, told) in [(13, true), (15, true), (17, false)] {
            let head = [length, 0, 1, 1, 1, 0];
            let expected = [(WRONG_LENGTH, u16::from(length))];
            assert_eq!(follower.pairs(&head, 10) == expected, told);
        }
        for (length, told) in [(3, true), (12, true), (17, false)] {
            let head = [length, 0, 7, 1];
            let expected = [(SHRINK_LENGTH, u16::from(length))];
            assert_eq!(follower.pairs(&head, 10) == expected, told);
        }
        let long = format(&[1, 1, 1, 2, 2]);
        for cut in 4..14 {
            let pairs = follower.pairs(&long[..cut], 11);
            assert_eq!(pairs, [(CUT_FORMAT, cut as u16)]);
        }
        assert_eq!(follower.pairs(&long[..3], 11), []);
        assert_eq!(follower.pairs(&format(&[1, 1, 1, 2])[..11], 11), []);
    }
}
