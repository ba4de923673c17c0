//! Raw calls: records of a state, numbers and byte strings in, what is left
//! out.
//!
//! A record: length (4), kind (2), state (16), a, b, c (8 each); then area,
//! second, row and room, each with its length (4) in front. A reply: length
//! (4), 513 (2), refusal (2), page (2), value (8), run (4), read (4), moved
//! (4), file (2), taken (4), state (16), due (2); then area, row and room,
//! each with its length (4) in front. A state: n0, N, s, P, cap, edition (2
//! each), r (4). The second file of a comparison or a merge is the second
//! string: 16 bytes of its state, then its area.

use crate::answer::Answer;
use crate::bytes::{eight, four, number, two};
use crate::calls::Call;
use crate::commands::{lengths_of, parse};
use crate::differ::Compared;
use crate::log::Failure;
use crate::pay_run::pay_run;
use crate::state::State;
use crate::witness::witnessed;
use states::state_of;
pub use states::{state_bytes, STATE_BYTES};
use std::io::{Read, Write};

mod states;
mod two_files;

/// The bytes of a record before its strings.
pub const RECORD_HEAD: usize = 46;
/// The bytes of a reply before its strings.
pub const REPLY_HEAD: usize = 54;
/// The bytes in front of a string that tell its length.
pub const STRING_HEAD: usize = 4;
/// How many strings a record has.
pub const RECORD_STRINGS: usize = 4;
/// The most bytes a string may have.
pub const LONGEST_STRING: usize = 16_400;
/// The most counts a row may have.
pub const LONGEST_ROW: usize = LONGEST_STRING / COUNT_BYTES;
pub const DUE_KIND: u16 = 256;
pub const RUN_KIND: u16 = 264;
pub const COMPARE_KIND: u16 = 265;
pub const MERGE_KIND: u16 = 266;
/// The bytes of a count in a row.
const COUNT_BYTES: usize = 4;

/// One raw call with all that it is given.
#[derive(Clone, Debug, PartialEq, Eq)]
pub struct Case {
    pub kind: u16,
    pub state: State,
    pub a: u64,
    pub b: u64,
    pub c: u64,
    pub area: Vec<u8>,
    /// The put records of a run, or the second file of a comparison or a merge;
    /// no other call looks at it.
    pub second: Vec<u8>,
    pub row: Vec<u32>,
    /// Where a run writes its replies and a comparison its list; from any other
    /// call it comes back as it came.
    pub room: Vec<u8>,
}

impl Default for Case {
    /// Asks for due of no file, with nothing in the fields that no call looks
    /// at.
    fn default() -> Case {
        Case {
            kind: DUE_KIND,
            state: State::default(),
            a: 0,
            b: 0,
            c: 0,
            area: Vec::new(),
            second: Vec::new(),
            row: Vec::new(),
            room: Vec::new(),
        }
    }
}

impl Case {
    /// The call of this kind, None where there is none: a run is no single
    /// call, a comparison and a merge are none on one file, and other kinds are
    /// unknown.
    pub fn call(&self) -> Option<Call> {
        let body = [self.a.to_le_bytes(), self.b.to_le_bytes()].concat();
        match self.kind {
            DUE_KIND => Some(Call::Due),
            // The log's commands have the same kinds and the same numbers, a
            // format's edition with eight bytes.
            kind => (!lengths_of(kind).is_empty()).then(|| parse(kind, &body)),
        }
    }

    /// Whether there is something to answer. A comparison or a merge without a
    /// whole state of its second file is no record, as with an unknown kind.
    fn known(&self) -> bool {
        match self.kind {
            RUN_KIND => true,
            COMPARE_KIND | MERGE_KIND => self.second_file().is_some(),
            _ => self.call().is_some(),
        }
    }

    /// The record that asks for this call.
    pub fn record(&self) -> Vec<u8> {
        let row = row_bytes(&self.row);
        self.record_with([&self.area, &self.second, &row, &self.room])
    }

    /// The record with these strings in place of its own, whatever they are.
    pub fn record_with(&self, strings: [&[u8]; RECORD_STRINGS]) -> Vec<u8> {
        let mut bytes = vec![0; 4];
        bytes.extend(self.kind.to_le_bytes());
        bytes.extend(state_bytes(self.state));
        for number in [self.a, self.b, self.c] {
            bytes.extend(number.to_le_bytes());
        }
        with_strings(bytes, &strings)
    }

    /// Where in its record the length of each string stands.
    pub fn string_heads(&self) -> [usize; RECORD_STRINGS] {
        let second = RECORD_HEAD + STRING_HEAD + self.area.len();
        let row = second + STRING_HEAD + self.second.len();
        let room = row + STRING_HEAD + COUNT_BYTES * self.row.len();
        [RECORD_HEAD, second, row, room]
    }

    /// Reads a record back from its bytes; None where it isn't one.
    pub fn parse(bytes: &[u8]) -> Option<Case> {
        let (head, mut rest) = bytes.split_at_checked(RECORD_HEAD)?;
        let area = take_string(&mut rest)?.to_vec();
        let second = take_string(&mut rest)?.to_vec();
        let row = take_string(&mut rest)?.chunks_exact(COUNT_BYTES);
        let room = take_string(&mut rest)?.to_vec();
        let adds_up = four(head, 0) as usize == bytes.len() && rest.is_empty();
        if !adds_up || !row.remainder().is_empty() {
            return None;
        }
        let case = Case {
            kind: two(head, 4),
            state: state_of(&head[6..]),
            a: eight(head, 22),
            b: eight(head, 30),
            c: eight(head, 38),
            area,
            second,
            row: row.map(|count| number(count) as u32).collect(),
            room,
        };
        case.known().then_some(case)
    }

    /// Makes the call, leaving area, row, room and state as they are after it,
    /// and gives the bytes of the reply. What is no record has none.
    pub fn answer(&mut self) -> Result<Option<(Answer, Vec<u8>)>, String> {
        let Some(told) = self.make()? else {
            return Ok(None);
        };
        self.state = told.answer.state;
        Ok(Some((told.answer, self.reply(&told))))
    }

    fn make(&mut self) -> Result<Option<Compared>, String> {
        let made = match (self.kind, self.call()) {
            (COMPARE_KIND, _) => return self.compare(),
            (MERGE_KIND, _) => return self.merge(),
            (RUN_KIND, _) => pay_run(self.state, &mut self.area, &self.second, &mut self.room),
            (_, Some(call)) => witnessed(call, self.state, &mut self.area, &mut self.row),
            _ => return Ok(None),
        };
        made.map(|answer| Some(answer.into()))
    }

    /// The reply that tells this, once all else is as the call left it.
    fn reply(&self, told: &Compared) -> Vec<u8> {
        let Compared {
            answer,
            file,
            taken,
        } = told;
        // No call tells a run yet.
        let run = 0u32;
        let mut bytes = vec![0; 4];
        answer.push_start(&mut bytes);
        bytes.extend(run.to_le_bytes());
        bytes.extend(answer.read.to_le_bytes());
        bytes.extend(answer.moved.to_le_bytes());
        bytes.extend(file.to_le_bytes());
        bytes.extend(taken.to_le_bytes());
        bytes.extend(state_bytes(self.state));
        bytes.extend(u16::from(self.state.due()).to_le_bytes());
        with_strings(bytes, &[&self.area, &row_bytes(&self.row), &self.room])
    }
}

fn row_bytes(row: &[u32]) -> Vec<u8> {
    row.iter().flat_map(|count| count.to_le_bytes()).collect()
}

/// Puts strings behind a head and the length of it all to its start, where
/// the head has left four bytes for it.
fn with_strings(mut bytes: Vec<u8>, strings: &[&[u8]]) -> Vec<u8> {
    for string in strings {
        bytes.extend((string.len() as u32).to_le_bytes());
        bytes.extend(*string);
    }
    let length = bytes.len() as u32;
    bytes[..4].copy_from_slice(&length.to_le_bytes());
    bytes
}

/// Takes a string with its length off the front; None where it is too long or
/// not all there.
fn take_string<'a>(bytes: &mut &'a [u8]) -> Option<&'a [u8]> {
    let (head, rest) = bytes.split_at_checked(STRING_HEAD)?;
    let length = number(head) as usize;
    if length > LONGEST_STRING {
        return None;
    }
    let (string, rest) = rest.split_at_checked(length)?;
    *bytes = rest;
    Some(string)
}

/// Answers record after record until the input ends or one isn't a record.
pub fn run(input: &mut impl Read, output: &mut impl Write) -> Result<(), Failure> {
    while let Some(mut case) = next_case(input)? {
        if let Some((_, reply)) = case.answer().map_err(Failure::Mismatch)? {
            output.write_all(&reply)?;
        }
    }
    Ok(())
}

/// The next record, None at the end of the input and for what is no record.
fn next_case(input: &mut impl Read) -> std::io::Result<Option<Case>> {
    let shortest = RECORD_HEAD + RECORD_STRINGS * STRING_HEAD;
    let longest = shortest + RECORD_STRINGS * LONGEST_STRING;
    let mut bytes = Vec::new();
    input.by_ref().take(4).read_to_end(&mut bytes)?;
    let length = number(&bytes) as usize;
    if bytes.len() < 4 || !(shortest..=longest).contains(&length) {
        return Ok(None);
    }
    input
        .by_ref()
        .take(length as u64 - 4)
        .read_to_end(&mut bytes)?;
    Ok(Case::parse(&bytes))
}

#[cfg(test)]
mod tests;
