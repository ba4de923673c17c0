//! The log program: commands in, one reply each, at most 128 pages.

use crate::answer::{Answer, BAD_RECORD, CUT_OFF, TOO_MANY_PAGES};
use crate::calls::Call;
use crate::commands::{parse, read_head, reply, HEAD_BYTES};
use crate::page::PAGE_BYTES;
use crate::state::State;
use crate::witness::witnessed;
use std::io::{Read, Write};

/// The most pages a format may ask of this program.
pub const MOST_PAGES: u16 = 128;

/// Why a run ended early.
#[derive(Debug)]
pub enum Failure {
    /// The input couldn't be read or the output not be written.
    Stream(std::io::Error),
    /// The program disagrees with itself.
    Mismatch(String),
}

impl From<std::io::Error> for Failure {
    fn from(error: std::io::Error) -> Failure {
        Failure::Stream(error)
    }
}

/// The file that a run of the log holds. "Before a format the state is all
/// zero", and there is no area.
#[derive(Default)]
struct Session {
    state: State,
    area: Vec<u8>,
}

/// What reading bytes came to.
enum Taken {
    All,
    Some,
    Nothing,
}

/// Reads commands until the input ends or one is refused with 10 or 11.
pub fn run(input: &mut impl Read, output: &mut impl Write) -> Result<(), Failure> {
    let mut session = Session::default();
    loop {
        let mut head = [0; HEAD_BYTES];
        match take(input, &mut head)? {
            // "Input ending between records gets no reply."
            Taken::Nothing => return Ok(()),
            Taken::Some => return session.stop(output, CUT_OFF),
            Taken::All => {}
        }
        let Some((kind, length)) = read_head(&head) else {
            return session.stop(output, BAD_RECORD);
        };
        let mut body = vec![0; length - HEAD_BYTES];
        if !matches!(take(input, &mut body)?, Taken::All) {
            return session.stop(output, CUT_OFF);
        }
        let answer = session
            .obey(parse(kind, &body))
            .map_err(Failure::Mismatch)?;
        output.write_all(&reply(&answer))?;
    }
}

/// Reads until the bytes are full or the input ends. Nothing to read at all
/// counts as read.
fn take(input: &mut impl Read, bytes: &mut [u8]) -> std::io::Result<Taken> {
    let mut have = 0;
    while have < bytes.len() {
        match input.read(&mut bytes[have..]) {
            Ok(0) if have == 0 => return Ok(Taken::Nothing),
            Ok(0) => return Ok(Taken::Some),
            Ok(more) => have += more,
            Err(error) if error.kind() == std::io::ErrorKind::Interrupted => {}
            Err(error) => return Err(error),
        }
    }
    Ok(Taken::All)
}

impl Session {
    fn obey(&mut self, call: Call) -> Result<Answer, String> {
        if let Call::Format { cap, .. } = call {
            return self.format(call, cap);
        }
        let mut row = vec![0; usize::from(self.state.cap)];
        let answer = witnessed(call, self.state, &mut self.area, &mut row)?;
        self.state = answer.state;
        Ok(answer)
    }

    /// A format is lent as many pages as it asks for; the file held before
    /// gives way only once it is accepted.
    fn format(&mut self, call: Call, cap: u16) -> Result<Answer, String> {
        if cap > MOST_PAGES {
            return Ok(Answer::refused(self.state, TOO_MANY_PAGES, 0));
        }
        let mut lent = vec![0; PAGE_BYTES * usize::from(cap)];
        let answer = witnessed(call, self.state, &mut lent, &mut [])?;
        if answer.refusal == 0 {
            self.area = lent;
            self.state = answer.state;
        }
        Ok(answer)
    }

    /// "After 10 or 11 it stops."
    fn stop(&self, output: &mut impl Write, refusal: u16) -> Result<(), Failure> {
        output.write_all(&reply(&Answer::refused(self.state, refusal, 0)))?;
        Ok(())
    }
}

#[cfg(test)]
mod tests {
    use super::*;
    use crate::bytes::two;
    use crate::commands::{hex, REPLY_BYTES};

    fn answer_to(input: &[u8]) -> Vec<u8> {
        let mut output = Vec::new();
        run(&mut &input[..], &mut output).expect("slices don't fail");
        output
    }

    fn refusals(input: &str) -> Vec<u16> {
        refusals_to(&hex(input))
    }

    fn refusals_to(input: &[u8]) -> Vec<u16> {
        answer_to(input)
            .chunks(REPLY_BYTES)
            .map(|reply| two(reply, 4))
            .collect()
    }

    const FORMAT: &str = "0C00 0101 0100 0100 0100 0200";

    #[test]
    fn whole_session() {
        let input = "0C00 0101 0100 0100 0100 0200 1400 0201 0500000000000000 0900000000000000
            0C00 0301 0500000000000000";
        let output = "1C00 0102 0000 0000 0000000000000000 00000000 00000000 0100 0000
            1C00 0102 0000 0000 0000000000000000 01000000 00000000 0100 0000
            1C00 0102 0000 0000 0900000000000000 01000000 00000000 0100 0000";
        assert_eq!(answer_to(&hex(input)), hex(output));
    }

    /// A put said again, one with another value, and what a find says then.
    #[test]
    fn a_repeat_and_a_clash() {
        let put = |value: &str| format!("1400 0201 0500000000000000 {value}00000000000000");
        let find = "0C00 0301 0500000000000000";
        let input = format!("{FORMAT} {} {} {} {find}", put("09"), put("09"), put("08"));
        let output = answer_to(&hex(&input));
        let second = "1C00 0102 0600 0000 0900000000000000 01000000 00000000 0100 0000
            1C00 0102 0D00 0000 0900000000000000 01000000 00000000 0100 0000
            1C00 0102 0000 0000 0900000000000000 01000000 00000000 0100 0000";
        assert_eq!(output[2 * REPLY_BYTES..], hex(second));
    }

    /// Key 5 goes to page 1 and comes back; then there is no page to give back.
    #[test]
    fn a_growth_and_two_shrinks() {
        let put = "1400 0201 0500000000000000 0900000000000000";
        let input = format!("{FORMAT} {put} 0400 0501 0400 0701 0400 0701");
        let second = "1C00 0102 0000 0000 0000000000000000 02000000 01000000 0200 0000
            1C00 0102 0000 0000 0000000000000000 02000000 01000000 0100 0000
            1C00 0102 0E00 0000 0000000000000000 00000000 00000000 0100 0000";
        assert_eq!(answer_to(&hex(&input))[2 * REPLY_BYTES..], hex(second));
    }

    #[test]
    fn stops_after_ten_and_eleven() {
        assert_eq!(refusals(""), []);
        assert_eq!(refusals("0C"), [11]);
        assert_eq!(refusals(&format!("{FORMAT} 0400 0601 0400 06")), [0, 0, 11]);
        assert_eq!(refusals(&format!("{FORMAT} 0400 0801 0400 0601")), [0, 10]);
        assert_eq!(refusals(&format!("{FORMAT} 0500 0701 0400 0601")), [0, 10]);
        assert_eq!(refusals("0400 0701 0400 07"), [1, 11]);
        assert_eq!(refusals("1C00 0102 0000"), [10]);
        assert_eq!(refusals("0500 0601 00"), [10]);
        assert_eq!(refusals("1400 0201 05"), [11]);
        assert_eq!(refusals("1400 0201"), [11]);
        assert_eq!(refusals("0400 0001"), [10]);
    }

    #[test]
    fn twelve_comes_before_the_call_and_runs_on() {
        let asked = |cap: &str| format!("0C00 0101 0100 0100 0100 {cap}");
        assert_eq!(
            refusals(&(asked("8100") + &asked("0000") + &asked("8000"))),
            [12, 1, 0]
        );
        assert_eq!(refusals(&(asked("0110") + "0400 0601")), [12, 1]);
    }

    /// Twelve keys from 0 up, each with the value 7, and a grow.
    fn twelve_then_grow() -> String {
        let put = |key| format!("1400 0201 {key:02X}00000000000000 0700000000000000");
        (0..12).map(put).collect::<String>() + "0400 0501"
    }

    /// A format of length 14 for two pages, with this edition.
    fn long_format(edition: &str) -> String {
        format!("0E00 0101 0100 0100 0100 0200 {edition}")
    }

    /// In edition 1 all twelve move, in edition 2 half of them do.
    #[test]
    fn a_long_format_carries_its_edition() {
        let last_reply = |format: &str| {
            let output = answer_to(&hex(&(format.to_string() + &twelve_then_grow())));
            assert_eq!(output.len(), 14 * REPLY_BYTES);
            output[13 * REPLY_BYTES..].to_vec()
        };
        let grown = |moved: &str| {
            hex(&format!(
                "1C00 0102 0000 0000 0000000000000000 02000000 {moved}000000 0200 0000"
            ))
        };
        assert_eq!(last_reply(FORMAT), grown("0C"));
        assert_eq!(last_reply(&long_format("0100")), grown("0C"));
        assert_eq!(last_reply(&long_format("0200")), grown("06"));
    }

    /// A wrong edition is refused like any other number; the file before it
    /// and its edition stay.
    #[test]
    fn another_edition_is_refused() {
        for wrong in ["0000", "0300", "0101", "0001", "0002", "FFFF"] {
            let wrong = long_format(wrong);
            assert_eq!(refusals(&(wrong.clone() + "0400 0601")), [1, 1]);
            let kept = long_format("0200") + &wrong + &twelve_then_grow();
            let output = answer_to(&hex(&kept));
            assert_eq!(two(&output[REPLY_BYTES..], 4), 1);
            assert_eq!(two(&output[REPLY_BYTES..], 24), 1);
            assert_eq!(two(&output[14 * REPLY_BYTES..], 20), 6);
        }
        // Twelve comes before the edition.
        let many = |edition: &str| format!("0E00 0101 0100 0100 0100 8100 {edition}");
        assert_eq!(refusals(&(many("0300") + &many("0200"))), [12, 12]);
    }

    #[test]
    fn a_format_of_any_other_length_is_refused() {
        for length in (0..=255u16).filter(|length| ![12, 14].contains(length)) {
            let head = format!("{length:02X}00 0101 0100 0100 0100 0200 0200 0200");
            assert_eq!(refusals(&head), [10], "{length}");
        }
        assert_eq!(refusals("0C01 0101 0100 0100 0100 0200"), [10]);
    }

    /// A length is judged before the body is, and a body is whole or cut off.
    #[test]
    fn a_format_cut_off_at_every_byte() {
        let whole = hex(&(FORMAT.to_string() + &long_format("0200")));
        for cut in 0..whole.len() {
            let expected: &[u16] = match cut {
                0 => &[],
                1..=11 => &[11],
                12 => &[0],
                _ => &[0, 11],
            };
            assert_eq!(refusals_to(&whole[..cut]), expected, "{cut}");
        }
        assert_eq!(refusals("0D00 0101"), [10]);
    }
}
