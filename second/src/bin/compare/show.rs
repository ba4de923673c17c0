//! Differences, told field by field.

use crate::table::name;
use second::bytes::number;
use second::commands::REPLY_BYTES;
use second::page::PAGE_BYTES;
use second::raw::{COMPARE_KIND, REPLY_HEAD, STRING_HEAD};
use std::path::{Path, PathBuf};

/// A field of a reply: its name and how many bytes it has.
type Field = (&'static str, usize);

const RAW_FIELDS: [Field; 18] = [
    ("length", 4),
    ("kind", 2),
    ("refusal", 2),
    ("page", 2),
    ("value", 8),
    ("run", 4),
    ("pages read", 4),
    ("moved", 4),
    ("file", 2),
    ("taken", 4),
    ("n0", 2),
    ("N", 2),
    ("s", 2),
    ("P", 2),
    ("cap", 2),
    ("edition", 2),
    ("r", 4),
    ("due", 2),
];

/// The strings behind the fields of a raw reply, each with what it is made of
/// and how many bytes one of these has.
const RAW_STRINGS: [(&str, Field); 3] = [
    ("area", ("page", PAGE_BYTES)),
    ("row", ("count", 4)),
    ("room", ("reply", REPLY_BYTES)),
];

/// What the room of a comparison is made of: its records have several lengths,
/// and all their numbers begin at a whole number of four bytes.
const LIST_UNIT: Field = ("word", 4);

const LOG_FIELDS: [Field; 9] = [
    ("length", 2),
    ("kind", 2),
    ("refusal", 2),
    ("page", 2),
    ("value", 8),
    ("pages read", 4),
    ("moved", 4),
    ("P", 2),
    ("due", 2),
];

/// Why a comparison ends.
pub enum Stop {
    /// The two sides differ: what to print and the input to keep.
    Differ {
        told: String,
        file: String,
        input: Vec<u8>,
    },
    /// This program disagrees with itself.
    Mismatch(String),
    /// The other side can't be run.
    Trouble(String),
}

fn fields(fields: &[Field], ours: &[u8], theirs: &[u8]) -> String {
    let mut told = format!(
        "{:12} {:>20} {:>20}\n",
        "field", "this program", "other side"
    );
    let mut at = 0;
    for &(name, size) in fields {
        let one = |bytes: &[u8]| match bytes.get(at..at + size) {
            Some(field) => number(field).to_string(),
            None => "nothing".to_string(),
        };
        let (our, their) = (one(ours), one(theirs));
        let mark = if our == their { "" } else { "  <" };
        told += &format!("{name:12} {our:>20} {their:>20}{mark}\n");
        at += size;
    }
    told
}

/// The strings of a raw reply that differ, each told by its first difference.
fn strings(kind: u16, ours: &[u8], theirs: &[u8]) -> String {
    let (mut our_rest, mut their_rest) = (past_head(ours), past_head(theirs));
    let mut told = String::new();
    for (name, unit) in RAW_STRINGS {
        let (our, their) = (next_string(&mut our_rest), next_string(&mut their_rest));
        let unit = match (kind, name) {
            (COMPARE_KIND, "room") => LIST_UNIT,
            _ => unit,
        };
        if our != their {
            told += &string_difference(name, unit, our, their);
        }
    }
    let (our, their) = (our_rest.len(), their_rest.len());
    if our != their {
        told += &format!("behind the strings: {our} bytes here, {their} there\n");
    }
    told
}

fn past_head(reply: &[u8]) -> &[u8] {
    reply.get(REPLY_HEAD..).unwrap_or_default()
}

/// The next string, cut short where the reply ends within it.
fn next_string<'a>(rest: &mut &'a [u8]) -> &'a [u8] {
    let (head, after) = rest.split_at(STRING_HEAD.min(rest.len()));
    let (string, after) = after.split_at(after.len().min(number(head) as usize));
    *rest = after;
    string
}

/// Two strings that differ: their lengths and the first byte that does.
fn string_difference(name: &str, (unit, size): Field, our: &[u8], their: &[u8]) -> String {
    let same = our.iter().zip(their).take_while(|(one, two)| one == two);
    let at = same.count();
    let (number, byte) = (at / size, at % size);
    let (our_byte, their_byte) = (our.get(at), their.get(at));
    format!(
        "{name} of {} bytes here, {} there, differs from byte {at} on (byte {byte} of {unit} \
         {number}): {our_byte:?} here, {their_byte:?} there\n",
        our.len(),
        their.len()
    )
}

/// A raw call that the sides answer differently.
pub fn raw_difference(seed: u64, case: u64, kind: u16, ours: &[u8], theirs: &[u8]) -> String {
    let title = format!(
        "raw call {case} of seed {seed} differs: kind {kind} ({})\n",
        name(kind)
    );
    title + &fields(&RAW_FIELDS, ours, theirs) + &strings(kind, ours, theirs)
}

/// A log that the sides answer differently, from the first differing reply.
pub fn log_difference(seed: u64, log: u64, input: &[u8], ours: &[u8], theirs: &[u8]) -> String {
    let size = REPLY_BYTES;
    let same = ours
        .iter()
        .zip(theirs)
        .take_while(|(our, their)| our == their)
        .count();
    let reply = same / size;
    let from = |bytes: &'_ [u8]| -> Vec<u8> {
        bytes
            .iter()
            .skip(reply * size)
            .take(size)
            .copied()
            .collect()
    };
    let kind = nth_kind(input, reply);
    let title = format!(
        "log {log} of seed {seed} differs at reply {reply}: kind {kind} ({}); {} bytes here, {} \
         there\n",
        name(kind),
        ours.len(),
        theirs.len()
    );
    title + &fields(&LOG_FIELDS, &from(ours), &from(theirs))
}

/// The kind of the command with this number, 0 where there is no whole head.
pub fn nth_kind(input: &[u8], wanted: usize) -> u16 {
    let mut at = 0;
    for _ in 0..wanted {
        at += input
            .get(at..at + 2)
            .map_or(input.len(), |length| number(length) as usize);
        at = at.min(input.len());
    }
    input
        .get(at + 2..at + 4)
        .map_or(0, |kind| number(kind) as u16)
}

/// Keeps the input of a case that differs.
pub fn keep(folder: &Path, file: &str, input: &[u8]) -> std::io::Result<PathBuf> {
    std::fs::create_dir_all(folder)?;
    let path = folder.join(file);
    std::fs::write(&path, input)?;
    Ok(path)
}

#[cfg(test)]
mod tests {
    use super::*;
    use second::raw::Case;

    fn bytes_of(fields: &[Field]) -> usize {
        fields.iter().map(|(_, size)| size).sum()
    }

    #[test]
    fn the_fields_are_the_whole_head() {
        assert_eq!(bytes_of(&RAW_FIELDS), REPLY_HEAD);
        assert_eq!(bytes_of(&LOG_FIELDS), REPLY_BYTES);
    }

    #[test]
    fn a_difference_is_told_where_it_is() {
        let mut case = Case {
            area: vec![1; 300],
            row: vec![2; 5],
            room: vec![3; 7],
            ..Case::default()
        };
        let (_, ours) = case.answer().ok().flatten().expect("due is answered");
        let told_of = |kind: u16, at: usize| {
            let mut theirs = ours.clone();
            theirs[at] ^= 0x80;
            let text = raw_difference(1, 2, kind, &ours, &theirs);
            let marked = |line: &&str| line.ends_with('<') || line.contains("differs from");
            let lines: Vec<String> = text.lines().filter(marked).map(str::to_string).collect();
            lines.concat()
        };
        let told = |at: usize| told_of(256, at);
        for (at, name) in [(5, "kind"), (18, "run"), (30, "file"), (32, "taken")] {
            assert!(told(at).starts_with(name), "{}", told(at));
        }
        for (at, name) in [(46, "edition"), (48, "r "), (52, "due")] {
            assert!(told(at).starts_with(name), "{}", told(at));
        }
        assert!(told(58 + 299).contains("area of 300 bytes here, 300 there, differs from byte 299"));
        assert!(told(58 + 299).contains("(byte 43 of page 1)"));
        assert!(told(58 + 300 + 4 + 8).starts_with("row of 20 bytes"));
        assert!(told(58 + 300 + 4 + 8).contains("(byte 0 of count 2)"));
        assert!(told(ours.len() - 1).starts_with("room of 7 bytes"));
        assert!(told(ours.len() - 1).contains("(byte 6 of reply 0)"));
        assert!(told_of(265, ours.len() - 1).contains("(byte 2 of word 1)"));
        let cut = raw_difference(1, 2, 256, &ours, &ours[..ours.len() - 1]);
        assert!(cut.contains("room of 7 bytes here, 6 there, differs from byte 6"));
        assert!(raw_difference(1, 2, 256, &ours, &[]).contains("nothing"));
    }
}
