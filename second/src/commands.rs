//! The records of the log: heads and bodies of commands, and replies. A pay
//! run takes and writes the same ones.

use crate::answer::Answer;
use crate::bytes::{eight, number, two};
use crate::calls::Call;

/// The bytes of a command's head.
pub const HEAD_BYTES: usize = 4;
pub const FORMAT_KIND: u16 = 257;
pub const PUT_KIND: u16 = 258;
pub const PUT_BYTES: usize = 20;
pub const REPLY_BYTES: usize = 28;

/// The lengths that each kind of command may have; an unknown kind has none.
/// Only a format has two, without an edition and with one.
pub fn lengths_of(kind: u16) -> &'static [usize] {
    match kind {
        FORMAT_KIND => &[12, 14],
        PUT_KIND => &[PUT_BYTES],
        259..=260 => &[12],
        261..=263 => &[4],
        _ => &[],
    }
}

/// The kind and the length that a head tells; None where the kind is unknown
/// or the length wrong for it.
pub fn read_head(head: &[u8]) -> Option<(u16, usize)> {
    let (length, kind) = (usize::from(two(head, 0)), two(head, 2));
    lengths_of(kind).contains(&length).then_some((kind, length))
}

/// The call of a known kind, from a body that is at least as long as it has
/// to be. A format takes all of it.
pub fn parse(kind: u16, body: &[u8]) -> Call {
    match kind {
        FORMAT_KIND => Call::Format {
            n0: two(body, 0),
            groups: two(body, 2),
            sweeps: two(body, 4),
            cap: two(body, 6),
            edition: edition_of(&body[8..]),
        },
        PUT_KIND => Call::Put {
            key: eight(body, 0),
            value: eight(body, 8),
        },
        259 => Call::Find {
            key: eight(body, 0),
        },
        260 => Call::Remove {
            key: eight(body, 0),
        },
        261 => Call::Grow,
        262 => Call::Check,
        _ => Call::Shrink,
    }
}

/// The edition that stands behind the four numbers of a format: nothing there
/// "still means edition 1", and otherwise all of it is the number, two bytes in
/// the log and eight in a raw call.
fn edition_of(behind: &[u8]) -> u64 {
    if behind.is_empty() {
        1
    } else {
        number(behind)
    }
}

/// The reply with this answer.
pub fn reply(answer: &Answer) -> Vec<u8> {
    let mut bytes = Vec::with_capacity(REPLY_BYTES);
    bytes.extend((REPLY_BYTES as u16).to_le_bytes());
    answer.push_start(&mut bytes);
    bytes.extend(answer.read.to_le_bytes());
    bytes.extend(answer.moved.to_le_bytes());
    bytes.extend(answer.state.pages.to_le_bytes());
    bytes.extend(u16::from(answer.state.due()).to_le_bytes());
    bytes
}

/// Bytes for tests, written as the rules write them.
#[cfg(test)]
pub fn hex(digits: &str) -> Vec<u8> {
    let digits: Vec<u32> = digits.chars().filter_map(|one| one.to_digit(16)).collect();
    digits
        .chunks(2)
        .map(|pair| (pair[0] * 16 + pair[1]) as u8)
        .collect()
}

#[cfg(test)]
mod tests {
    use super::*;

    #[test]
    fn only_right_heads_are_read() {
        assert_eq!(read_head(&hex("1400 0201")), Some((258, 20)));
        assert_eq!(read_head(&hex("0400 0601")), Some((262, 4)));
        assert_eq!(read_head(&hex("0400 0701")), Some((263, 4)));
        for wrong in ["1500 0201", "0014 0201", "1400 0102", "0400 0801"] {
            assert_eq!(read_head(&hex(wrong)), None, "{wrong}");
        }
    }

    /// A format has two lengths and each other kind one of its own.
    #[test]
    fn every_kind_has_its_lengths() {
        let right = |kind: u16| -> Vec<u16> {
            let head = |length: u16| [length.to_le_bytes(), kind.to_le_bytes()].concat();
            let read = |length: &u16| read_head(&head(*length)).is_some();
            (0..=u16::MAX).filter(read).collect()
        };
        assert_eq!(right(257), [12, 14]);
        assert_eq!(
            [258, 259, 260, 261, 262, 263].map(right),
            [[20], [12], [12], [4], [4], [4]]
        );
        for kind in [0, 256, 264, 265, 513, 65535] {
            assert_eq!(right(kind), [], "{kind}");
        }
    }

    /// The kinds without a body, each with its own call.
    #[test]
    fn a_head_alone_tells_the_call() {
        let calls = [261, 262, 263].map(|kind| parse(kind, &[]));
        assert_eq!(calls, [Call::Grow, Call::Check, Call::Shrink]);
    }

    #[test]
    fn a_format_tells_its_edition_or_means_the_first() {
        let edition = |behind: &str| {
            let body = hex(&format!("0200 0300 0400 0800 {behind}"));
            match parse(257, &body) {
                Call::Format {
                    n0: 2,
                    groups: 3,
                    sweeps: 4,
                    cap: 8,
                    edition,
                } => Some(edition),
                _ => None,
            }
        };
        assert_eq!(edition(""), Some(1));
        assert_eq!(
            ["0100", "0200", "0000"].map(edition),
            [Some(1), Some(2), Some(0)]
        );
        assert_eq!(edition("0102"), Some(0x201));
        assert_eq!(edition("0100 0100 0000 0080"), Some(1 << 63 | 65537));
    }
}
