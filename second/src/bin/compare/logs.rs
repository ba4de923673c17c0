//! Logs: sessions of commands, right and wrong, whole and cut off.

use crate::keys::extreme;
use crate::random::Random;
use crate::session::{command, format, put_again, session, up_and_down};
use crate::wrong::wrong_edition;
use second::commands::HEAD_BYTES;

/// Lengths that the program has to refuse with 10 for a format: near the two
/// right ones, like them in one byte, and others.
pub const WRONG_FORMAT_LENGTHS: &[u16] = &[
    0, 1, 3, 4, 8, 10, 11, 13, 15, 16, 18, 20, 26, 268, 270, 3072, 3584, 65535,
];

/// The same for a shrink, all of them among the heads below.
pub const WRONG_SHRINK_LENGTHS: &[u16] = &[0, 3, 5, 12, 260, 1024];

/// Heads of other kinds that it has to refuse with 10: lengths and kinds. The
/// first ones come in every run that is long enough to be judged.
pub const WRONG_HEADS: [(u16, u16); 42] = [
    (0, 263),
    (3, 263),
    (5, 263),
    (12, 263),
    (260, 263),
    (1024, 263),
    (4, 7),
    (4, 519),
    (4, 1793),
    (0, 4),
    (4, 0),
    (1, 12),
    (12, 1),
    (4, 256),
    (4, 255),
    (4, 264),
    (20, 264),
    (28, 513),
    (4, 513),
    (4, 65535),
    (0, 258),
    (3, 258),
    (12, 258),
    (14, 258),
    (19, 258),
    (21, 258),
    (11, 259),
    (13, 259),
    (14, 259),
    (20, 259),
    (11, 260),
    (13, 260),
    (14, 260),
    (0, 261),
    (3, 261),
    (5, 261),
    (14, 261),
    (3, 262),
    (5, 262),
    (65535, 262),
    (12, 262),
    (14, 262),
];

/// The log of this number.
pub fn log(seed: u64, number: u64) -> Vec<u8> {
    let mut random = Random::new(seed, number ^ (1 << 60));
    let round = (number / 20) as usize;
    if number % 200 == 7 {
        return long(&mut random, round / 10);
    }
    match number % 20 {
        0 => cut_off(round),
        1 => wrong_head(&mut random, round),
        2 => odd_formats(&mut random),
        3 => noise(&mut random),
        4 => before_a_format(&mut random),
        5 => large(&mut random),
        6 => put_again(&mut random),
        7 => up_and_down(&mut random),
        8 => cut_format(&mut random, round),
        9 => wrong_format_length(&mut random, round),
        _ => sensible(&mut random),
    }
}

/// One log with every kind of command, cut off at one byte after the other,
/// the empty and the whole one among them.
fn cut_off(round: usize) -> Vec<u8> {
    let mut whole = format(&[1, 1, 1, 2]);
    whole.extend(command(258, &[5, 9]));
    whole.extend(command(261, &[]));
    whole.extend(command(259, &[5]));
    whole.extend(command(263, &[]));
    whole.extend(command(262, &[]));
    whole.extend(format(&[1, 1, 1, 129]));
    whole.extend(command(260, &[5]));
    whole.extend(format(&[1, 1, 1, 2, 2]));
    whole.extend(command(258, &[u64::MAX, 0]));
    whole.extend(command(262, &[]));
    whole.truncate(round % (whole.len() + 1));
    whole
}

/// Nothing, or a file with some commands.
fn some_start(random: &mut Random) -> Vec<u8> {
    if random.one_in(4) {
        Vec::new()
    } else {
        session(random, 4, 6)
    }
}

/// The numbers of a right format that tells its edition, 1 or 2.
fn long_format(random: &mut Random) -> [u16; 5] {
    [1, 1, 1, 2, random.pick(&[1, 2])]
}

/// A format that tells its edition, cut off at each byte behind its head.
fn cut_format(random: &mut Random, round: usize) -> Vec<u8> {
    let mut bytes = some_start(random);
    let mut cut = format(&long_format(random));
    cut.truncate(HEAD_BYTES + round % (cut.len() - HEAD_BYTES));
    bytes.extend(cut);
    bytes
}

/// A format with a wrong length in its head. The bytes behind it are right for
/// one with an edition, or as many more or less as the length tells.
fn wrong_format_length(random: &mut Random, round: usize) -> Vec<u8> {
    let mut bytes = some_start(random);
    let length = WRONG_FORMAT_LENGTHS[round % WRONG_FORMAT_LENGTHS.len()];
    let mut wrong = format(&long_format(random));
    wrong[..2].copy_from_slice(&length.to_le_bytes());
    if random.one_in(2) {
        wrong.resize(usize::from(length).clamp(HEAD_BYTES, 300), 0);
    }
    bytes.extend(wrong);
    bytes.extend(command(262, &[]));
    bytes
}

/// A wrong head after some right commands, with or without bytes after it.
fn wrong_head(random: &mut Random, round: usize) -> Vec<u8> {
    let mut bytes = some_start(random);
    let (length, kind) = WRONG_HEADS[round % WRONG_HEADS.len()];
    bytes.extend(length.to_le_bytes());
    bytes.extend(kind.to_le_bytes());
    let after = random.index(30);
    bytes.extend(random.bytes(after));
    bytes.extend(command(262, &[]));
    bytes
}

/// Formats of all sizes, some refused, with calls between them.
fn odd_formats(random: &mut Random) -> Vec<u8> {
    let mut bytes = Vec::new();
    for _ in 0..random.within(1, 12) {
        let cap = random.pick(&[0, 1, 2, 3, 64, 127, 128, 129, 130, 4096, 4097, 65535]);
        let mut start = [1, 1, 1];
        if random.one_in(2) {
            let n0 = random.pick(&[1, 1, 1, 2, 4, 0, 5]);
            let groups = random.pick(&[1, 1, 2, 32, 64, 0, 65]);
            start = [n0, groups, random.pick(&[1, 1, 8, 3, 0, 9])];
        }
        let edition = match random.index(3) {
            0 => wrong_edition(random),
            _ => random.pick(&[1, 2]),
        };
        let numbers = [&start[..], &[cap, edition]].concat();
        bytes.extend(format(&numbers[..random.pick(&[4, 5, 5])]));
        for _ in 0..random.index(4) {
            let key = random.within(0, 9);
            bytes.extend(some_command(random, key));
        }
    }
    bytes
}

fn some_command(random: &mut Random, key: u64) -> Vec<u8> {
    match random.index(7) {
        0 | 1 => command(258, &[key, random.value()]),
        2 => command(259, &[key]),
        3 => command(260, &[key]),
        4 => command(261, &[]),
        5 => command(262, &[]),
        _ => command(263, &[]),
    }
}

/// Random bytes, or right commands with a changed byte among them.
fn noise(random: &mut Random) -> Vec<u8> {
    if random.one_in(3) {
        let length = random.index(60);
        return random.bytes(length);
    }
    let mut bytes = session(random, 3, 20);
    let at = random.index(bytes.len());
    bytes[at] ^= 1 << random.index(8);
    bytes
}

fn before_a_format(random: &mut Random) -> Vec<u8> {
    let mut bytes = Vec::new();
    for _ in 0..random.within(0, 8) {
        let key = extreme(random);
        bytes.extend(some_command(random, key));
    }
    if random.one_in(2) {
        bytes.extend(session(random, 2, 10));
    }
    bytes
}

fn large(random: &mut Random) -> Vec<u8> {
    let cap = random.pick(&[60, 100, 127, 128]);
    let commands = random.within(20, 250);
    session(random, cap, commands)
}

/// Logs of a few thousand commands; every eighth of them on many pages.
fn long(random: &mut Random, round: usize) -> Vec<u8> {
    let cap = if round.is_multiple_of(8) {
        128
    } else {
        random.within(4, 30)
    };
    let commands = random.within(2000, 4000);
    session(random, cap, commands)
}

fn sensible(random: &mut Random) -> Vec<u8> {
    let most = random.pick(&[2, 4, 8, 16]);
    let cap = random.within(1, most);
    let commands = random.within(1, 120);
    let mut bytes = session(random, cap, commands);
    if random.one_in(5) {
        let length = random.index(bytes.len() + 1);
        bytes.truncate(length);
    }
    bytes
}
