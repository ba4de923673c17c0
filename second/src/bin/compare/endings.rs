//! Raw runs that end at something that is no record: what was answered before
//! stays written, and nothing follows.

use crate::files::image;
use crate::idle;
use crate::launch::Launcher;
use crate::merging::some_merge;
use crate::random::Random;
use crate::show::Stop;
use crate::sites::some_comparison;
use second::log::Failure;
use second::raw::{
    Case, COMPARE_KIND, LONGEST_STRING, MERGE_KIND, RECORD_HEAD, RUN_KIND, STATE_BYTES, STRING_HEAD,
};

/// Compares the endings and gives their number.
pub fn compare(launcher: &Launcher, seed: u64) -> Result<usize, Stop> {
    let mut random = Random::new(seed, 1 << 61);
    let inputs = endings(&mut random);
    for (number, input) in inputs.iter().enumerate() {
        let ours = answer(input)?;
        let theirs = launcher.run("raw_calls", input).map_err(Stop::Trouble)?;
        if ours != theirs {
            let (our, their) = (ours.len(), theirs.len());
            let told =
                format!("ending {number} of seed {seed} differs: {our} bytes here, {their} there");
            let file = format!("ending-{seed}-{number}.bin");
            return Err(Stop::Differ {
                told,
                file,
                input: input.clone(),
            });
        }
    }
    Ok(inputs.len())
}

fn answer(input: &[u8]) -> Result<Vec<u8>, Stop> {
    let mut output = Vec::new();
    match second::raw::run(&mut &input[..], &mut output) {
        Ok(()) => Ok(output),
        Err(Failure::Mismatch(what)) => Err(Stop::Mismatch(what)),
        Err(Failure::Stream(error)) => Err(Stop::Trouble(error.to_string())),
    }
}

fn good(random: &mut Random) -> Case {
    let file = image(random);
    let row = vec![3; random.index(4)];
    let kind = random.pick(&[256, 259, 262, 263, RUN_KIND]);
    let mut case = Case {
        kind,
        state: file.state,
        a: random.next(),
        area: file.area,
        row,
        ..Case::default()
    };
    idle::fill(random, &mut case);
    case
}

/// Some right records, a wrong one, and a right one that isn't reached.
fn around(random: &mut Random, wrong: Vec<u8>) -> Vec<u8> {
    let mut bytes = Vec::new();
    for _ in 0..random.index(3) {
        bytes.extend(good(random).record());
    }
    bytes.extend(wrong);
    bytes.extend(good(random).record());
    bytes
}

fn endings(random: &mut Random) -> Vec<Vec<u8>> {
    let mut inputs = vec![Vec::new()];
    for kind in [0, 1, 17, 255, 267, 272, 512, 513, 519, 65535] {
        let wrong = Case {
            kind,
            ..good(random)
        }
        .record();
        inputs.push(around(random, wrong));
    }
    // The head has 46 bytes, and a record with four empty strings 62.
    for length in [0, 3, 4, 6, 45, 46, 47, 61, 62, 63, 65_663, u32::MAX] {
        let mut wrong = good(random).record();
        wrong[..4].copy_from_slice(&length.to_le_bytes());
        inputs.push(around(random, wrong));
    }
    inputs.extend(wrong_lengths(random));
    inputs.extend(odd_strings(random));
    inputs.extend(second_files(random));
    inputs.extend(cut_off(random));
    inputs
}

/// One of the five lengths in a record is another one than it should be.
fn wrong_lengths(random: &mut Random) -> Vec<Vec<u8>> {
    let mut inputs = Vec::new();
    for change in [1, u32::MAX, 4, 256, 1 << 16, 1 << 31] {
        for place in 0..5 {
            let case = good(random);
            let [area, second, row, room] = case.string_heads();
            let at = [0, area, second, row, room][place];
            let mut wrong = case.record();
            let now = second::bytes::four(&wrong, at).wrapping_add(change);
            wrong[at..at + 4].copy_from_slice(&now.to_le_bytes());
            inputs.push(around(random, wrong));
        }
    }
    inputs
}

/// Lengths of area, second, row and room that add up: the longest that may be
/// and ones a little longer, and rows that end within a count.
const STRINGS: [[usize; 4]; 21] = [
    [0, 0, 0, 0],
    [LONGEST_STRING; 4],
    [16_384, 16_384, 16_384, 16_384],
    [LONGEST_STRING, 0, 0, 0],
    [LONGEST_STRING + 1, 0, 0, 0],
    [16_640, 0, 256, 0],
    [65_536, 0, 0, 0],
    [0, LONGEST_STRING, 0, 0],
    [256, LONGEST_STRING + 1, 4, 0],
    [0, 0, LONGEST_STRING, 0],
    [256, 0, LONGEST_STRING + 4, 0],
    [0, 0, LONGEST_STRING + 1, 0],
    [256, 8, 8, LONGEST_STRING],
    [256, 8, 8, LONGEST_STRING + 1],
    [LONGEST_STRING + 1; 4],
    [256, 0, 1, 0],
    [256, 0, 2, 2],
    [256, 1, 3, 0],
    [256, 0, 5, 3],
    [0, 3, 1, 0],
    [0, 0, LONGEST_STRING - 1, 0],
];

fn odd_strings(random: &mut Random) -> Vec<Vec<u8>> {
    let mut inputs = Vec::new();
    for lengths in STRINGS {
        let [area, second, row, room] = lengths.map(|length| random.bytes(length));
        let record = good(random).record_with([&area, &second, &row, &room]);
        inputs.push(around(random, record));
    }
    inputs
}

/// Comparisons and merges whose second file has no whole state, and such as have
/// one but an area of the wrong length.
fn second_files(random: &mut Random) -> Vec<Vec<u8>> {
    let lengths = (0..=STATE_BYTES + 2).chain([255, 256, 257, 271, 272, 273, LONGEST_STRING]);
    let mut inputs = Vec::new();
    for length in lengths {
        let file = image(random);
        let cases = [some_comparison(random, &file), some_merge(random, &file)];
        for mut case in cases {
            case.second.resize(length, 1);
            inputs.push(around(random, case.record()));
        }
        for kind in [COMPARE_KIND, MERGE_KIND] {
            let any = Case {
                kind,
                second: random.bytes(length),
                ..good(random)
            };
            inputs.push(around(random, any.record()));
        }
    }
    inputs
}

/// A second record cut off at every byte of its head and of its strings'
/// lengths, and within the rest.
fn cut_off(random: &mut Random) -> Vec<Vec<u8>> {
    let first = good(random).record();
    let case = Case {
        second: vec![4; 6],
        row: vec![5; 2],
        room: vec![6; 3],
        ..good(random)
    };
    let second = case.record();
    let mut cuts: Vec<usize> = (0..RECORD_HEAD).collect();
    for at in case.string_heads() {
        cuts.extend(at..=at + STRING_HEAD);
    }
    cuts.extend((0..10).map(|_| random.index(second.len())));
    cuts.push(second.len() - 1);
    cuts.into_iter()
        .map(|cut| [&first[..], &second[..cut]].concat())
        .collect()
}
