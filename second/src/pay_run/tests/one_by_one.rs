//! Runs against the same puts made one by one, and from the log.

use super::*;
use crate::home::next_draw;

/// Items from a small choice of keys and values, so that some come again with
/// the same value and some with another.
fn drawn(count: usize, seed: u64) -> Vec<(u64, u64)> {
    let draws = std::iter::successors(Some(seed), |&last| Some(next_draw(last)));
    let drawn: Vec<u64> = draws.skip(1).take(2 * count).collect();
    drawn
        .chunks(2)
        .map(|two| (two[0] % 90, two[1] % 3))
        .collect()
}

/// A file's numbers, with an edition or without, and how often it grows before
/// the run.
type Start = (&'static [u16], u16);

/// Files of both editions at their first size and at their last.
const STARTS: [Start; 10] = [
    (&[1, 1, 1, 3], 0),
    (&[2, 2, 3, 7], 0),
    (&[4, 1, 8, 5, 1], 0),
    (&[1, 2, 2, 9, 2], 0),
    (&[1, 1, 1, 3], 2),
    (&[1, 1, 1, 3, 1], 2),
    (&[1, 1, 1, 3, 2], 2),
    (&[2, 2, 3, 7], 3),
    (&[2, 2, 3, 7, 2], 3),
    (&[1, 2, 2, 9, 2], 5),
];

/// A run leaves the same pages, state and replies as its puts by themselves,
/// and as a log that holds its records behind the same start.
#[test]
fn one_by_one_and_from_the_log_it_is_the_same() {
    for (seed, start) in STARTS.into_iter().enumerate() {
        let items = drawn(300, 1 + seed as u64);
        let (mut whole, mut single) = (started(start), started(start));
        let room = replies(&mut whole, &items);
        let mut alone = Vec::new();
        for &(key, value) in &items {
            let answer = single.ask(Call::Put { key, value }).expect("agrees");
            alone.extend(reply(&answer));
        }
        assert!(room == alone && whole.area == single.area);
        assert_eq!(whole.state, single.state);
        let before = commands_of(start);
        let log = [before.concat(), records(&items)].concat();
        let mut output = Vec::new();
        crate::log::run(&mut &log[..], &mut output).expect("slices don't fail");
        assert!(output[28 * before.len()..] == room);
        for refusal in [0, REPEAT, CLASH] {
            assert!(told(&room).iter().any(|one| one.0 == refusal));
        }
    }
}

/// Where a key lives decides in which order the records stand, and whether
/// there is room.
#[test]
fn the_edition_of_the_file_counts() {
    let items = drawn(300, 5);
    let [bare, one, two] = [4, 5, 6].map(|at| {
        let mut file = started(STARTS[at]);
        (replies(&mut file, &items), file.area)
    });
    assert!(bare == one);
    assert!(one.0 != two.0 && one.1 != two.1);
}

/// The commands that bring about a start: a format and grows.
fn commands_of((numbers, grows): Start) -> Vec<Vec<u8>> {
    let body: Vec<u8> = numbers.iter().flat_map(|n| n.to_le_bytes()).collect();
    let head = vec![4 + body.len() as u8, 0, 1, 1];
    let mut commands = vec![[head, body].concat()];
    commands.resize(1 + usize::from(grows), hex("0400 0501"));
    commands
}

/// The file that the commands of a start bring about.
fn started(start: Start) -> Trial {
    let mut file = Trial {
        state: State::default(),
        area: vec![UNTOUCHED; 256 * usize::from(start.0[3])],
    };
    for command in commands_of(start) {
        let asked = parse(two(&command, 2), &command[HEAD_BYTES..]);
        let answer = file.ask(asked).expect("agrees");
        assert_eq!(answer.refusal, 0);
    }
    file
}
