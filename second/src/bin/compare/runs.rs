//! Pay runs: right ones of any length, and wrong ones in every way.

use crate::breaks::break_page;
use crate::files::{image, parameters_for, File};
use crate::logs::WRONG_HEADS;
use crate::loose::scatter;
use crate::random::Random;
use crate::session::{command, session};
use crate::sink::Sink;
use crate::values::{again, offered};
use crate::wrong::wrong_state;
use second::commands::{HEAD_BYTES, PUT_BYTES, REPLY_BYTES};
use second::raw::{Case, LONGEST_STRING, RUN_KIND};

/// The most replies that a room can have, and the most records.
const MOST_REPLIES: usize = LONGEST_STRING / REPLY_BYTES;
const MOST_ITEMS: usize = LONGEST_STRING / PUT_BYTES;

/// Some runs, mostly wrong in one way. Each scene goes through all of its
/// ways, so that none has to be waited for.
pub fn pay_runs(random: &mut Random, sink: &mut Sink) -> Result<(), String> {
    match random.index(12) {
        0..=2 => parts(random, sink),
        3..=4 => heads(random, sink),
        5..=7 => rooms(random, sink),
        8 => any_bytes(random, sink),
        9 => long(random, sink),
        _ => twice(random, sink),
    }
}

/// A run on a file, with a room that fits: mostly of a few items, at times of
/// none, rarely of hundreds.
pub fn some_run(random: &mut Random, file: &mut File) -> Case {
    let items = match random.index(50) {
        0 => random.within(100, 250),
        1..=4 => 0,
        5..=12 => 1,
        _ => random.within(2, 14),
    };
    run_of(random, file, items as usize)
}

/// A run of so many items, with as much of its room as there may be.
fn run_of(random: &mut Random, file: &mut File, items: usize) -> Case {
    Case {
        kind: RUN_KIND,
        state: file.state,
        area: file.area.clone(),
        second: records(random, file, items),
        row: vec![random.next() as u32; random.index(3)],
        room: room_for(random, items.min(MOST_REPLIES)),
        ..Case::default()
    }
}

/// Put records of new keys, of held ones and of such as stand among the
/// records before, each of these with its value or another one.
fn records(random: &mut Random, file: &mut File, items: usize) -> Vec<u8> {
    let mut before: Vec<[u64; 2]> = Vec::new();
    for _ in 0..items {
        let item = if !before.is_empty() && random.one_in(6) {
            let [key, value] = random.pick(&before);
            [key, again(random, value)]
        } else {
            let key = file.some_key(random);
            [key, offered(random, &file.area, key)]
        };
        before.push(item);
    }
    before.iter().flat_map(|item| command(258, item)).collect()
}

/// Room for so many replies, with bytes in it that show where it stays.
fn room_for(random: &mut Random, items: usize) -> Vec<u8> {
    random.bytes(REPLY_BYTES * items)
}

/// How many ways `change_room` knows.
const ROOM_WAYS: usize = 7;

/// Makes a room too short or too long: by a byte, by a reply, wholly, by any.
fn change_room(random: &mut Random, room: &mut Vec<u8>, way: usize) {
    let right = room.len();
    let length = match way {
        0 => right.saturating_sub(1),
        1 => right + 1,
        2 => right.saturating_sub(REPLY_BYTES),
        3 => right + REPLY_BYTES,
        4 => 0,
        5 => random.pick(&[REPLY_BYTES * MOST_REPLIES, LONGEST_STRING]),
        _ => random.index(right + 100),
    };
    *room = random.bytes(length.min(LONGEST_STRING));
}

/// Asks a run, at times with a state out of range or an area too long, which
/// may not be told before what is wrong with the run itself.
fn ask_anywhere(random: &mut Random, mut case: Case, sink: &mut Sink) -> Result<Case, String> {
    match random.index(8) {
        0 => case.state = wrong_state(random, case.state),
        1 if case.area.len() < LONGEST_STRING => case.area.push(0),
        _ => {}
    }
    sink.ask(case)
}

/// Asks a run whose bytes are wrong, at times with a wrong room too.
fn ask_wrong(random: &mut Random, mut case: Case, sink: &mut Sink) -> Result<(), String> {
    if random.one_in(4) {
        let way = random.index(ROOM_WAYS);
        change_room(random, &mut case.room, way);
    }
    ask_anywhere(random, case, sink).map(|_| ())
}

/// Behind the last whole item one byte more to all but one of a further one:
/// those of a put that is cut off, or others.
fn parts(random: &mut Random, sink: &mut Sink) -> Result<(), String> {
    let mut file = image(random);
    let cut = random.one_in(2);
    for part in 1..PUT_BYTES {
        let items = random.index(4);
        let mut case = run_of(random, &mut file, items);
        let mut more = random.bytes(part);
        if cut {
            more = records(random, &mut file, 1);
        }
        case.second.extend(&more[..part]);
        if random.one_in(2) {
            case.room = room_for(random, items + 1);
        }
        ask_wrong(random, case, sink)?;
    }
    Ok(())
}

/// Every byte of a head, in the first, a middle and the last item; then heads
/// that are wrong in more than a byte, those of other commands among them.
fn heads(random: &mut Random, sink: &mut Sink) -> Result<(), String> {
    let mut file = image(random);
    let items = random.within(3, 6) as usize;
    let middle = 1 + random.index(items - 2);
    for place in [0, middle, items - 1] {
        let start = PUT_BYTES * place;
        for byte in start..start + HEAD_BYTES {
            let mut case = run_of(random, &mut file, items);
            case.second[byte] ^= if random.one_in(2) {
                1 << random.index(8)
            } else {
                random.within(1, 255) as u8
            };
            ask_wrong(random, case, sink)?;
        }
        let mut case = run_of(random, &mut file, items);
        let right_for_others = [
            (12, 257),
            (14, 257),
            (12, 259),
            (12, 260),
            (4, 261),
            (4, 262),
            (4, 263),
        ];
        let (length, kind) = random.pick(&[&WRONG_HEADS[..], &right_for_others].concat());
        let head = [length.to_le_bytes(), kind.to_le_bytes()].concat();
        case.second[start..start + HEAD_BYTES].copy_from_slice(&head);
        ask_wrong(random, case, sink)?;
    }
    Ok(())
}

/// A right run with every wrong room, often of a single item.
fn rooms(random: &mut Random, sink: &mut Sink) -> Result<(), String> {
    let mut file = image(random);
    let items = random.pick(&[0, 0, 1, 1, 2, 3, 4, 5]);
    for way in 0..ROOM_WAYS {
        let mut case = run_of(random, &mut file, items);
        change_room(random, &mut case.room, way);
        ask_anywhere(random, case, sink)?;
    }
    Ok(())
}

/// Bytes that are no run at all, and a run with a changed bit anywhere.
fn any_bytes(random: &mut Random, sink: &mut Sink) -> Result<(), String> {
    let mut file = image(random);
    for way in 0..4 {
        let items = random.within(1, 8) as usize;
        let mut case = run_of(random, &mut file, items);
        match way {
            0 => case.second = random.bytes(PUT_BYTES * items),
            1 => case.second = case.area.clone(),
            2 => case.second = session(random, 4, 30),
            _ => {
                let at = random.index(case.second.len());
                case.second[at] ^= 1 << random.index(8);
            }
        }
        ask_wrong(random, case, sink)?;
    }
    Ok(())
}

/// Runs of hundreds of items: the longest that has room, one on many pages at
/// times, and ones refused for their room or for their last bytes.
fn long(random: &mut Random, sink: &mut Sink) -> Result<(), String> {
    let mut file = image(random);
    let longest = run_of(random, &mut file, MOST_REPLIES);
    sink.ask(longest)?;
    if random.one_in(5) {
        on_many_pages(random, sink)?;
    }
    let (many, more) = (random.within(100, 584), random.within(586, 819));
    for items in [many as usize, MOST_REPLIES, more as usize, MOST_ITEMS] {
        let case = run_of(random, &mut file, items);
        for way in [4, random.index(ROOM_WAYS)] {
            let mut case = case.clone();
            change_room(random, &mut case.room, way);
            ask_anywhere(random, case, sink)?;
        }
        let mut case = case;
        let at = case.second.len() - 1 - random.index(PUT_BYTES);
        case.second.truncate(at);
        ask_wrong(random, case, sink)?;
    }
    Ok(())
}

/// Hundreds of items of which many find room.
fn on_many_pages(random: &mut Random, sink: &mut Sink) -> Result<(), String> {
    let cap = random.within(17, 64) as u16;
    let state = parameters_for(random, cap);
    let mut file = File::empty(random, state);
    let items = random.within(100, MOST_REPLIES as u64) as usize;
    let case = run_of(random, &mut file, items);
    sink.ask(case).map(|_| ())
}

/// A run on pages of any kind, and the same once more on what it left.
fn twice(random: &mut Random, sink: &mut Sink) -> Result<(), String> {
    let mut file = image(random);
    if random.one_in(3) {
        scatter(random, &mut file);
    }
    if random.one_in(3) {
        let address = random.index(usize::from(file.state.cap));
        break_page(random, file.state, &mut file.area, address);
    }
    let case = some_run(random, &mut file);
    let mut after = ask_anywhere(random, case, sink)?;
    let length = after.room.len();
    after.room = random.bytes(length);
    sink.ask(after).map(|_| ())
}
