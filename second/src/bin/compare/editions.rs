//! What the editions had to do with a raw call: rows of the table beside those
//! of the calls.

use crate::files::of_other_edition;
use crate::ways::Pair;
use second::answer::OUT_OF_RANGE;
use second::bytes::{eight, two};
use second::calls::Call;
use second::commands::{FORMAT_KIND, HEAD_BYTES, PUT_BYTES, REPLY_BYTES};
use second::home::home;
use second::image::standing;
use second::raw::{Case, COMPARE_KIND, DUE_KIND, MERGE_KIND, RUN_KIND};
use second::state::{State, EDITIONS};

/// Accepted calls in either edition, by kind. Of those that look for keys only
/// the ones count where a key lives elsewhere in the other edition, and of
/// those of due the ones that say yes.
pub const FIRST: u16 = 1020;
pub const SECOND: u16 = 1021;
/// Calls, by kind, for which the edition was all that was wrong in the state or
/// the numbers asked for: refused with 1, in the items of a run too; for due
/// those that would have said yes.
pub const ALONE: u16 = 1022;
/// The wrong edition in the states of these calls, for some that stand for all.
pub const WRONG: u16 = 1023;
/// How many bytes the wrong edition took that a format asked for.
pub const ASKED: u16 = 1024;
/// How many of its low bytes spelled a right one.
pub const LOW: u16 = 1025;

const KINDS: &[u16] = &[
    DUE_KIND,
    257,
    258,
    259,
    260,
    261,
    262,
    263,
    RUN_KIND,
    COMPARE_KIND,
    MERGE_KIND,
];
pub const SOME_WRONG: &[u16] = &[0, 3, 257, 258, 65535];
const SOME_LOW: &[u16] = &[1, 2, 4];

/// All that has to come of the rows above.
pub const EDITION_PAIRS: [(u16, &[u16]); 6] = [
    (FIRST, KINDS),
    (SECOND, KINDS),
    (ALONE, KINDS),
    (WRONG, SOME_WRONG),
    (ASKED, &[0, 1, 2, 3, 4, 5, 6, 7, 8]),
    (LOW, SOME_LOW),
];

/// The row for what is accepted in an edition.
pub fn accepted_row(edition: u16) -> u16 {
    if edition == 1 {
        FIRST
    } else {
        SECOND
    }
}

/// The pairs that an answered case counts for, as the call left it.
pub fn pairs(case: &Case, refusal: u16) -> Vec<Pair> {
    match (case.call(), refusal) {
        (Some(format @ Call::Format { .. }), OUT_OF_RANGE) => wrongly_asked(format),
        (Some(Call::Format { .. }), 1..) => Vec::new(),
        _ if !EDITIONS.contains(&case.state.edition) => wrong_in_the_state(case),
        (_, 0) if edition_counts(case) => vec![(accepted_row(case.state.edition), case.kind)],
        _ => Vec::new(),
    }
}

/// Whether the edition made a difference to an accepted call, or might have.
fn edition_counts(case: &Case) -> bool {
    let state = case.state;
    let elsewhere = |key| home(state, key) != home(of_other_edition(state), key);
    match case.kind {
        DUE_KIND => state.due(),
        FORMAT_KIND => true,
        258..=260 => elsewhere(case.a),
        RUN_KIND => accepted_keys(case).into_iter().any(elsewhere),
        _ => standing(&case.area)
            .into_iter()
            .any(|(_, record)| elsewhere(record.key)),
    }
}

/// The keys that an accepted run put.
fn accepted_keys(case: &Case) -> Vec<u64> {
    let records = case.second.chunks_exact(PUT_BYTES);
    let replies = case.room.chunks_exact(REPLY_BYTES);
    records
        .zip(replies)
        .filter(|(_, reply)| two(reply, 4) == 0)
        .map(|(record, _)| eight(record, HEAD_BYTES))
        .collect()
}

/// Where nothing else in the state is wrong. A run without items isn't refused
/// for it, nor is one that is refused itself.
fn wrong_in_the_state(case: &Case) -> Vec<Pair> {
    let edition = case.state.edition;
    let otherwise = State {
        edition: 1,
        ..case.state
    };
    let shows = match case.kind {
        DUE_KIND => otherwise.due(),
        RUN_KIND => case.room.get(4..6).is_some_and(|told| two(told, 0) == 1),
        _ => true,
    };
    let mut pairs = Vec::new();
    if otherwise.in_range() && shows {
        pairs.push((ALONE, case.kind));
        if SOME_WRONG.contains(&edition) {
            pairs.push((WRONG, edition));
        }
    }
    pairs
}

/// Where nothing else that a format asks for is wrong.
fn wrongly_asked(format: Call) -> Vec<Pair> {
    let Some(edition) = wrong_alone(format) else {
        return Vec::new();
    };
    let bytes = 8 - edition.leading_zeros() as u16 / 8;
    let right = |low: &&u16| {
        let low_bytes = edition << (64 - 8 * **low) >> (64 - 8 * **low);
        [1, 2].contains(&low_bytes)
    };
    let mut pairs = vec![(ALONE, FORMAT_KIND), (ASKED, bytes)];
    pairs.extend(SOME_LOW.iter().filter(right).map(|&low| (LOW, low)));
    pairs
}

/// The edition that a format asks for, where it is the only wrong number.
pub fn wrong_alone(format: Call) -> Option<u64> {
    let Call::Format {
        n0,
        groups,
        sweeps,
        cap,
        edition,
    } = format
    else {
        return None;
    };
    let in_range = |edition| {
        State::asked(n0, groups, sweeps, cap, edition).is_some_and(|state| state.in_range())
    };
    (in_range(1) && !in_range(edition)).then_some(edition)
}

#[cfg(test)]
mod tests;
