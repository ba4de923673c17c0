//! Every call held against the image from scratch and the search for room.

use crate::answer::{Answer, BROKEN, CLASH, NO_ROOM, REPEAT};
use crate::calls::{call, Call};
use crate::check::check;
use crate::expected::{expect, refused_unread, Expected};
use crate::home::home;
use crate::image::{changed_page, lay_out, records_of, standing};
use crate::page::Record;
use crate::state::State;

/// Makes a call and checks it. An error says what doesn't agree.
pub fn witnessed(
    asked: Call,
    state: State,
    area: &mut [u8],
    row: &mut [u32],
) -> Result<Answer, String> {
    let before = area.to_vec();
    let row_before = row.to_vec();
    let answer = call(asked, state, area, row);
    let told = |what: String| format!("{what}: {asked:?} on {state:?} gave {answer:?}");
    refusal_changes_nothing(&answer, state, &before, area).map_err(told)?;
    held_told_rightly(asked, &answer, &before).map_err(told)?;
    edition_told_rightly(asked, state, &answer).map_err(told)?;
    row_touched_rightly(asked, &answer, &row_before, row, area).map_err(told)?;
    if state.in_range() && before.len() == state.area_bytes() {
        checked_first(asked, state, &before, row, &answer).map_err(told)?;
        against_the_image(asked, state, &before, area, row, &answer).map_err(told)?;
        there_and_back(asked, state, &before, area, &answer).map_err(told)?;
    }
    Ok(answer)
}

/// An error with these words where something doesn't hold.
pub fn must(holds: bool, what: &str) -> Result<(), String> {
    if holds {
        Ok(())
    } else {
        Err(what.to_string())
    }
}

/// "A refusal leaves area and state unchanged; page is 0 except for 4, value
/// 0 except for 6, moved 0." A clash tells a value as 6 does.
fn refusal_changes_nothing(
    answer: &Answer,
    state: State,
    before: &[u8],
    area: &[u8],
) -> Result<(), String> {
    if answer.refusal == 0 {
        return must(answer.page == 0, "an accepted call tells a page");
    }
    must(
        answer.state == state && before == area,
        "a refusal changed something",
    )?;
    must(
        answer.page == 0 || answer.refusal == BROKEN,
        "a page is told",
    )?;
    must(
        answer.value == 0 || [REPEAT, CLASH].contains(&answer.refusal),
        "a value is told",
    )?;
    must(answer.moved == 0, "a refusal moved something")
}

/// On any bytes, images or not: only a put repeats or clashes, the value told
/// stands somewhere beside the key, and it is a repeat exactly where that
/// value was offered.
fn held_told_rightly(asked: Call, answer: &Answer, area: &[u8]) -> Result<(), String> {
    if ![REPEAT, CLASH].contains(&answer.refusal) {
        return Ok(());
    }
    let Call::Put { key, value } = asked else {
        return must(false, "only a put is told what is held");
    };
    let told = Record {
        key,
        value: answer.value,
    };
    let stands = standing(area).iter().any(|(_, record)| *record == told);
    must(stands, "the value told isn't held with the key")?;
    let repeats = answer.refusal == REPEAT;
    must(
        repeats == (answer.value == value),
        "a repeat and a clash are mixed up",
    )
}

/// On any bytes: an accepted format gives the edition that it was asked for,
/// and every other call leaves the edition as it was. One that there isn't is
/// accepted by due alone, which answers no.
fn edition_told_rightly(asked: Call, state: State, answer: &Answer) -> Result<(), String> {
    if answer.refusal != 0 {
        return Ok(());
    }
    let wanted = match asked {
        Call::Format { edition, .. } => edition,
        _ => u64::from(state.edition),
    };
    must(
        u64::from(answer.state.edition) == wanted,
        "another edition is told",
    )?;
    let known = [1, 2].contains(&wanted);
    must(known || asked == Call::Due, "no edition, but accepted")?;
    must(known || !answer.state.due(), "no edition, but due")
}

/// Only a grow that succeeds or finds no room may write the row, and then it
/// has to hold the homes at size P + 1.
fn row_touched_rightly(
    asked: Call,
    answer: &Answer,
    before: &[u32],
    row: &[u32],
    area: &[u8],
) -> Result<(), String> {
    let grown = match (asked, answer.refusal) {
        (Call::Grow, 0) => answer.state,
        (Call::Grow, NO_ROOM) => answer.state.one_page_grown(),
        _ => return must(before == row, "the row was touched"),
    };
    let mut counts = vec![0; row.len()];
    for (_, record) in standing(area) {
        counts[home(grown, record.key) as usize] += 1;
    }
    must(counts == row, "the row holds other counts")
}

/// On any bytes: grow "first checks the whole file" and shrink has "the same
/// check of the whole file first". So once nothing is refused before a page is
/// judged, both are refused with 4 and 9 exactly as a check is, and have read
/// as many pages in any case. Behind the check a growth may still find no room;
/// a shrink has nothing left to refuse.
fn checked_first(
    asked: Call,
    state: State,
    before: &[u8],
    row: &[u32],
    answer: &Answer,
) -> Result<(), String> {
    if !matches!(asked, Call::Grow | Call::Shrink) {
        return Ok(());
    }
    let first = match refused_unread(asked, state, row.len()) {
        Some(refusal) => Answer::refused(state, refusal, 0),
        None => check(state, before),
    };
    if first.refusal != 0 {
        return must(*answer == first, &format!("should be {first:?}"));
    }
    let goes_on = match answer.refusal {
        0 => true,
        NO_ROOM => asked == Call::Grow,
        _ => false,
    };
    must(
        goes_on && answer.read == first.read,
        "a check accepts what this refuses",
    )
}

/// "An accepted growth followed at once by a shrink gives back the same bytes
/// and state." So does an accepted shrink followed by a growth, which can't be
/// refused, since the records had room at that size. The same records move, so
/// nothing but the state is told otherwise.
fn there_and_back(
    asked: Call,
    state: State,
    before: &[u8],
    area: &[u8],
    answer: &Answer,
) -> Result<(), String> {
    let back = match (asked, answer.refusal) {
        (Call::Grow, 0) => Call::Shrink,
        (Call::Shrink, 0) => Call::Grow,
        _ => return Ok(()),
    };
    let mut again = area.to_vec();
    let mut row = vec![0; usize::from(state.cap)];
    let returned = call(back, answer.state, &mut again, &mut row);
    let returns = returned == Answer { state, ..*answer } && again == before;
    must(returns, &format!("{back:?} doesn't lead back"))
}

fn against_the_image(
    asked: Call,
    state: State,
    before: &[u8],
    area: &[u8],
    row: &[u32],
    answer: &Answer,
) -> Result<(), String> {
    if matches!(asked, Call::Due | Call::Format { .. }) {
        return Ok(());
    }
    let Some(records) = records_of(state, before) else {
        let whole = matches!(asked, Call::Check | Call::Grow | Call::Shrink);
        let claims = whole && [0, NO_ROOM].contains(&answer.refusal);
        return must(!claims, "taken for an image");
    };
    let expected = expect(asked, state, row.len(), records)?;
    answer_is(answer, &expected)?;
    let image = lay_out(expected.state, &expected.records);
    let same = image.as_deref() == Some(area);
    must(same, "the area isn't the image from scratch")?;
    let moved = changed_page(before, area);
    let right = answer.moved as usize == moved;
    must(right, &format!("moved should be {moved}"))
}

fn answer_is(answer: &Answer, expected: &Expected) -> Result<(), String> {
    let told = (answer.refusal, answer.value, answer.state);
    let right = (expected.refusal, expected.value, expected.state);
    let what = format!("refusal, value and state should be {right:?}");
    must(told == right, &what)
}

#[cfg(test)]
mod tests;
