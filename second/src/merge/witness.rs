//! Every merge held against the check of each file, the two record sets, the
//! search for room, the image from scratch, and other calls that have to come
//! to the same.

use crate::answer::{Answer, BROKEN, CLASH, NO_ROOM, WRONG_ROW};
use crate::answer::{NOT_THE_IMAGE, OUT_OF_RANGE, WRONG_AREA};
use crate::calls::Call;
use crate::differ::Site;
use crate::home::home;
use crate::image::{lay_out, records_of, standing};
use crate::merge::{merge, Merged};
use crate::page::Record;
use crate::room::fits;
use crate::state::State;
use crate::witness::must;

mod other_calls;

/// A merge that was made: what it was given and what it left.
#[derive(Clone, Copy)]
struct Made<'a> {
    living: Site<'a>,
    other: Site<'a>,
    row_before: &'a [u32],
    merged: Merged,
    area: &'a [u8],
    row: &'a [u32],
}

/// Makes a merge and checks it. An error says what doesn't agree.
pub fn witnessed(
    state: State,
    area: &mut [u8],
    other: Site,
    row: &mut [u32],
) -> Result<Merged, String> {
    let (before, row_before) = (area.to_vec(), row.to_vec());
    let merged = merge(state, area, other, row);
    let made = Made {
        living: Site {
            state,
            area: &before,
        },
        other,
        row_before: &row_before,
        merged,
        area,
        row,
    };
    made.judged().map_err(|what| {
        let other = other.state;
        format!("{what}: a merge of {other:?} into {state:?} gave {merged:?}")
    })?;
    Ok(merged)
}

impl Made<'_> {
    fn judged(&self) -> Result<(), String> {
        self.told_rightly()?;
        self.kept_what_it_should()?;
        match self.refused_by_check()? {
            Some(refused) => must(self.merged == refused, &format!("should be {refused:?}")),
            None => {
                self.against_the_sets()?;
                self.against_other_calls()
            }
        }
    }

    /// Only 4 tells a page and only 13 a key, nothing tells of records moved,
    /// and a file is told with just the refusals that are about one.
    fn told_rightly(&self) -> Result<(), String> {
        let Merged { answer, file } = self.merged;
        must(
            answer.page == 0 || answer.refusal == BROKEN,
            "a page is told",
        )?;
        must(
            answer.value == 0 || answer.refusal == CLASH,
            "a key is told",
        )?;
        must(answer.moved == 0, "something is told to have moved")?;
        let of_a_file =
            [OUT_OF_RANGE, WRONG_AREA, WRONG_ROW, BROKEN, NOT_THE_IMAGE].contains(&answer.refusal);
        must(of_a_file == (file != 0), "a file is told, or isn't")
    }

    /// "Refusals, in order and with both files unchanged"; the row is written
    /// "after success or 7" alone, and "merging an empty file changes no page".
    fn kept_what_it_should(&self) -> Result<(), String> {
        let answer = self.merged.answer;
        let same_area = self.area == self.living.area;
        let same = same_area && answer.state == self.living.state;
        must(
            answer.refusal == 0 || same,
            "a refusal changed the living file",
        )?;
        let counted = [0, NO_ROOM].contains(&answer.refusal);
        must(
            counted || self.row == self.row_before,
            "the row was touched",
        )?;
        must(
            self.other.state.records > 0 || same,
            "an empty file changed something",
        )
    }

    /// The refusal that comes before the records count: what a check says
    /// against the living file, with the row's in its midst, and then what one
    /// says against the other. None where all is right.
    fn refused_by_check(&self) -> Result<Option<Merged>, String> {
        let checked = |site: Site| {
            crate::witness::witnessed(Call::Check, site.state, &mut site.area.to_vec(), &mut [])
        };
        let state = self.living.state;
        let (one, two) = (checked(self.living)?, checked(self.other)?);
        let wrong_row = self.row.len() != usize::from(state.cap);
        let (file, refusal, read) = match (one.refusal, two.refusal) {
            (OUT_OF_RANGE | WRONG_AREA, _) => (1, one, 0),
            _ if wrong_row => (1, Answer::refused(state, WRONG_ROW, 0), 0),
            (BROKEN | NOT_THE_IMAGE, _) => (1, one, one.read),
            (_, OUT_OF_RANGE | WRONG_AREA) => (2, two, 0),
            (_, BROKEN | NOT_THE_IMAGE) => (2, two, one.read + two.read),
            _ => return Ok(None),
        };
        let answer = Answer {
            read,
            state,
            ..refusal
        };
        Ok(Some(Merged { answer, file }))
    }

    /// Two files that pass their checks, and a row of the right length.
    fn against_the_sets(&self) -> Result<(), String> {
        let held = |site: Site| records_of(site.state, site.area).ok_or("checked, but no image");
        let (one, two) = (held(self.living)?, held(self.other)?);
        let both = in_either(&one, &two);
        let right = self.right_answer(clashing(&one, &two), &both)?;
        must(self.merged == right.into(), &format!("should be {right:?}"))?;
        if right.refusal != CLASH {
            let counts = homes_counted(self.living.state, &both);
            must(self.row == counts, "the row holds other counts")?;
        }
        if right.refusal == 0 {
            self.is_the_image_of(right.state, &both)?;
        }
        Ok(())
    }

    /// "then 13 with the lowest clashing key in the value field, then 7 exactly
    /// when no arrangement of both sets exists".
    fn right_answer(&self, clashing: Vec<u64>, both: &[Record]) -> Result<Answer, String> {
        let state = self.living.state;
        let read = usize::from(state.cap) + usize::from(self.other.state.cap);
        if let Some(&lowest) = clashing.iter().min() {
            return Ok(Answer {
                value: lowest,
                ..Answer::refused(state, CLASH, read)
            });
        }
        let keys: Vec<u64> = both.iter().map(|record| record.key).collect();
        if !fits(state, &keys)? {
            return Ok(Answer::refused(state, NO_ROOM, read));
        }
        let records = both.len() as u32;
        Ok(Answer::accepted(State { records, ..state }, read))
    }

    /// All records of both stand in the area and nothing else does, a check
    /// finds nothing wrong, and they lie as they do when laid out anew.
    fn is_the_image_of(&self, state: State, both: &[Record]) -> Result<(), String> {
        let mut stand: Vec<Record> = standing(self.area)
            .iter()
            .map(|(_, record)| *record)
            .collect();
        let mut wanted = both.to_vec();
        for records in [&mut stand, &mut wanted] {
            records.sort_unstable_by_key(|record| (record.key, record.value));
        }
        must(stand == wanted, "other records stand in the area")?;
        let check = crate::check::check(state, self.area);
        must(check.refusal == 0, "a check refuses what the merge left")?;
        let image = lay_out(state, both);
        let same = image.as_deref() == Some(self.area);
        must(same, "the area isn't the image from scratch")
    }
}

/// The keys that both hold with two values.
fn clashing(one: &[Record], two: &[Record]) -> Vec<u64> {
    let clashes = |held: &&Record| {
        let mut others = two.iter();
        others.any(|other| other.key == held.key && other.value != held.value)
    };
    one.iter().filter(clashes).map(|held| held.key).collect()
}

/// The records of the first set, and those of the second that aren't in it.
fn in_either(one: &[Record], two: &[Record]) -> Vec<Record> {
    let new = two.iter().filter(|record| !one.contains(record));
    one.iter().chain(new).copied().collect()
}

/// How many records live on each lent page.
fn homes_counted(state: State, records: &[Record]) -> Vec<u32> {
    let homes: Vec<u64> = records
        .iter()
        .map(|record| home(state, record.key))
        .collect();
    let living_on = |page: u64| homes.iter().filter(|&&home| home == page).count() as u32;
    (0..u64::from(state.cap)).map(living_on).collect()
}

#[cfg(test)]
mod tests;
