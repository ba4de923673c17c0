//! Merges held against what other calls say of the same files: a comparison,
//! the puts made one by one, and merges the other way round and once more.

use super::{Made, Merged, Site};
use crate::answer::{CLASH, NO_ROOM, REPEAT};
use crate::differ::read_back::{read_back, Difference};
use crate::differ::whole_list;
use crate::image::standing;
use crate::merge::merge;
use crate::page::Record;
use crate::put::put;
use crate::state::State;
use crate::witness::must;

impl Made<'_> {
    /// For two files that pass their checks, and a row of the right length.
    pub(super) fn against_other_calls(&self) -> Result<(), String> {
        self.as_compared()?;
        self.as_put_one_by_one()?;
        self.other_way_round()?;
        if self.merged.answer.refusal == 0 {
            self.once_more()?;
        }
        Ok(())
    }

    /// The living file as the merge left it.
    fn left(&self) -> Site<'_> {
        Site {
            state: self.merged.answer.state,
            area: self.area,
        }
    }

    /// A clash is told exactly where a comparison lists a key with two values,
    /// and then it is the first of them, since the list rises by key. What a
    /// merge adds is what the comparison before listed as only in the other.
    pub(super) fn as_compared(&self) -> Result<(), String> {
        let before = differences(self.living, self.other)?;
        let two_values = |difference: &&Difference| difference.number() == 2;
        let first = before.iter().find(two_values).map(|first| first.key());
        let answer = self.merged.answer;
        let told = (answer.refusal == CLASH).then_some(answer.value);
        must(told == first, &format!("compared, {first:?} clashes first"))?;
        if answer.refusal == 0 {
            let only_other = before.into_iter().filter(|one| one.number() == 1);
            let added = differences(self.living, self.left())?;
            must(
                added == only_other.collect::<Vec<_>>(),
                "another set is added",
            )?;
            let since = differences(self.left(), self.other)?;
            let none_lost = since.iter().all(|one| one.number() == 0);
            must(none_lost, "not all records of the other file are there")?;
        }
        Ok(())
    }

    /// "the records it added count as put": put one by one, in the order in
    /// which the other file keeps them, they lead to the same bytes and state.
    /// A merge is refused with 13 or 7 exactly where one of the puts is.
    pub(super) fn as_put_one_by_one(&self) -> Result<(), String> {
        let mut state = self.living.state;
        let mut area = self.living.area.to_vec();
        let mut refused = [false; 2];
        for (_, record) in standing(self.other.area) {
            let answer = put(state, &mut area, record);
            state = answer.state;
            match answer.refusal {
                0 | REPEAT => {}
                CLASH => refused[0] = true,
                NO_ROOM => refused[1] = true,
                _ => return must(false, "a put of the other's record is refused"),
            }
        }
        let right = match refused {
            [true, _] => CLASH,
            [false, true] => NO_ROOM,
            _ => 0,
        };
        let answer = self.merged.answer;
        must(answer.refusal == right, &format!("puts come to {right}"))?;
        let same = area == self.area && state == answer.state;
        must(right != 0 || same, "puts lead to another file")
    }

    /// "Merging the first into the second or the second into the first gives,
    /// where both are accepted, the same record set; with equal parameters,
    /// size, edition and lent pages, the same bytes." A clash is one both ways
    /// round, with the same lowest key.
    pub(super) fn other_way_round(&self) -> Result<(), String> {
        let mut area = self.other.area.to_vec();
        let mut row = vec![0; usize::from(self.other.state.cap)];
        let turned = merge(self.other.state, &mut area, self.living, &mut row);
        let (there, back) = (self.merged.answer, turned.answer);
        let clash = |merged: Merged| {
            let answer = merged.answer;
            (answer.refusal == CLASH).then_some(answer.value)
        };
        must(
            clash(self.merged) == clash(turned) && there.read == back.read,
            "the other way round another key clashes",
        )?;
        let of_no_records = |state: State| State {
            records: 0,
            ..state
        };
        let alike = of_no_records(there.state) == of_no_records(back.state);
        must(
            !alike || there.refusal == back.refusal,
            "with equal numbers the other way round is refused otherwise",
        )?;
        let counted = there.refusal != CLASH;
        must(
            !(alike && counted) || self.row == row,
            "with equal numbers the other way round is counted otherwise",
        )?;
        if (there.refusal, back.refusal) == (0, 0) {
            must(
                set_of(self.area) == set_of(&area),
                "another set turned round",
            )?;
            must(!alike || self.area == area, "other bytes turned round")?;
        }
        Ok(())
    }

    /// All that the other file holds is there now, so that nothing is added to
    /// what an accepted merge left.
    pub(super) fn once_more(&self) -> Result<(), String> {
        let mut area = self.area.to_vec();
        let mut row = vec![0; self.row.len()];
        let again = merge(self.merged.answer.state, &mut area, self.other, &mut row);
        let same = again == self.merged && area == self.area && row == self.row;
        must(same, "once more it comes to something else")
    }
}

/// What a comparison lists of two files that pass their checks.
fn differences(first: Site, second: Site) -> Result<Vec<Difference>, String> {
    let list = whole_list(first, second).map_err(|told| format!("compared: {told:?}"))?;
    read_back(&list).ok_or_else(|| "what is compared gives no list".to_string())
}

/// The records that stand in an area, by key.
fn set_of(area: &[u8]) -> Vec<(u64, u64)> {
    let pair = |(_, record): (usize, Record)| (record.key, record.value);
    let mut set: Vec<(u64, u64)> = standing(area).into_iter().map(pair).collect();
    set.sort_unstable();
    set
}
