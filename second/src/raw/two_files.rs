//! The calls on two files: comparisons and merges.

use super::{state_of, Case, STATE_BYTES};
use crate::differ::{self, Compared, Site};
use crate::merge;
use std::mem::take;

impl Case {
    /// The first file, which is the only one of most calls.
    pub fn first_file(&self) -> Site<'_> {
        Site {
            state: self.state,
            area: &self.area,
        }
    }

    /// The second file, None where there isn't even a whole state of it.
    pub fn second_file(&self) -> Option<Site<'_>> {
        let (state, area) = self.second.split_at_checked(STATE_BYTES)?;
        let state = state_of(state);
        Some(Site { state, area })
    }

    /// Compares the two files, None where there is no second one. Both are lent
    /// while the room is written, so the room is taken out for that time.
    pub(super) fn compare(&mut self) -> Result<Option<Compared>, String> {
        let mut room = take(&mut self.room);
        let second = self.second_file();
        let made =
            second.map(|second| differ::witness::witnessed(self.first_file(), second, &mut room));
        self.room = room;
        made.transpose()
    }

    /// Merges the second file into the first, None where there is no second
    /// one. That is lent while area and row are written, so these are taken out
    /// for that time. No room is taken.
    pub(super) fn merge(&mut self) -> Result<Option<Compared>, String> {
        let (mut area, mut row) = (take(&mut self.area), take(&mut self.row));
        let second = self.second_file();
        let made =
            second.map(|second| merge::witness::witnessed(self.state, &mut area, second, &mut row));
        (self.area, self.row) = (area, row);
        let told = made.transpose()?.map(|merged| Compared {
            file: merged.file,
            ..merged.answer.into()
        });
        Ok(told)
    }
}
