//! Takes the generated cases, answers each and keeps both in batches.

use crate::comparison_ways::swapped;
use crate::idle;
use crate::merge_ways::{self, turned};
use crate::random::Random;
use crate::table::Table;
use crate::ways::{pairs, Pair};
use second::raw::{Case, MERGE_KIND};

/// What is asked and what this program answers.
pub struct Asked {
    pub kind: u16,
    pub record: Vec<u8>,
    pub reply: Vec<u8>,
    /// What it counts for in the table.
    pub pairs: Vec<Pair>,
}

/// Gathers cases until as many as wanted are there.
pub struct Sink {
    pub asked: Vec<Asked>,
    pub table: Table,
    left: u64,
    /// Draws for the idle fields only, so that they change no case otherwise.
    idle: Random,
}

impl Sink {
    pub fn new(seed: u64, wanted: u64) -> Sink {
        Sink {
            asked: Vec::new(),
            table: Table::default(),
            left: wanted,
            idle: Random::new(seed, 1 << 62),
        }
    }

    pub fn full(&self) -> bool {
        self.left == 0
    }

    /// Answers a case, with anything in its idle fields, and gives it back as
    /// the call left it. Cases beyond the wanted number are answered but not
    /// kept. An error tells that this program disagrees with itself.
    pub fn ask(&mut self, case: Case) -> Result<Case, String> {
        let mut after = case;
        idle::fill(&mut self.idle, &mut after);
        let record = after.record();
        // A merge may change the very records that tell what it was like.
        let before = (after.kind == MERGE_KIND).then(|| after.clone());
        let Some((answer, reply)) = after.answer()? else {
            return Ok(after);
        };
        if self.left > 0 {
            self.left -= 1;
            let mut pairs = pairs(&after, answer.refusal);
            if let Some(before) = before {
                pairs.extend(merge_ways::pairs(&before, &after, &reply));
                pairs.extend(self.turned_round(&before, &reply));
            }
            // A comparison may be the one before it the other way round.
            let last = self.asked.last().map(|last| &last.record[..]);
            pairs.extend(last.and_then(|last| swapped(last, &after, answer.refusal)));
            for &(row, number) in &pairs {
                self.table.count(row, number);
            }
            self.table.count_due(after.kind, answer.state.due());
            self.table.note(answer.read, answer.moved);
            self.asked.push(Asked {
                kind: after.kind,
                record,
                reply,
                pairs,
            });
        }
        Ok(after)
    }

    /// What a merge counts for where the one before it had the files the other
    /// way round.
    fn turned_round(&self, merge: &Case, reply: &[u8]) -> Option<Pair> {
        let last = self.asked.last()?;
        turned(&last.record, &last.reply, merge, reply)
    }
}
