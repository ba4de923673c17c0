//! A small file to try calls on, one after the other.

use crate::answer::Answer;
use crate::calls::Call;
use crate::image::standing;
use crate::state::State;
use crate::witness::witnessed;

/// A file with its area, to make one call after the other on.
pub struct Trial {
    pub state: State,
    pub area: Vec<u8>,
}

impl Trial {
    /// A fresh file of edition 1 with n0, N and s all 1.
    pub fn of_ones(cap: u16) -> Result<Trial, String> {
        Trial::of_edition(1, cap)
    }

    /// A fresh file of this edition with n0, N and s all 1.
    pub fn of_edition(edition: u64, cap: u16) -> Result<Trial, String> {
        Trial::fresh([1, 1, 1], cap, edition)
    }

    /// A fresh file with this n0, N and s.
    pub fn fresh(start: [u16; 3], cap: u16, edition: u64) -> Result<Trial, String> {
        let [n0, groups, sweeps] = start;
        let mut trial = Trial {
            state: State::default(),
            area: vec![0; 256 * usize::from(cap)],
        };
        trial.ask(Call::Format {
            n0,
            groups,
            sweeps,
            cap,
            edition,
        })?;
        Ok(trial)
    }

    pub fn ask(&mut self, call: Call) -> Result<Answer, String> {
        let mut row = vec![0; usize::from(self.state.cap)];
        let answer = witnessed(call, self.state, &mut self.area, &mut row)?;
        self.state = answer.state;
        Ok(answer)
    }

    /// Puts the keys from 0 up and gives the last answer's refusal.
    pub fn put_up_to(&mut self, last: u64) -> Result<u16, String> {
        self.put_all(0..=last)
    }

    /// Puts these keys, each with its tenfold as value, and gives the last
    /// answer's refusal.
    pub fn put_all(&mut self, keys: impl IntoIterator<Item = u64>) -> Result<u16, String> {
        let mut refusal = 0;
        for key in keys {
            let value = key.wrapping_mul(10);
            refusal = self.ask(Call::Put { key, value })?.refusal;
        }
        Ok(refusal)
    }

    /// The keys on a page, in the order in which they stand.
    pub fn keys_on(&self, page: usize) -> Vec<u64> {
        let here = standing(&self.area)
            .into_iter()
            .filter(|(address, _)| *address == page);
        here.map(|(_, record)| record.key).collect()
    }
}
