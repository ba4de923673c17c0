//! Files that the tests of comparisons and of merges are made with. Both calls
//! take two files, so that what is right or wrong with one is the same in both.

use crate::answer::{BROKEN, NOT_THE_IMAGE, OUT_OF_RANGE, WRONG_AREA};
use crate::calls::Call;
use crate::differ::Site;
use crate::home::next_draw;
use crate::image::lay_out;
use crate::page::{Record, PAGE_BYTES};
use crate::state::State;
use crate::trial::Trial;

/// An empty file of edition 1 on the first of two pages.
pub const STATE: State = State {
    n0: 1,
    groups: 1,
    sweeps: 1,
    pages: 1,
    cap: 2,
    edition: 1,
    records: 0,
};

/// Keys with their values.
pub type Pairs = [(u64, u64)];

pub fn records(pairs: &Pairs) -> Vec<Record> {
    let record = |&(key, value): &(u64, u64)| Record { key, value };
    pairs.iter().map(record).collect()
}

/// State and area of a file of this size with these records, laid out without
/// a call.
pub fn file(size: State, pairs: &Pairs) -> (State, Vec<u8>) {
    let area = lay_out(size, &records(pairs)).unwrap_or_default();
    let records = pairs.len() as u32;
    (State { records, ..size }, area)
}

/// A file with these records, grown so often before they are put.
pub fn grown(start: [u16; 3], cap: u16, edition: u64, grows: u16, records: &Pairs) -> Trial {
    let mut file = Trial::fresh(start, cap, edition).expect("agrees");
    let puts = records.iter().map(|&(key, value)| Call::Put { key, value });
    let grows = std::iter::repeat_n(Call::Grow, grows.into());
    for call in grows.chain(puts) {
        let answer = file.ask(call).expect("agrees");
        assert_eq!(answer.refusal, 0, "{call:?}");
    }
    file
}

/// A file of edition 1 with n0, N and s all 1 and these records.
pub fn holding(cap: u16, records: &Pairs) -> Trial {
    grown([1, 1, 1], cap, 1, 0, records)
}

pub fn site(file: &Trial) -> Site<'_> {
    Site {
        state: file.state,
        area: &file.area,
    }
}

pub fn copy(file: &Trial) -> Trial {
    Trial {
        state: file.state,
        area: file.area.clone(),
    }
}

/// What a check of a file can be refused with.
pub const REFUSALS: [u16; 4] = [OUT_OF_RANGE, WRONG_AREA, BROKEN, NOT_THE_IMAGE];

/// A file of so many pages with one record, wrong so that a check gives this
/// refusal: its edition, its length, its last page or its count.
pub fn wrong(cap: u16, value: u64, refusal: u16) -> Trial {
    let mut file = holding(cap, &[(5, value)]);
    match refusal {
        OUT_OF_RANGE => file.state.edition = 3,
        WRONG_AREA => file.area.push(0),
        BROKEN => file.area[PAGE_BYTES * (usize::from(cap) - 1)] ^= 1,
        NOT_THE_IMAGE => file.state.records = 2,
        _ => {}
    }
    file
}

/// A file of so many pages with one record, of which these pages are broken.
pub fn broken(cap: u16, pages: &[usize]) -> Trial {
    let mut file = wrong(cap, 9, 0);
    for page in pages {
        file.area[PAGE_BYTES * page + 10] ^= 1;
    }
    file
}

/// Draws one number after the other, and from them keys and files.
pub struct Draws {
    /// The last number drawn.
    pub last: u64,
    /// How many small keys there are, and as many spread ones.
    pub keys: u64,
    /// A file is lent fewer than so many pages beyond those it starts with.
    pub spare_pages: u64,
    /// The value of a record of a file.
    pub value: fn(&mut Draws) -> u64,
}

impl Draws {
    pub fn below(&mut self, limit: u64) -> u64 {
        self.last = next_draw(self.last);
        self.last % limit
    }

    /// A key: one of few small ones, or of few that are spread over all 64
    /// bits.
    pub fn key(&mut self) -> u64 {
        let small = self.below(self.keys);
        match self.below(2) {
            0 => small,
            _ => small.wrapping_mul(0x9e37_79b9_7f4a_7c15),
        }
    }

    /// A file with numbers of its own and up to so many records. Where there is
    /// no room for a record it is left out.
    pub fn file(&mut self, most: u64) -> Trial {
        let start = [3, 3, 8].map(|limit| 1 + self.below(limit) as u16);
        let least = start[0] * start[1];
        let cap = least + self.below(self.spare_pages) as u16;
        let mut file = Trial::fresh(start, cap, 1 + self.below(2)).expect("agrees");
        for _ in 0..self.below(u64::from(cap - least) + 1) {
            file.ask(Call::Grow).expect("agrees");
        }
        for _ in 0..self.below(most + 1) {
            let (key, value) = (self.key(), (self.value)(self));
            file.ask(Call::Put { key, value }).expect("agrees");
        }
        file
    }
}
