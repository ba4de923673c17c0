//! The small state that goes into each call as a value and comes back as one.

use crate::page::{PAGE_BYTES, SLOTS};

/// The editions there are. They differ in where a key lives.
pub const EDITIONS: std::ops::RangeInclusive<u16> = 1..=2;

/// n0, N, s, P, cap, edition and r of the rules.
#[derive(Clone, Copy, Debug, Default, PartialEq, Eq)]
pub struct State {
    /// n0: pages per group at the start.
    pub n0: u16,
    /// N: groups at the start.
    pub groups: u16,
    /// s: sweeps.
    pub sweeps: u16,
    /// P: pages grown to.
    pub pages: u16,
    /// cap: pages lent.
    pub cap: u16,
    /// Which draw each step uses; 0 before a format, which is no edition.
    pub edition: u16,
    /// r: records held.
    pub records: u32,
}

impl State {
    /// The state that a format asks for: "P = n0 x N, r = 0". None where that
    /// product or the edition doesn't fit two bytes, which is out of range in
    /// any case.
    pub fn asked(n0: u16, groups: u16, sweeps: u16, cap: u16, edition: u64) -> Option<State> {
        let pages = n0.checked_mul(groups)?;
        let edition = u16::try_from(edition).ok()?;
        Some(State {
            n0,
            groups,
            sweeps,
            pages,
            cap,
            edition,
            records: 0,
        })
    }

    /// n0 x N, wide enough for any two numbers of two bytes.
    pub fn start_pages(self) -> u64 {
        u64::from(self.n0) * u64::from(self.groups)
    }

    /// The most records the lent pages can hold.
    pub fn most_records(self) -> u64 {
        SLOTS as u64 * u64::from(self.cap)
    }

    /// Whether all seven numbers are in their ranges.
    pub fn in_range(self) -> bool {
        let parameters = (1..=4).contains(&self.n0)
            && (1..=64).contains(&self.groups)
            && (1..=8).contains(&self.sweeps)
            && (1..=4096).contains(&self.cap)
            && EDITIONS.contains(&self.edition);
        let grown = self.start_pages() <= u64::from(self.pages) && self.pages <= self.cap;
        parameters && grown && u64::from(self.records) <= self.most_records()
    }

    /// "Growth is due exactly when 5r > 48P"; out of range answers no.
    pub fn due(self) -> bool {
        self.in_range() && 5 * u64::from(self.records) > 48 * u64::from(self.pages)
    }

    /// How long the lent area has to be.
    pub fn area_bytes(self) -> usize {
        PAGE_BYTES * usize::from(self.cap)
    }

    /// Whether r stands at 12 x cap.
    pub fn at_most_records(self) -> bool {
        u64::from(self.records) == self.most_records()
    }

    /// The same file with one record more.
    pub fn one_more(self) -> State {
        State {
            records: self.records + 1,
            ..self
        }
    }

    /// The same file with one record less.
    pub fn one_less(self) -> State {
        State {
            records: self.records - 1,
            ..self
        }
    }

    /// The same file one page larger.
    pub fn one_page_grown(self) -> State {
        State {
            pages: self.pages + 1,
            ..self
        }
    }

    /// Whether P stands at n0 x N, where there is no page to give back.
    pub fn at_start_pages(self) -> bool {
        u64::from(self.pages) == self.start_pages()
    }

    /// The same file one page smaller.
    pub fn one_page_shrunk(self) -> State {
        State {
            pages: self.pages - 1,
            ..self
        }
    }
}

#[cfg(test)]
mod tests {
    use super::*;

    const GOOD: State = State {
        n0: 2,
        groups: 2,
        sweeps: 1,
        pages: 4,
        cap: 8,
        edition: 1,
        records: 38,
    };

    #[test]
    fn due_at_four_pages() {
        assert!(!GOOD.due());
        assert!(GOOD.one_more().due());
        assert!(!State {
            sweeps: 0,
            ..GOOD.one_more()
        }
        .due());
    }

    #[test]
    fn every_number_has_its_range() {
        assert!(GOOD.in_range());
        let wrong: [fn(&mut State); 15] = [
            |state| state.n0 = 0,
            |state| (state.n0, state.groups, state.pages) = (5, 1, 5),
            |state| state.groups = 0,
            |state| (state.n0, state.groups, state.pages, state.cap) = (1, 65, 65, 65),
            |state| state.sweeps = 0,
            |state| state.sweeps = 9,
            |state| state.pages = 3,
            |state| state.pages = 9,
            |state| state.cap = 0,
            |state| state.cap = 4097,
            |state| state.edition = 0,
            |state| state.edition = 3,
            |state| state.edition = 257,
            |state| state.edition = 65535,
            |state| state.records = 97,
        ];
        for change in wrong {
            let mut state = GOOD;
            change(&mut state);
            assert!(!state.in_range(), "{state:?}");
        }
        let right: [fn(&mut State); 2] = [|state| state.records = 96, |state| state.edition = 2];
        for change in right {
            let mut state = GOOD;
            change(&mut state);
            assert!(state.in_range(), "{state:?}");
        }
    }

    /// Four pages are those of the start; the fifth can be given back.
    #[test]
    fn a_page_grown_is_given_back() {
        assert!(GOOD.at_start_pages());
        let grown = GOOD.one_page_grown();
        assert!(!grown.at_start_pages());
        assert_eq!((grown.pages, grown.one_page_shrunk()), (5, GOOD));
    }

    /// 39 records are due in either edition and in no other.
    #[test]
    fn due_needs_an_edition() {
        let due = |edition| {
            State {
                edition,
                ..GOOD.one_more()
            }
            .due()
        };
        assert_eq!(
            (0..=u16::MAX).filter(|&e| due(e)).collect::<Vec<_>>(),
            [1, 2]
        );
    }

    #[test]
    fn an_asked_product_may_not_fit() {
        assert_eq!(State::asked(65535, 65535, 1, 1, 1), None);
        assert_eq!(State::asked(1, 1, 1, 2, 1).map(State::in_range), Some(true));
    }

    /// The edition asked for counts as a whole number, not by its low bytes.
    #[test]
    fn an_asked_edition_is_one_or_two() {
        let asked = |edition| State::asked(1, 1, 1, 2, edition).filter(|state| state.in_range());
        for edition in [1, 2] {
            assert_eq!(
                asked(edition).map(|state| u64::from(state.edition)),
                Some(edition)
            );
        }
        for edition in [0, 3, 257, 65535, 65536, 65537, 1 << 32 | 2, 1 << 63 | 1] {
            assert_eq!(asked(edition), None, "{edition}");
        }
        assert_eq!(asked(u64::MAX), None);
    }
}
