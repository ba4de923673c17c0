//! A list of differences read back from its bytes.

use crate::bytes::{eight, four, two};
use crate::page::Record;

/// One difference of a list.
#[derive(Clone, Copy, Debug, PartialEq, Eq)]
pub enum Difference {
    OnlyFirst(Record),
    OnlySecond(Record),
    TwoValues { key: u64, first: u64, second: u64 },
}

impl Difference {
    pub fn key(self) -> u64 {
        match self {
            Difference::OnlyFirst(record) | Difference::OnlySecond(record) => record.key,
            Difference::TwoValues { key, .. } => key,
        }
    }

    /// Which of the three kinds it is, in the order in which the closing record
    /// counts them.
    pub fn number(self) -> usize {
        match self {
            Difference::OnlyFirst(_) => 0,
            Difference::OnlySecond(_) => 1,
            Difference::TwoValues { .. } => 2,
        }
    }
}

/// Reads a whole list. None where a head is wrong, where it doesn't end with
/// its closing record, or where that counts otherwise.
pub fn read_back(list: &[u8]) -> Option<Vec<Difference>> {
    let mut differences = Vec::new();
    let mut counts = [0; 3];
    let mut rest = list;
    loop {
        let length = usize::from(two(rest.get(..2)?, 0));
        let (record, behind) = rest.split_at_checked(length)?;
        rest = behind;
        match (length, two(record.get(2..4)?, 0)) {
            (16, 772) => break,
            (_, kind) => differences.push(difference(kind, record)?),
        }
    }
    for difference in &differences {
        counts[difference.number()] += 1;
    }
    let closing = list.len() - rest.len() - 16;
    let told = [4, 8, 12].map(|at| four(list, closing + at));
    (rest.is_empty() && told == counts).then_some(differences)
}

/// The difference that a record spells, None where its length is wrong for its
/// kind or there is no such kind.
fn difference(kind: u16, record: &[u8]) -> Option<Difference> {
    match (record.len(), kind) {
        (20, 769) => Some(Difference::OnlyFirst(only(record))),
        (20, 770) => Some(Difference::OnlySecond(only(record))),
        (28, 771) => Some(Difference::TwoValues {
            key: eight(record, 4),
            first: eight(record, 12),
            second: eight(record, 20),
        }),
        _ => None,
    }
}

fn only(record: &[u8]) -> Record {
    Record {
        key: eight(record, 4),
        value: eight(record, 12),
    }
}

#[cfg(test)]
mod tests {
    use super::*;
    use crate::commands::hex;

    /// Key 3 with 4 only in the first, key 5 with 6 only in the second, and key
    /// 7 with 8 and 9.
    const THREE: &str = "1400 0103 0300000000000000 0400000000000000
        1400 0203 0500000000000000 0600000000000000
        1C00 0303 0700000000000000 0800000000000000 0900000000000000
        1000 0403 01000000 01000000 01000000";

    #[test]
    fn every_kind_is_read() {
        let record = |key, value| Record { key, value };
        let both = Difference::TwoValues {
            key: 7,
            first: 8,
            second: 9,
        };
        let three = [
            Difference::OnlyFirst(record(3, 4)),
            Difference::OnlySecond(record(5, 6)),
            both,
        ];
        assert_eq!(read_back(&hex(THREE)), Some(three.to_vec()));
        assert_eq!(three.map(Difference::key), [3, 5, 7]);
        let none = hex("1000 0403 00000000 00000000 00000000");
        assert_eq!(read_back(&none), Some(Vec::new()));
    }

    #[test]
    fn what_is_no_list_is_told() {
        let whole = hex(THREE);
        for length in 0..whole.len() {
            assert_eq!(read_back(&whole[..length]), None, "{length} bytes");
        }
        for more in 1..40 {
            let longer = [&whole[..], &vec![0; more]].concat();
            assert_eq!(read_back(&longer), None, "{more} more");
        }
        // The heads and the counts; keys and values may be any.
        let told = [0..4, 20..24, 40..44, 68..84].map(|range| range.collect::<Vec<usize>>());
        for at in told.concat() {
            for bit in 0..8 {
                let mut wrong = whole.clone();
                wrong[at] ^= 1 << bit;
                assert_eq!(read_back(&wrong), None, "byte {at}, bit {bit}");
            }
        }
    }
}
