//! Records of two files, which comparisons and merges have in common.

use super::*;
use crate::trial::Trial;

/// A page 0 with these keys, at most nine, each with this value.
pub fn page(records: &[(u8, u8)]) -> Vec<u8> {
    let used = records
        .iter()
        .map(|(key, value)| format!("1400 0100 {key:02X}00000000000000 {value:02X}00000000000000"));
    let empty = "1400 0000 0000000000000000 0000000000000000".repeat(12 - records.len());
    let head = format!("0001 1100 00000000 0{}00 000000000000", records.len());
    hex(&(head + &used.collect::<String>() + &empty))
}

/// A call of this kind on two files, without a row or a room.
pub fn case_of(kind: u16, one: &Trial, two: &Trial) -> Case {
    Case {
        kind,
        state: one.state,
        area: one.area.clone(),
        second: [state_bytes(two.state), two.area.clone()].concat(),
        ..Case::default()
    }
}

/// Two pages in the one file and three in the other, with key 1 in both.
pub fn two_sizes() -> (Trial, Trial) {
    let file = |cap, key| {
        let mut file = Trial::of_ones(cap).expect("agrees");
        file.put_all([1, key]).expect("agrees");
        file
    };
    (file(2, 3), file(3, 4))
}

/// A file of 64 pages, the most that a string has room for, with these keys.
pub fn longest(keys: std::ops::Range<u64>) -> Trial {
    let mut file = Trial::of_ones(64).expect("agrees");
    file.put_all(keys).expect("agrees");
    file
}

pub fn changed(case: &Case, change: fn(&mut Case)) -> Case {
    let mut case = case.clone();
    change(&mut case);
    case
}

/// Cuts the second string of a right record at every length. Without sixteen
/// bytes of it there is no record, whatever else it has, and the run ends; with
/// them it is one, even where there is no area, and has this refusal.
pub fn check_every_cut(whole: &Case, refusal_of: impl Fn(&Case) -> u16) {
    for length in 0..=whole.second.len() {
        let mut case = whole.clone();
        case.second.truncate(length);
        let replies = if length < 16 { 1 } else { 3 };
        assert_eq!(replies_around(&case.record()), replies, "{length} bytes");
        if length < 16 {
            assert_eq!(case.answer(), Ok(None));
        } else {
            let refusal = u16::from(length < whole.second.len()) * 2;
            assert_eq!(refusal_of(&case), refusal);
        }
    }
}
