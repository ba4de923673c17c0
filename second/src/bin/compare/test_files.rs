//! Files that the tests of the ways of comparisons and of merges are made with.

use second::calls::Call;
use second::trial::Trial;

/// A file with these records, grown so often before they are put.
pub fn file(start: [u16; 3], cap: u16, edition: u64, grows: u16, records: &[(u64, u64)]) -> Trial {
    let mut file = Trial::fresh(start, cap, edition).expect("agrees");
    let puts = records.iter().map(|&(key, value)| Call::Put { key, value });
    let grows = std::iter::repeat_n(Call::Grow, grows.into());
    for call in grows.chain(puts) {
        assert_eq!(file.ask(call).map(|answer| answer.refusal), Ok(0));
    }
    file
}
