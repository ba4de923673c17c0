//! Logs, each its own run of the other side's program, two at a time.

use crate::launch::Launcher;
use crate::log_ways::Follower;
use crate::logs::log;
use crate::show::{log_difference, nth_kind, Stop};
use crate::table::{Table, PROGRAM};
use second::bytes::{four, two};
use second::commands::REPLY_BYTES;
use second::log::{run, Failure};
use std::sync::atomic::{AtomicU64, Ordering};
use std::sync::Mutex;

const AT_A_TIME: usize = 2;

/// The shared part of a comparison of logs.
struct Shared<'a> {
    launcher: &'a Launcher,
    seed: u64,
    logs: u64,
    next: AtomicU64,
    /// The stop with the lowest log number so far.
    stopped: Mutex<Option<(u64, Stop)>>,
}

/// Compares so many logs and gives the table of their refusals.
pub fn compare(launcher: &Launcher, seed: u64, logs: u64) -> Result<Table, Stop> {
    let next = AtomicU64::new(0);
    let shared = Shared {
        launcher,
        seed,
        logs,
        next,
        stopped: Mutex::new(None),
    };
    let mut table = Table::default();
    std::thread::scope(|scope| {
        let workers: Vec<_> = (0..AT_A_TIME)
            .map(|_| scope.spawn(|| work(&shared)))
            .collect();
        for part in workers.into_iter().filter_map(|worker| worker.join().ok()) {
            table.add(&part);
        }
    });
    match shared.stopped.into_inner() {
        Ok(None) => Ok(table),
        Ok(Some((_, stop))) => Err(stop),
        Err(_) => Err(Stop::Trouble("a comparing thread failed".to_string())),
    }
}

/// Takes log after log until there are no more or one stops the comparison.
fn work(shared: &Shared) -> Table {
    let mut table = Table::default();
    loop {
        let number = shared.next.fetch_add(1, Ordering::Relaxed);
        if number >= shared.logs {
            return table;
        }
        if let Err(stop) = one(shared, number, &mut table) {
            shared.next.store(shared.logs, Ordering::Relaxed);
            keep_lowest(shared, number, stop);
            return table;
        }
    }
}

fn keep_lowest(shared: &Shared, number: u64, stop: Stop) {
    if let Ok(mut stopped) = shared.stopped.lock() {
        if stopped.as_ref().is_none_or(|(lowest, _)| number < *lowest) {
            *stopped = Some((number, stop));
        }
    }
}

fn one(shared: &Shared, number: u64, table: &mut Table) -> Result<(), Stop> {
    let input = log(shared.seed, number);
    let mut ours = Vec::new();
    match run(&mut &input[..], &mut ours) {
        Ok(()) => {}
        Err(Failure::Mismatch(what)) => return Err(Stop::Mismatch(what)),
        Err(Failure::Stream(error)) => return Err(Stop::Trouble(error.to_string())),
    }
    let theirs = shared
        .launcher
        .run("register_log", &input)
        .map_err(Stop::Trouble)?;
    if ours != theirs {
        let told = log_difference(shared.seed, number, &input, &ours, &theirs);
        let file = format!("log-{}-{number}.bin", shared.seed);
        return Err(Stop::Differ { told, file, input });
    }
    tally(&input, &ours, table);
    Ok(())
}

/// Counts the replies of a log, each for the kind of its command and for what
/// its edition has to do with it.
fn tally(input: &[u8], replies: &[u8], table: &mut Table) {
    let mut rest = input;
    let mut follower = Follower::default();
    for reply in replies.chunks_exact(REPLY_BYTES) {
        let refusal = two(reply, 4);
        let kind = if [10, 11].contains(&refusal) {
            PROGRAM
        } else {
            nth_kind(rest, 0)
        };
        table.count(kind, refusal);
        for (row, number) in follower.pairs(rest, refusal) {
            table.count(row, number);
        }
        table.note(four(reply, 16), four(reply, 20));
        let length = rest.get(..2).map_or(0, |length| two(length, 0));
        rest = &rest[usize::from(length).min(rest.len())..];
    }
}

#[cfg(test)]
mod tests {
    use super::*;
    use crate::table::log_pairs;
    use crate::ENOUGH_LOGS;

    /// So many logs are enough for every pair.
    #[test]
    fn every_possible_pair_comes() {
        for seed in [1, 2] {
            let mut table = Table::default();
            for number in 0..ENOUGH_LOGS {
                let input = log(seed, number);
                let mut output = Vec::new();
                assert!(run(&mut &input[..], &mut output).is_ok());
                tally(&input, &output, &mut table);
            }
            assert_eq!(table.missing(&log_pairs()), []);
            assert_eq!(table.beyond(&log_pairs()), []);
        }
    }
}
