//! `compare [--bin DIR] [--differ DIR] SEED CALLS LOGS -- PREFIX..`, or
//! `compare shortest SEED`
//!
//! Generates raw calls and logs from a seed, answers them itself, has them
//! answered by the programs `raw_calls` and `register_log` in DIR, started
//! with the prefix, and compares every byte. `shortest` writes raw calls to
//! standard output instead, one for each call and refusal and for each way that
//! a run, a shrink or a comparison can take or an edition can count, and for
//! some of the ways of a merge.

mod breaks;
mod cases;
mod chains;
mod comparison_ways;
mod comparisons;
mod edition_scenes;
mod editions;
mod endings;
mod fault_ways;
mod files;
mod held;
mod idle;
mod keys;
mod launch;
mod list_ways;
mod log_run;
mod log_ways;
mod logs;
mod loose;
mod merge_ways;
mod merges;
mod merging;
mod other_numbers;
mod random;
mod raw_run;
mod runs;
mod session;
mod shortest;
mod show;
mod shrink_ways;
mod shrinks;
mod sink;
mod sites;
mod table;
#[cfg(test)]
mod test_files;
mod values;
mod ways;
mod wrong;
mod wrong_merges;
mod wrong_sites;

use launch::Launcher;
use show::Stop;
use std::path::PathBuf;
use std::process::ExitCode;
use table::{log_pairs, name, raw_pairs, Table};

/// From so many raw calls or logs on, every possible pair has to come.
const ENOUGH_CALLS: u64 = 20_000;
const ENOUGH_LOGS: u64 = 500;

struct Options {
    seed: u64,
    calls: u64,
    logs: u64,
    differ: PathBuf,
    launcher: Launcher,
}

/// Reads the words of the command line; None where they don't fit.
fn options(words: &[String]) -> Option<Options> {
    let end = words
        .iter()
        .position(|word| word == "--")
        .unwrap_or(words.len());
    let prefix = words.get(end + 1..).unwrap_or_default().to_vec();
    let mut folder = PathBuf::from(".");
    let mut differ = PathBuf::from("target/differ");
    let mut numbers = Vec::new();
    let mut left = words[..end].iter();
    while let Some(word) = left.next() {
        match word.as_str() {
            "--bin" => folder = PathBuf::from(left.next()?),
            "--differ" => differ = PathBuf::from(left.next()?),
            number => numbers.push(number.parse().ok()?),
        }
    }
    let [seed, calls, logs] = numbers[..] else {
        return None;
    };
    Some(Options {
        seed,
        calls,
        logs,
        differ,
        launcher: Launcher { prefix, folder },
    })
}

fn main() -> ExitCode {
    let words: Vec<String> = std::env::args().skip(1).collect();
    if let [word, seed] = &words[..] {
        if let ("shortest", Ok(seed)) = (word.as_str(), seed.parse()) {
            return write_shortest(seed);
        }
    }
    let Some(options) = options(&words) else {
        eprintln!("usage: compare [--bin DIR] [--differ DIR] SEED CALLS LOGS -- PREFIX..");
        eprintln!("       compare shortest SEED");
        return ExitCode::from(2);
    };
    match compare(&options) {
        Ok(true) => ExitCode::SUCCESS,
        Ok(false) => ExitCode::FAILURE,
        Err(stop) => tell(&options, stop),
    }
}

fn write_shortest(seed: u64) -> ExitCode {
    match shortest::write(seed, &mut std::io::stdout().lock()) {
        Ok(()) => ExitCode::SUCCESS,
        Err(what) => {
            eprintln!("compare: {what}");
            ExitCode::from(3)
        }
    }
}

/// Runs all comparisons. No means that a possible pair never came.
fn compare(options: &Options) -> Result<bool, Stop> {
    let Options {
        seed,
        calls,
        logs,
        ref launcher,
        ..
    } = *options;
    let mut complete = true;
    if calls > 0 {
        let table = raw_run::compare(launcher, seed, calls)?;
        println!("raw calls, refusal: how often\n{table}");
        complete &= judged(&table, &raw_pairs(), calls >= ENOUGH_CALLS);
        let endings = endings::compare(launcher, seed)?;
        println!("{endings} raw runs ended alike at what is no record");
    }
    if logs > 0 {
        let table = log_run::compare(launcher, seed, logs)?;
        println!("logs, refusal: how often\n{table}");
        complete &= judged(&table, &log_pairs(), logs >= ENOUGH_LOGS);
    }
    println!("{calls} raw calls and {logs} logs agreed (seed {seed})");
    Ok(complete)
}

/// Names the pairs that never came, or came though they shouldn't.
fn judged(table: &Table, pairs: &[(u16, &[u16])], enough: bool) -> bool {
    let missing = if enough {
        table.missing(pairs)
    } else {
        Vec::new()
    };
    for (kind, refusal) in &missing {
        println!("never reached: {} with {refusal}", name(*kind));
    }
    let beyond = table.beyond(pairs);
    for (kind, refusal) in &beyond {
        println!("not foreseen: {} with {refusal}", name(*kind));
    }
    missing.is_empty() && beyond.is_empty()
}

fn tell(options: &Options, stop: Stop) -> ExitCode {
    match stop {
        Stop::Differ { told, file, input } => {
            println!("{}", told.trim_end());
            match show::keep(&options.differ, &file, &input) {
                Ok(path) => println!("input kept in {}", path.display()),
                Err(error) => println!("input couldn't be kept: {error}"),
            }
            ExitCode::from(1)
        }
        Stop::Mismatch(what) => {
            eprintln!("second disagrees with itself: {what}");
            ExitCode::from(3)
        }
        Stop::Trouble(what) => {
            eprintln!("compare: {what}");
            ExitCode::from(2)
        }
    }
}
