//! `second log`, `second raw` and `second figures`.

use second::log::Failure;
use std::io::{stdin, stdout, BufReader, BufWriter, Write};
use std::process::ExitCode;

/// The status that tells of a disagreement within this program.
const MISMATCH: u8 = 3;

fn main() -> ExitCode {
    let words: Vec<String> = std::env::args().skip(1).collect();
    let mut input = BufReader::with_capacity(1 << 16, stdin().lock());
    let mut output = BufWriter::with_capacity(1 << 16, stdout().lock());
    let outcome = match words.iter().map(String::as_str).collect::<Vec<_>>()[..] {
        ["log"] => second::log::run(&mut input, &mut output),
        ["raw"] => second::raw::run(&mut input, &mut output),
        ["figures"] => second::figures::run(&mut output),
        _ => {
            eprintln!("usage: second log | raw | figures");
            return ExitCode::from(2);
        }
    };
    let flushed = output.flush().map_err(Failure::Stream);
    match outcome.and(flushed) {
        Ok(()) => ExitCode::SUCCESS,
        Err(Failure::Stream(error)) => {
            eprintln!("second: {error}");
            ExitCode::FAILURE
        }
        Err(Failure::Mismatch(what)) => {
            eprintln!("second disagrees with itself: {what}");
            ExitCode::from(MISMATCH)
        }
    }
}
