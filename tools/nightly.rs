// Says in words what differs between two register files: the list that the proved comparison writes becomes a line for each
// difference and a line that sums them up. Nothing is said by a list that isn't whole.
// Usage: nightly A B PROGRAM [WORD..], where PROGRAM with its words and then the two names writes the list of A and B.
// Ends with status 0 where both hold the same, 1 where they differ, and 2 where that isn't known.
use std::ffi::OsString;
use std::io::{self, Write};
use std::process::{Command, ExitCode, Output, Stdio};

// Which file holds a request, and as which commit.
enum Held {
    First(u64),
    Second(u64),
    Both(u64, u64),
}

struct Difference {
    request: u64,
    held: Held,
}

// What the comparison wrote: all differences, or why there is no list.
enum Told {
    List(Vec<Difference>),
    Refused { refusal: u64, page: u64, file: u64 },
}

fn number(bytes: &[u8], at: usize, width: usize) -> u64 {
    bytes[at..at + width]
        .iter()
        .rev()
        .fold(0, |number, byte| number * 256 + u64::from(*byte))
}

fn kind(record: &[u8]) -> u64 {
    number(record, 2, 2)
}

// The first record of the bytes, which has a length that goes with its kind, and the bytes behind it.
fn record(bytes: &[u8]) -> Result<(&[u8], &[u8]), String> {
    let cut = || String::from("it ends within a record");
    let head = bytes.get(..4).ok_or_else(cut)?;
    let length = match kind(head) {
        513 | 772 => 16,
        769 | 770 => 20,
        771 => 28,
        other => return Err(format!("it has a record of kind {other}")),
    };
    if number(head, 0, 2) != length as u64 {
        return Err(format!(
            "it has a record of kind {} and length {}",
            kind(head),
            number(head, 0, 2)
        ));
    }
    bytes.split_at_checked(length).ok_or_else(cut)
}

// Why there is no list: what the files' check answers names one of them.
fn refused(record: &[u8]) -> Result<Told, String> {
    let [refusal, page, file, zeros] = [4, 6, 12, 14].map(|at| number(record, at, 2));
    let right = match refusal {
        0 => false,
        4 => matches!(file, 1 | 2),
        1 | 2 | 9 => matches!(file, 1 | 2) && page == 0,
        _ => file <= 2 && page == 0,
    };
    if !right || zeros != 0 {
        return Err(String::from("it has a refusal that there isn't"));
    }
    Ok(Told::Refused {
        refusal,
        page,
        file,
    })
}

// A record of one difference goes to the list, in which requests rise and no two commits of one are the same.
fn add(list: &mut Vec<Difference>, record: &[u8]) -> Result<(), String> {
    let [request, value] = [4, 12].map(|at| number(record, at, 8));
    let held = match kind(record) {
        769 => Held::First(value),
        770 => Held::Second(value),
        _ => Held::Both(value, number(record, 20, 8)),
    };
    if list.last().is_some_and(|last| last.request >= request) {
        return Err(String::from("its requests don't rise"));
    }
    if matches!(held, Held::Both(first, second) if first == second) {
        return Err(String::from("it has a request with one commit twice"));
    }
    list.push(Difference { request, held });
    Ok(())
}

// How many requests are only in the first file, only in the second, and in both with two commits.
fn counts(list: &[Difference]) -> [u64; 3] {
    let mut counts = [0; 3];
    for difference in list {
        counts[match difference.held {
            Held::First(_) => 0,
            Held::Second(_) => 1,
            Held::Both(..) => 2,
        }] += 1;
    }
    counts
}

// Reads what was written, or says why that is no list. A list closes with the numbers of what it told, and a refusal stands
// alone.
fn read(bytes: &[u8]) -> Result<Told, String> {
    let mut list = Vec::new();
    let mut rest = bytes;
    while !rest.is_empty() {
        let (record, behind) = record(rest)?;
        match kind(record) {
            513 | 772 if !behind.is_empty() => {
                return Err(String::from("something stands behind its end"))
            }
            513 if list.is_empty() => return refused(record),
            513 => return Err(String::from("it ends in a refusal")),
            772 if counts(&list) == [4, 8, 12].map(|at| number(record, at, 4)) => {
                return Ok(Told::List(list))
            }
            772 => return Err(String::from("it closes with other numbers than it told")),
            _ => add(&mut list, record)?,
        }
        rest = behind;
    }
    Err(String::from("it has no closing record"))
}

fn words(difference: &Difference, [a, b]: [&str; 2]) -> String {
    let held = match difference.held {
        Held::First(commit) => format!("commit {commit} only in {a}"),
        Held::Second(commit) => format!("commit {commit} only in {b}"),
        Held::Both(first, second) => format!("commit {first} in {a}, commit {second} in {b}"),
    };
    format!("request {}: {held}\n", difference.request)
}

fn reason(refusal: u64, page: u64, name: &str) -> String {
    match refusal {
        1 => format!("a number of the state of {name} is out of range"),
        2 => format!("{name} isn't as long as its state says"),
        4 => format!("page {page} of {name} is broken"),
        9 => format!("the count or the image of {name} is wrong"),
        15 => String::from("the list is longer than the room for it"),
        _ => String::from("this number isn't known here"),
    }
}

// All that is to be said, and the status to end with.
fn say(told: &Told, names: [&str; 2]) -> (String, u8) {
    let [a, b] = names;
    match told {
        Told::Refused {
            refusal,
            page,
            file,
        } => {
            let name = if *file == 1 { a } else { b };
            (
                format!("refused {refusal}: {}\n", reason(*refusal, *page, name)),
                2,
            )
        }
        Told::List(list) if list.is_empty() => (format!("{a} and {b} hold the same\n"), 0),
        Told::List(list) => {
            let [first, second, both] = counts(list);
            let mut text: String = list.iter().map(|one| words(one, names)).collect();
            text += &format!("{a} and {b} differ: {first} only in {a}, {second} only in {b}, {both} with two commits\n");
            (text, 1)
        }
    }
}

fn start(names: &[OsString], program: &[OsString]) -> io::Result<Output> {
    Command::new(&program[0])
        .args(&program[1..])
        .args(names)
        .stdin(Stdio::null())
        .stderr(Stdio::inherit())
        .output()
}

// What a comparison wrote, or why it isn't to be believed.
fn told(output: &Output) -> Result<Told, String> {
    if output.stdout.is_empty() {
        return Err(String::from("the comparison wrote nothing"));
    }
    match read(&output.stdout) {
        Err(why) => Err(format!("what the comparison wrote is no list: {why}")),
        Ok(Told::List(_)) if !output.status.success() => {
            Err(format!("the comparison failed: {}", output.status))
        }
        Ok(told) => Ok(told),
    }
}

fn run(names: &[OsString], program: &[OsString]) -> Result<u8, String> {
    let output =
        start(names, program).map_err(|why| format!("the comparison can't be started: {why}"))?;
    let [a, b] = [&names[0], &names[1]].map(|name| name.to_string_lossy());
    let (text, status) = say(&told(&output)?, [&a, &b]);
    let mut out = io::stdout();
    out.write_all(text.as_bytes())
        .and_then(|()| out.flush())
        .map_err(|why| format!("it can't be said what differs: {why}"))?;
    Ok(status)
}

fn main() -> ExitCode {
    let words: Vec<OsString> = std::env::args_os().skip(1).collect();
    if words.len() < 3 {
        eprintln!("usage: nightly A B PROGRAM [WORD..]");
        return ExitCode::from(2);
    }
    match run(&words[..2], &words[2..]) {
        Ok(status) => ExitCode::from(status),
        Err(why) => {
            eprintln!("nightly: {why}");
            ExitCode::from(2)
        }
    }
}
