// Talks to the log program in words: each line of text becomes the bytes of a command, and each reply's bytes become words.
// Usage: talk PROGRAM [WORD..] < text, where PROGRAM with its words runs the log program.
use std::io::{self, BufRead, IsTerminal, Read, Write};
use std::process::{Child, ChildStdin, ChildStdout, Command, ExitCode, Stdio};

const HELP: &str =
    "say format N0 N S CAP [EDITION], put KEY VALUE, find KEY, remove KEY, grow, shrink, check, or run FILE for a file with a KEY VALUE a line";

// So many puts of a run go out before their replies are fetched: few enough for the pipes to hold both.
const AT_ONCE: usize = 1000;

// A line that asks for something: the bytes of its record, and what it is called.
struct Asked {
    bytes: Vec<u8>,
    name: String,
}

// The numbers of a line, each within its range.
fn numbers(words: &[&str], most: u64) -> Result<Vec<u64>, String> {
    words
        .iter()
        .map(|word| match word.parse::<u64>() {
            Ok(number) if number <= most => Ok(number),
            _ => Err(format!("\"{word}\" is no number from 0 to {most}")),
        })
        .collect()
}

// A record: length, kind, then each number in so many bytes, lowest byte first.
fn record(kind: u16, width: usize, numbers: &[u64]) -> Vec<u8> {
    let length = (4 + width * numbers.len()) as u16;
    let mut bytes = Vec::from(length.to_le_bytes());
    bytes.extend(kind.to_le_bytes());
    for number in numbers {
        bytes.extend(&number.to_le_bytes()[..width]);
    }
    bytes
}

// Lines that say something, with their numbers: empty ones and those that begin with # are passed over.
fn said(text: &str) -> impl Iterator<Item = (usize, &str)> {
    text.lines()
        .enumerate()
        .map(|(at, line)| (at + 1, line.trim()))
        .filter(|(_, line)| !line.is_empty() && !line.starts_with('#'))
}

// The command of words, or what is wrong with them.
fn parse(words: &[&str]) -> Result<Asked, String> {
    let (kind, width, counts, most) = match words[0] {
        "format" => (257, 2, 4..=5, u64::from(u16::MAX)),
        "put" => (258, 8, 2..=2, u64::MAX),
        "find" => (259, 8, 1..=1, u64::MAX),
        "remove" => (260, 8, 1..=1, u64::MAX),
        "grow" => (261, 0, 0..=0, 0),
        "check" => (262, 0, 0..=0, 0),
        "shrink" => (263, 0, 0..=0, 0),
        other => return Err(format!("\"{other}\" is no command; {HELP}")),
    };
    let given = words.len() - 1;
    if !counts.contains(&given) {
        let (least, most) = counts.into_inner();
        let or = if least < most {
            format!("{least} or ")
        } else {
            String::new()
        };
        return Err(format!(
            "\"{}\" takes {or}{}, not {given}",
            words[0],
            counted(most as u64, "number")
        ));
    }
    let numbers = numbers(&words[1..], most)?;
    Ok(Asked {
        bytes: record(kind, width, &numbers),
        name: words.join(" "),
    })
}

fn number(bytes: &[u8], at: usize, width: usize) -> u64 {
    bytes[at..at + width]
        .iter()
        .rev()
        .fold(0, |number, byte| number * 256 + u64::from(*byte))
}

fn counted(count: u64, name: &str) -> String {
    let many = match name {
        "clash" => "es",
        _ => "s",
    };
    format!("{count} {name}{}", if count == 1 { "" } else { many })
}

// What a refusal number means.
fn refusal(reply: &[u8]) -> String {
    match number(reply, 4, 2) {
        1 => String::from(
            "a number of the file's state is out of range, or no file was formatted yet",
        ),
        2 => String::from("the area has another length"),
        3 => String::from("the row has another length"),
        4 => format!("page {} is broken", number(reply, 6, 2)),
        5 => String::from("absent"),
        6 => format!("held already, as commit {}", number(reply, 8, 8)),
        7 => String::from("no room"),
        8 => String::from("the file has grown to all of its pages"),
        9 => String::from("the count or the image is wrong"),
        10 => String::from("the program doesn't know this record"),
        11 => String::from("the input ended within a record"),
        12 => String::from("more than 128 pages asked"),
        13 => format!("clash: commit {} is held", number(reply, 8, 8)),
        14 => String::from("the file has the pages that it started with"),
        other => format!("an unknown number, {other}"),
    }
}

// What an accepted command did. A format's edition is told where it was named.
fn accepted(asked: &[u8], reply: &[u8]) -> String {
    match number(asked, 2, 2) {
        257 => {
            let pages = counted(number(reply, 24, 2), "page");
            match asked.len() {
                14 => format!("an empty file of {pages}, edition {}", number(asked, 12, 2)),
                _ => format!("an empty file of {pages}"),
            }
        }
        258 => String::from("stored"),
        259 => format!("commit {}", number(reply, 8, 8)),
        260 => String::from("removed"),
        261 => format!("grown to {}", counted(number(reply, 24, 2), "page")),
        262 => String::from("the file is whole"),
        _ => format!("shrunk to {}", counted(number(reply, 24, 2), "page")),
    }
}

fn words(asked: &Asked, reply: &[u8]) -> String {
    let said = match number(reply, 4, 2) {
        0 => accepted(&asked.bytes, reply),
        number => format!("refused ({number}): {}", refusal(reply)),
    };
    let read = counted(number(reply, 16, 4), "page");
    let moved = counted(number(reply, 20, 4), "record");
    format!(
        "{}: {said} ({read} read, {moved} moved{})",
        asked.name,
        due(reply)
    )
}

fn due(reply: &[u8]) -> &'static str {
    if number(reply, 26, 2) == 1 {
        "; growth is due"
    } else {
        ""
    }
}

// The log program, by its two pipes.
struct Program {
    to: ChildStdin,
    from: ChildStdout,
}

impl Program {
    // Commands end to end, and a reply for each.
    fn ask(&mut self, asked: &[Asked]) -> io::Result<Vec<[u8; 28]>> {
        let mut replies = vec![[0; 28]; asked.len()];
        for (asked, replies) in asked.chunks(AT_ONCE).zip(replies.chunks_mut(AT_ONCE)) {
            let bytes: Vec<u8> = asked.iter().flat_map(|asked| asked.bytes.clone()).collect();
            self.to.write_all(&bytes)?;
            self.to.flush()?;
            for reply in replies {
                self.from.read_exact(reply)?;
            }
        }
        Ok(replies)
    }
}

// The puts of a run's file, each named by its line, or what is wrong with a line: then none is run.
fn puts(text: &str) -> Result<Vec<Asked>, String> {
    said(text)
        .map(|(at, line)| {
            let words: Vec<&str> = ["put"].into_iter().chain(line.split_whitespace()).collect();
            let put = parse(&words).map_err(|why| format!("line {at} of it: {why}"))?;
            Ok(Asked {
                name: format!("  line {at}, {}", put.name),
                ..put
            })
        })
        .collect()
}

// What became of a run: the puts that were neither stored nor repeats, and how many there were of each.
fn summary(name: &str, puts: &[Asked], replies: &[[u8; 28]]) -> String {
    let mut lines = String::new();
    let [mut stored, mut repeats, mut clashes, mut refused] = [0u64; 4];
    for (put, reply) in puts.iter().zip(replies) {
        match number(reply, 4, 2) {
            0 => stored += 1,
            6 => repeats += 1,
            refusal => {
                *(if refusal == 13 {
                    &mut clashes
                } else {
                    &mut refused
                }) += 1;
                lines += &format!("{}\n", words(put, reply));
            }
        }
    }
    let due = replies.last().map_or("", |reply| due(reply));
    let [repeats, clashes] = [counted(repeats, "repeat"), counted(clashes, "clash")];
    format!("{lines}{name}: {stored} stored, {repeats}, {clashes}, {refused} refused{due}")
}

// A line: a command, or a run of a file.
fn answer(line: &str, program: &mut Program) -> io::Result<Result<String, String>> {
    let split: Vec<&str> = line.split_whitespace().collect();
    if split[0] != "run" {
        return match parse(&split) {
            Ok(asked) => Ok(Ok(words(
                &asked,
                &program.ask(std::slice::from_ref(&asked))?[0],
            ))),
            Err(why) => Ok(Err(why)),
        };
    }
    let file = line["run".len()..].trim();
    let puts = match std::fs::read(file) {
        Ok(bytes) => puts(&String::from_utf8_lossy(&bytes)),
        Err(why) => Err(format!("\"{file}\" can't be read: {why}")),
    };
    match puts {
        Ok(puts) => Ok(Ok(summary(line, &puts, &program.ask(&puts)?))),
        Err(why) => Ok(Err(format!("no put was made: {why}"))),
    }
}

// All lines of the text: whether each was a command.
fn talk(program: &mut Program) -> io::Result<bool> {
    let mut good = true;
    let prompt = if io::stdin().is_terminal() { "> " } else { "" };
    eprint!("{prompt}");
    for (at, bytes) in io::stdin().lock().split(b'\n').enumerate() {
        for (_, line) in said(&String::from_utf8_lossy(&bytes?)) {
            match answer(line, program)? {
                Ok(said) => println!("{said}"),
                Err(why) => {
                    good = false;
                    println!("line {}: {why}", at + 1);
                }
            }
        }
        eprint!("{prompt}");
    }
    Ok(good)
}

fn start(words: &[String]) -> io::Result<Child> {
    Command::new(&words[0])
        .args(&words[1..])
        .stdin(Stdio::piped())
        .stdout(Stdio::piped())
        .spawn()
}

fn run(words: &[String]) -> io::Result<bool> {
    let mut child = start(words)?;
    let (Some(to), Some(from)) = (child.stdin.take(), child.stdout.take()) else {
        return Err(io::Error::other("the program has no pipes"));
    };
    let mut program = Program { to, from };
    let good = talk(&mut program)?;
    drop(program);
    Ok(child.wait()?.success() && good)
}

fn main() -> ExitCode {
    let program: Vec<String> = std::env::args().skip(1).collect();
    if program.is_empty() {
        eprintln!("usage: talk PROGRAM [WORD..] < text; {HELP}");
        return ExitCode::from(2);
    }
    match run(&program) {
        Ok(true) => ExitCode::SUCCESS,
        Ok(false) => ExitCode::FAILURE,
        Err(why) => {
            eprintln!("talk: {why}");
            ExitCode::from(2)
        }
    }
}
