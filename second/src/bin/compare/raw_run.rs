//! Raw calls streamed through one run of the other side's program.

use crate::cases::scene;
use crate::launch::Launcher;
use crate::random::Random;
use crate::show::{raw_difference, Stop};
use crate::sink::{Asked, Sink};
use crate::table::Table;
use std::io::{Read, Write};
use std::process::ChildStdin;
use std::sync::mpsc::{sync_channel, Receiver, SyncSender};

/// Calls in a batch, and batches that may wait for their replies. Together
/// they hold far more than any buffer between the two programs.
const BATCH: usize = 256;
const WAITING: usize = 64;
/// No reply is longer than this.
const LONGEST_REPLY: usize = 1 << 16;

type Batch = Result<Vec<Asked>, String>;

/// Compares so many raw calls and gives the table of their refusals.
pub fn compare(launcher: &Launcher, seed: u64, calls: u64) -> Result<Table, Stop> {
    let mut child = launcher.start("raw_calls").map_err(Stop::Trouble)?;
    let (Some(to), Some(mut from)) = (child.stdin.take(), child.stdout.take()) else {
        return Err(Stop::Trouble("raw_calls has no streams".to_string()));
    };
    let (expect, expected) = sync_channel(WAITING);
    let (send, sent) = sync_channel(WAITING);
    let writer = std::thread::spawn(move || write_all(to, sent));
    let generator = std::thread::spawn(move || generate(seed, calls, expect, send));
    let outcome = read_all(seed, &mut from, expected);
    // Closing our end first lets a child and threads that still go on stop.
    drop(from);
    let failed = |_| Stop::Trouble("the generator failed".to_string());
    let table = generator.join().map_err(failed)?;
    writer.join().map_err(failed)?;
    child
        .wait()
        .map_err(|error| Stop::Trouble(format!("raw_calls didn't end: {error}")))?;
    outcome.map(|()| table)
}

/// Writes batch after batch until there are no more or the child stops.
fn write_all(mut to: ChildStdin, sent: Receiver<Vec<u8>>) {
    for bytes in sent {
        if to.write_all(&bytes).is_err() {
            return;
        }
    }
}

/// Generates batches, tells the reader what to expect and has them written.
fn generate(seed: u64, calls: u64, expect: SyncSender<Batch>, send: SyncSender<Vec<u8>>) -> Table {
    let mut sink = Sink::new(seed, calls);
    let mut piece = 0;
    while !sink.full() || !sink.asked.is_empty() {
        while !sink.full() && sink.asked.len() < BATCH {
            if let Err(what) = scene(&mut Random::new(seed, piece), &mut sink) {
                let _ = expect.send(Err(what));
                return sink.table;
            }
            piece += 1;
        }
        let batch = std::mem::take(&mut sink.asked);
        let bytes: Vec<u8> = batch
            .iter()
            .flat_map(|asked| &asked.record)
            .copied()
            .collect();
        // An error in either means that the reader is about to tell why.
        if expect.send(Ok(batch)).is_err() || send.send(bytes).is_err() {
            break;
        }
    }
    sink.table
}

/// Reads the replies to batch after batch, then the end of the output.
fn read_all(seed: u64, from: &mut impl Read, receive: Receiver<Batch>) -> Result<(), Stop> {
    let mut case = 0;
    for batch in receive {
        for asked in batch.map_err(Stop::Mismatch)? {
            let theirs = read_reply(from).map_err(|error| Stop::Trouble(error.to_string()))?;
            if theirs != asked.reply {
                let told = raw_difference(seed, case, asked.kind, &asked.reply, &theirs);
                let file = format!("raw-{seed}-{case}.bin");
                return Err(Stop::Differ {
                    told,
                    file,
                    input: asked.record,
                });
            }
            case += 1;
        }
    }
    let mut more = Vec::new();
    from.take(64)
        .read_to_end(&mut more)
        .map_err(|error| Stop::Trouble(error.to_string()))?;
    if more.is_empty() {
        return Ok(());
    }
    let told = format!("the other side writes on after raw call {case}: {more:?}");
    Err(Stop::Differ {
        told,
        file: format!("raw-{seed}-end.bin"),
        input: Vec::new(),
    })
}

/// One reply by its own length, shorter where the output ends within it.
fn read_reply(from: &mut impl Read) -> std::io::Result<Vec<u8>> {
    let mut reply = Vec::new();
    from.take(4).read_to_end(&mut reply)?;
    let length = second::bytes::number(&reply) as usize;
    let rest = length.saturating_sub(4).min(LONGEST_REPLY);
    if reply.len() == 4 {
        from.take(rest as u64).read_to_end(&mut reply)?;
    }
    Ok(reply)
}
