//! Starting the other side's programs.

use std::io::{Read, Write};
use std::path::PathBuf;
use std::process::{Child, Command, Stdio};

/// Where the other side's programs are and what they are started with.
pub struct Launcher {
    pub prefix: Vec<String>,
    pub folder: PathBuf,
}

impl Launcher {
    /// Starts a program with both its streams lent to us.
    pub fn start(&self, name: &str) -> Result<Child, String> {
        let program = self.folder.join(name);
        let mut command = match self.prefix.split_first() {
            None => Command::new(&program),
            Some((first, rest)) => {
                let mut command = Command::new(first);
                command.args(rest).arg(&program);
                command
            }
        };
        command
            .stdin(Stdio::piped())
            .stdout(Stdio::piped())
            .spawn()
            .map_err(|error| format!("{} can't be started: {error}", program.display()))
    }

    /// Runs a program on an input and gives all that it writes. A thread of
    /// its own writes, so that neither side waits for the other for ever.
    pub fn run(&self, name: &str, input: &[u8]) -> Result<Vec<u8>, String> {
        let mut child = self.start(name)?;
        let (Some(mut to), Some(mut from)) = (child.stdin.take(), child.stdout.take()) else {
            return Err(format!("{name} has no streams"));
        };
        let mut output = Vec::new();
        let read = std::thread::scope(|scope| {
            scope.spawn(move || {
                // A program that stops early leaves the rest unread.
                let _ = to.write_all(input);
            });
            from.read_to_end(&mut output)
        });
        read.map_err(|error| format!("{name} can't be read: {error}"))?;
        child
            .wait()
            .map_err(|error| format!("{name} didn't end: {error}"))?;
        Ok(output)
    }
}
