//! Running a program with some input, however much it reads or prints.

use std::io::{Read, Write};
use std::path::Path;
use std::process::{Child, Command, ExitStatus, Stdio};
use std::sync::mpsc::{self, Receiver};
use std::thread;
use std::time::Duration;

const PATIENCE: Duration = Duration::from_secs(240);

/// A program that was started. Its input and output go through threads of
/// their own, so that neither side waits for the other.
pub struct Running {
    name: String,
    child: Child,
    output: Receiver<Vec<u8>>,
}

/// What a program printed, and how it ended.
pub struct Run {
    pub output: Vec<u8>,
    pub status: ExitStatus,
}

/// Starts a program behind the words that this machine needs for it, if any.
pub fn start(words: &[String], path: &Path, input: Vec<u8>) -> Result<Running, String> {
    let name = path.display().to_string();
    if !path.exists() {
        return Err(format!("{name} is not there"));
    }
    let spawned = command(words, path).stdin(Stdio::piped()).stdout(Stdio::piped()).spawn();
    let mut child = spawned.map_err(|fault| format!("{name} cannot be run: {fault}"))?;
    feed(&mut child, input);
    let output = drain(&mut child);
    Ok(Running { name, child, output })
}

fn command(words: &[String], path: &Path) -> Command {
    let Some((first, rest)) = words.split_first() else { return Command::new(path) };
    let mut command = Command::new(first);
    command.args(rest).arg(path);
    command
}

impl Running {
    /// Waits for the program; one that does not end is ended.
    pub fn finish(mut self) -> Result<Run, String> {
        let name = &self.name;
        match self.output.recv_timeout(PATIENCE) {
            Ok(output) => {
                let status = self.child.wait().map_err(|fault| format!("{name}: {fault}"))?;
                Ok(Run { output, status })
            }
            Err(_) => {
                let ended = self.child.kill().and_then(|()| self.child.wait());
                Err(format!("{name} did not end in {} seconds ({ended:?})", PATIENCE.as_secs()))
            }
        }
    }
}

/// A program may end before it has read everything, so a failed write counts
/// for nothing: what it printed tells.
fn feed(child: &mut Child, input: Vec<u8>) {
    if let Some(mut pipe) = child.stdin.take() {
        thread::spawn(move || pipe.write_all(&input));
    }
}

fn drain(child: &mut Child) -> Receiver<Vec<u8>> {
    let (sender, receiver) = mpsc::channel();
    if let Some(mut pipe) = child.stdout.take() {
        thread::spawn(move || {
            let mut output = Vec::new();
            if pipe.read_to_end(&mut output).is_ok() {
                sender.send(output).ok();
            }
        });
    }
    receiver
}
