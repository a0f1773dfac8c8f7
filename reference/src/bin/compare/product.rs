//! Running one of the product's programs on an input.

use std::io::{Read, Write};
use std::path::{Path, PathBuf};
use std::process::{Command, Stdio};
use std::sync::mpsc::{self, RecvTimeoutError};
use std::thread;
use std::time::Duration;

/// More than this is not read: a program that prints without end is then ended by its pipe.
const OUTPUT_MAX: u64 = 64 << 20;

pub struct Product {
    path: PathBuf,
}

/// What a run printed, and what was wrong with how it ended, if anything.
pub struct Outcome {
    pub output: Vec<u8>,
    pub fault: Option<Fault>,
}

/// What was wrong, in words.
pub enum Fault {
    Hangs(String),
    Fails(String),
}

impl Fault {
    pub fn words(&self) -> &str {
        match self {
            Fault::Hangs(words) | Fault::Fails(words) => words,
        }
    }
}

impl Outcome {
    pub fn hangs(&self) -> bool {
        matches!(self.fault, Some(Fault::Hangs(_)))
    }

    /// The words of the fault, or none.
    pub fn fault(&self) -> &str {
        self.fault.as_ref().map_or("", Fault::words)
    }
}

impl Product {
    pub fn find(path: &Path) -> Result<Product, String> {
        let found = path
            .canonicalize()
            .map_err(|error| format!("the program {} is not there: {error}", path.display()))?;
        if found.is_file() {
            Ok(Product { path: found })
        } else {
            Err(format!("{} is no file", path.display()))
        }
    }

    /// Runs the program, and ends it if it takes longer than it may. Threads feed and drain it,
    /// so that no pipe can block.
    pub fn run(&self, input: &[u8], patience: Duration) -> Result<Outcome, String> {
        let mut child = Command::new(&self.path)
            .stdin(Stdio::piped())
            .stdout(Stdio::piped())
            .stderr(Stdio::piped())
            .spawn()
            .map_err(|error| format!("cannot start {}: {error}", self.path.display()))?;
        let (stdin, stdout, stderr) =
            match (child.stdin.take(), child.stdout.take(), child.stderr.take()) {
                (Some(stdin), Some(stdout), Some(stderr)) => (stdin, stdout, stderr),
                _ => return Err(format!("{} has no pipes", self.path.display())),
            };
        thread::scope(|scope| {
            scope.spawn(move || {
                let mut stdin = stdin;
                // A program that ends before it has read all is judged by what it printed.
                let _ = stdin.write_all(input);
            });
            let errors = scope.spawn(move || drain(stderr));
            let (sender, receiver) = mpsc::channel();
            scope.spawn(move || sender.send(drain(stdout)));
            let (output, hangs) = match receiver.recv_timeout(patience) {
                Ok(output) => (output, false),
                Err(RecvTimeoutError::Timeout | RecvTimeoutError::Disconnected) => {
                    // The drained part comes once the program is gone.
                    let _ = child.kill();
                    (receiver.recv().unwrap_or_default(), true)
                }
            };
            let status = child
                .wait()
                .map_err(|error| format!("cannot wait for {}: {error}", self.path.display()))?;
            let errors = errors.join().unwrap_or_default();
            let errors = String::from_utf8_lossy(&errors);
            let fault = if hangs {
                let seconds = patience.as_secs();
                Some(Fault::Hangs(format!(
                    "it did not end within {seconds} seconds\n{errors}"
                )))
            } else if status.success() {
                None
            } else {
                Some(Fault::Fails(format!("it ended with {status}\n{errors}")))
            };
            Ok(Outcome { output, fault })
        })
    }
}

/// All that comes until the end, or until it can be read no more.
fn drain(source: impl Read) -> Vec<u8> {
    let mut bytes = Vec::new();
    let _ = source.take(OUTPUT_MAX).read_to_end(&mut bytes);
    bytes
}
