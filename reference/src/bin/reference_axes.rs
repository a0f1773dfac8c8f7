//! Reads lines from standard input and answers each, as `axes` does, before it reads the next.

use std::io::{self, BufRead, Write};
use std::process::ExitCode;

use reference::axes::Run;

fn main() -> ExitCode {
    match run() {
        Ok(()) => ExitCode::SUCCESS,
        Err(error) => {
            eprintln!("reference-axes: {error}");
            ExitCode::FAILURE
        }
    }
}

fn run() -> io::Result<()> {
    let mut input = io::stdin().lock();
    let mut output = io::stdout().lock();
    let mut axes = Run::new();
    let mut line = Vec::new();
    let mut out = Vec::new();
    while input.read_until(b'\n', &mut line)? > 0 {
        axes.line(line.strip_suffix(b"\n").unwrap_or(&line), &mut out);
        output.write_all(&out)?;
        output.flush()?;
        line.clear();
        out.clear();
    }
    Ok(())
}
