//! `axes`: runs a live controller line by line.

use crate::axis::AXES;
use crate::controller::{Live, Parked, Port, ANSWER_MIN};
use crate::coverage::{Call, Coverage, DriveKind};
use crate::drive::Counting;
use crate::line::{lines, Line};
use crate::print;
use crate::refusal::Refusal;
use crate::row::Row;

/// What `axes` prints for an input.
pub fn axes(input: &[u8]) -> Vec<u8> {
    axes_covered(input).0
}

/// The same, and what happened on the way.
pub fn axes_covered(input: &[u8]) -> (Vec<u8>, Coverage) {
    let mut run = Run::new();
    let mut out = Vec::new();
    for line in lines(input) {
        run.line(line, &mut out);
    }
    (out, run.coverage)
}

/// A run of `axes`, line by line.
pub struct Run {
    live: Live<Counting>,
    rows: [Row; AXES],
    block: [u8; ANSWER_MIN],
    coverage: Coverage,
}

impl Run {
    pub fn new() -> Run {
        let mut parked = Parked::new(Counting::new([2; AXES], [0; AXES]));
        parked.set(b"IOK2,1").expect("a text that Set takes");
        Run {
            live: parked.arm(0),
            rows: [Row::Nothing; AXES],
            block: [0; ANSWER_MIN],
            coverage: Coverage::default(),
        }
    }

    /// Makes the call of one line, without its LF, and prints what it gave; skips other lines.
    pub fn line(&mut self, line: &[u8], out: &mut Vec<u8>) {
        match Line::parse_for_axes(line) {
            Some(Line::Command(port, text)) => {
                let call = match port {
                    Port::M => Call::CommandM,
                    Port::P => Call::CommandP,
                };
                let length = self
                    .live
                    .command(port, text, &mut self.rows, &mut self.block);
                self.tell(call, length, out);
            }
            Some(Line::Sample(word)) => {
                let outcome = self.live.sample(word, &mut self.rows);
                self.tell(Call::Sample, outcome.map(|()| 0), out);
            }
            Some(Line::Step { health, readings }) => {
                let outcome = self.live.step(&readings, health, &mut self.rows);
                self.tell(Call::Step, outcome.map(|()| 0), out);
            }
            _ => {}
        }
    }

    /// Prints what a call gave: a refusal, or its rows and an answer of this length.
    fn tell(&mut self, call: Call, outcome: Result<usize, Refusal>, out: &mut Vec<u8>) {
        match outcome {
            Ok(length) => {
                self.coverage.taken(call);
                self.coverage.rows(DriveKind::Counting, &self.rows);
                print::rows(&self.rows, out);
                print::answer(&self.block[..length], out);
            }
            Err(refusal) => {
                self.coverage.refused(call, refusal);
                print::refusal(refusal, out);
            }
        }
    }
}

impl Default for Run {
    fn default() -> Self {
        Run::new()
    }
}
