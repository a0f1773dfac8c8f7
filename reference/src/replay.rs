//! `replay`: makes every call that a host can make, from a script.

use crate::axis::{Axis, AXES};
use crate::controller::{Live, Parked, Port, ANSWER_MIN};
use crate::coverage::{Call, Coverage, DriveKind};
use crate::drive::{Counting, Drive, Ratio, Reporting};
use crate::line::{lines, Line, Make};
use crate::print;
use crate::row::Row;

/// What `replay` prints for a script.
pub fn replay(script: &[u8]) -> Vec<u8> {
    replay_covered(script).0
}

/// The same, and what happened on the way.
pub fn replay_covered(script: &[u8]) -> (Vec<u8>, Coverage) {
    let mut session = Session::new();
    let mut out = Vec::new();
    for line in lines(script) {
        session.line(line, &mut out);
    }
    (out, session.coverage)
}

/// Any drive that a script can ask for.
pub enum AnyDrive {
    Counting(Counting),
    Reporting(Reporting),
    RatioCounting(Ratio<Counting>),
    RatioReporting(Ratio<Reporting>),
}

impl AnyDrive {
    fn make(make: Make) -> AnyDrive {
        let counting = |rate, start| Counting::new([rate; AXES], [start; AXES]);
        let reporting = |start| Reporting::new([start; AXES]);
        match make {
            Make::Counting { rate, start } => AnyDrive::Counting(counting(rate, start)),
            Make::Reporting { start } => AnyDrive::Reporting(reporting(start)),
            Make::RatioCounting { steps, rate, start } => {
                AnyDrive::RatioCounting(Ratio::new(steps, counting(rate, start)))
            }
            Make::RatioReporting { steps, start } => {
                AnyDrive::RatioReporting(Ratio::new(steps, reporting(start)))
            }
        }
    }

    pub fn kind(&self) -> DriveKind {
        match self {
            AnyDrive::Counting(_) => DriveKind::Counting,
            AnyDrive::Reporting(_) => DriveKind::Reporting,
            AnyDrive::RatioCounting(_) => DriveKind::RatioCounting,
            AnyDrive::RatioReporting(_) => DriveKind::RatioReporting,
        }
    }

    /// Position and target of the lowest drive, which readings are compared with.
    pub(crate) fn lowest(&self, axis: Axis) -> (i64, i64) {
        fn both(drive: &impl Drive, axis: Axis) -> (i64, i64) {
            (drive.position(axis), drive.target(axis))
        }
        match self {
            AnyDrive::Counting(drive) => both(drive, axis),
            AnyDrive::Reporting(drive) => both(drive, axis),
            AnyDrive::RatioCounting(drive) => both(drive.below(), axis),
            AnyDrive::RatioReporting(drive) => both(drive.below(), axis),
        }
    }
}

/// Hands a question or an order to the drive inside.
macro_rules! inside {
    ($any:expr, $drive:ident => $what:expr) => {
        match $any {
            AnyDrive::Counting($drive) => $what,
            AnyDrive::Reporting($drive) => $what,
            AnyDrive::RatioCounting($drive) => $what,
            AnyDrive::RatioReporting($drive) => $what,
        }
    };
}

impl Drive for AnyDrive {
    fn position(&self, axis: Axis) -> i64 {
        inside!(self, drive => drive.position(axis))
    }

    fn target(&self, axis: Axis) -> i64 {
        inside!(self, drive => drive.target(axis))
    }

    fn least(&self, axis: Axis) -> i64 {
        inside!(self, drive => drive.least(axis))
    }

    fn greatest(&self, axis: Axis) -> i64 {
        inside!(self, drive => drive.greatest(axis))
    }

    fn is_down(&self, axis: Axis) -> bool {
        inside!(self, drive => drive.is_down(axis))
    }

    fn aim(&mut self, axis: Axis, target: i64) {
        inside!(self, drive => drive.aim(axis, target))
    }

    fn halt(&mut self, axis: Axis) {
        inside!(self, drive => drive.halt(axis))
    }

    fn advance(&mut self, readings: &[i64], health: u8) {
        inside!(self, drive => drive.advance(readings, health))
    }
}

/// A controller in either state.
#[allow(clippy::large_enum_variant)]
enum Station {
    None,
    Parked(Parked<AnyDrive>),
    Live(Live<AnyDrive>),
}

/// A run of `replay`, line by line.
pub struct Session {
    station: Station,
    drive: DriveKind,
    rows: Vec<Row>,
    block: Vec<u8>,
    coverage: Coverage,
}

impl Session {
    pub fn new() -> Session {
        Session {
            station: Station::None,
            drive: DriveKind::Counting,
            rows: Vec::new(),
            block: Vec::new(),
            coverage: Coverage::default(),
        }
    }

    /// Makes the call of one line and prints what it gave; skips a line that is none, and a call
    /// that the present state does not take.
    pub fn line(&mut self, line: &[u8], out: &mut Vec<u8>) {
        match Line::parse(line) {
            Some(Line::New(make)) => self.make(make),
            Some(Line::Set(text)) => self.set(text, out),
            Some(Line::Arm(word)) => self.arm(word),
            Some(Line::Park) => self.park(out),
            Some(Line::Command(port, text)) => self.command(port, text, out),
            Some(Line::Sample(word)) => self.sample(word, out),
            Some(Line::Step { health, readings }) => self.step(&readings, health, out),
            Some(Line::Rows(size)) => self.rows.resize(size, Row::Nothing),
            Some(Line::Answer(size)) => self.block.resize(size, 0),
            Some(Line::Show) => self.show(out),
            None => {}
        }
    }

    pub(crate) fn live(&self) -> Option<&Live<AnyDrive>> {
        match &self.station {
            Station::Live(live) => Some(live),
            Station::None | Station::Parked(_) => None,
        }
    }

    /// The earlier controller is let go; parked or not, nothing of it is told any more.
    fn make(&mut self, make: Make) {
        let drive = AnyDrive::make(make);
        self.drive = drive.kind();
        self.station = Station::Parked(Parked::new(drive));
        self.rows.resize(AXES, Row::Nothing);
        self.block.resize(ANSWER_MIN, 0);
    }

    fn set(&mut self, text: &[u8], out: &mut Vec<u8>) {
        let Station::Parked(parked) = &mut self.station else {
            return;
        };
        match parked.set(text) {
            Ok(()) => self.coverage.taken(Call::Set),
            Err(refusal) => {
                self.coverage.refused(Call::Set, refusal);
                print::refusal(refusal, out);
            }
        }
    }

    fn arm(&mut self, word: u16) {
        self.station = match std::mem::replace(&mut self.station, Station::None) {
            Station::Parked(parked) => {
                self.coverage.taken(Call::Arm);
                Station::Live(parked.arm(word))
            }
            other => other,
        };
    }

    fn park(&mut self, out: &mut Vec<u8>) {
        self.station = match std::mem::replace(&mut self.station, Station::None) {
            Station::Live(live) => {
                self.coverage.taken(Call::Park);
                let parked = live.park();
                print::dropped(parked.dropped(), out);
                Station::Parked(parked)
            }
            other => other,
        };
    }

    fn command(&mut self, port: Port, text: &[u8], out: &mut Vec<u8>) {
        let Station::Live(live) = &mut self.station else {
            return;
        };
        let call = match port {
            Port::M => Call::CommandM,
            Port::P => Call::CommandP,
        };
        match live.command(port, text, &mut self.rows, &mut self.block) {
            Ok(length) => {
                self.coverage.taken(call);
                self.coverage.rows(self.drive, &self.rows);
                print::rows(&self.rows, out);
                print::answer(&self.block[..length], out);
            }
            Err(refusal) => {
                self.coverage.refused(call, refusal);
                print::refusal(refusal, out);
            }
        }
    }

    fn sample(&mut self, word: u16, out: &mut Vec<u8>) {
        if let Station::Live(live) = &mut self.station {
            let outcome = live.sample(word, &mut self.rows);
            self.tell(Call::Sample, outcome, out);
        }
    }

    fn step(&mut self, readings: &[i64], health: u8, out: &mut Vec<u8>) {
        if let Station::Live(live) = &mut self.station {
            let outcome = live.step(readings, health, &mut self.rows);
            self.tell(Call::Step, outcome, out);
        }
    }

    /// Prints what a call without an answer gave.
    fn tell(&mut self, call: Call, outcome: Result<(), crate::Refusal>, out: &mut Vec<u8>) {
        match outcome {
            Ok(()) => {
                self.coverage.taken(call);
                self.coverage.rows(self.drive, &self.rows);
                print::rows(&self.rows, out);
            }
            Err(refusal) => {
                self.coverage.refused(call, refusal);
                print::refusal(refusal, out);
            }
        }
    }

    fn show(&self, out: &mut Vec<u8>) {
        if let Station::Live(live) = &self.station {
            print::word(live.output_word(), out);
            for axis in Axis::ALL {
                print::place(axis, live.position(axis), live.target(axis), out);
            }
        }
    }
}

impl Default for Session {
    fn default() -> Self {
        Session::new()
    }
}
