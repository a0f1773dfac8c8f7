//! What happened in runs: so that a comparison can tell whether it met everything.

use crate::refusal::Refusal;
use crate::row::Row;

#[derive(Clone, Copy, PartialEq, Eq, Debug)]
pub enum Call {
    Set,
    Arm,
    CommandM,
    CommandP,
    Sample,
    Step,
    Park,
}

impl Call {
    const ALL: [Call; 7] = [
        Call::Set,
        Call::Arm,
        Call::CommandM,
        Call::CommandP,
        Call::Sample,
        Call::Step,
        Call::Park,
    ];

    const fn title(self) -> &'static str {
        match self {
            Call::Set => "Set",
            Call::Arm => "Arm",
            Call::CommandM => "Command on port M",
            Call::CommandP => "Command on port P",
            Call::Sample => "Sample",
            Call::Step => "Step",
            Call::Park => "Park",
        }
    }

    /// The numbers with which a run can see this call refused; 11 would take too long.
    const fn refusals(self) -> &'static [usize] {
        match self {
            Call::Set => &[4, 5, 7, 8],
            Call::CommandM => &[1, 2, 4, 5, 6, 7, 8, 9, 10],
            Call::CommandP => &[1, 2, 4, 5, 7, 8, 9, 10],
            Call::Sample => &[1],
            Call::Step => &[1, 3],
            Call::Arm | Call::Park => &[],
        }
    }
}

#[derive(Clone, Copy, PartialEq, Eq, Debug)]
pub enum DriveKind {
    Counting,
    Reporting,
    RatioCounting,
    RatioReporting,
}

impl DriveKind {
    const ALL: [DriveKind; 4] = [
        DriveKind::Counting,
        DriveKind::Reporting,
        DriveKind::RatioCounting,
        DriveKind::RatioReporting,
    ];

    const fn title(self) -> &'static str {
        match self {
            DriveKind::Counting => "the counting drive",
            DriveKind::Reporting => "the reporting drive",
            DriveKind::RatioCounting => "the ratio drive over the counting drive",
            DriveKind::RatioReporting => "the ratio drive over the reporting drive",
        }
    }

    /// Only a reporting drive goes down, which is kind 5.
    const fn can_show(self, kind: usize) -> bool {
        match self {
            DriveKind::Counting | DriveKind::RatioCounting => kind != 5,
            DriveKind::Reporting | DriveKind::RatioReporting => true,
        }
    }
}

const KINDS: usize = 10;
const CODES: usize = 8;
const REASONS: usize = 11;

/// How often each thing happened.
#[derive(Clone, Debug, Default)]
pub struct Coverage {
    taken: [u64; Call::ALL.len()],
    refused: [[u64; REASONS + 1]; Call::ALL.len()],
    kinds: [[u64; KINDS]; DriveKind::ALL.len()],
    codes: [u64; CODES + 1],
}

impl Coverage {
    pub fn taken(&mut self, call: Call) {
        self.taken[call as usize] += 1;
    }

    pub fn refused(&mut self, call: Call, refusal: Refusal) {
        self.refused[call as usize][refusal.number()] += 1;
    }

    pub fn rows(&mut self, drive: DriveKind, rows: &[Row]) {
        for row in rows {
            let [kind, _, _, code, _] = row.numbers();
            self.kinds[drive as usize][kind as usize] += 1;
            self.codes[code as usize] += 1;
        }
    }

    pub fn add(&mut self, other: &Coverage) {
        add_all(&mut self.taken, &other.taken);
        add_all(&mut self.codes, &other.codes);
        for (mine, theirs) in self.refused.iter_mut().zip(&other.refused) {
            add_all(mine, theirs);
        }
        for (mine, theirs) in self.kinds.iter_mut().zip(&other.kinds) {
            add_all(mine, theirs);
        }
    }

    /// How many calls were made, taken or refused.
    pub fn calls(&self) -> u64 {
        let refused = self.refused.iter().flatten();
        self.taken.iter().chain(refused).sum()
    }

    /// What can happen and did not, one line each.
    pub fn missing(&self) -> Vec<String> {
        let mut missing = Vec::new();
        for call in Call::ALL {
            let title = call.title();
            if self.taken[call as usize] == 0 {
                missing.push(format!("{title} was never taken"));
            }
            for &number in call.refusals() {
                if self.refused[call as usize][number] == 0 {
                    missing.push(format!("{title} was never refused with {number}"));
                }
            }
        }
        for drive in DriveKind::ALL {
            for kind in (0..KINDS).filter(|&kind| drive.can_show(kind)) {
                if self.kinds[drive as usize][kind] == 0 {
                    let title = drive.title();
                    missing.push(format!("no row of kind {kind} over {title}"));
                }
            }
        }
        for code in 1..=CODES {
            if self.codes[code] == 0 {
                missing.push(format!("no entry of code {code} was executed"));
            }
        }
        missing
    }

    /// All counts, for the eye.
    pub fn table(&self) -> String {
        let mut table = String::new();
        for call in Call::ALL {
            let taken = self.taken[call as usize];
            table += &format!("{}: taken {taken}", call.title());
            for &number in call.refusals() {
                let refused = self.refused[call as usize][number];
                table += &format!(", refused with {number} {refused}");
            }
            table += "\n";
        }
        for drive in DriveKind::ALL {
            let kinds = self.kinds[drive as usize];
            table += &format!("{}: rows of kinds 0 to 9 {kinds:?}\n", drive.title());
        }
        table += &format!("entries executed of codes 1 to 8 {:?}\n", &self.codes[1..]);
        table
    }
}

fn add_all(mine: &mut [u64], theirs: &[u64]) {
    for (mine, theirs) in mine.iter_mut().zip(theirs) {
        *mine += theirs;
    }
}
