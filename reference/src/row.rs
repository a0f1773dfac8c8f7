//! Rows: what a call says happened on one axis.

use crate::axis::AXES;
use crate::queue::Entry;
use crate::refusal::{Reason, Refusal};

#[derive(Clone, Copy, PartialEq, Eq, Debug, Default)]
pub enum Row {
    #[default]
    Nothing,
    Accepted {
        count: u32,
    },
    Executed {
        serial: u32,
        entry: Entry,
    },
    InMotion,
    WaitingForInput,
    DriveDown,
    Killed,
    ClearedByCommand {
        dropped: u32,
    },
    ClearedBySample {
        dropped: u32,
    },
    ClearedByReachFault {
        dropped: u32,
    },
}

impl Row {
    /// Kind, count, serial, code, operand.
    pub const fn numbers(self) -> [i64; 5] {
        match self {
            Row::Nothing => [0; 5],
            Row::Accepted { count } => [1, count as i64, 0, 0, 0],
            Row::Executed { serial, entry } => {
                [2, 0, serial as i64, entry.code as i64, entry.operand]
            }
            Row::InMotion => [3, 0, 0, 0, 0],
            Row::WaitingForInput => [4, 0, 0, 0, 0],
            Row::DriveDown => [5, 0, 0, 0, 0],
            Row::Killed => [6, 0, 0, 0, 0],
            Row::ClearedByCommand { dropped } => [7, dropped as i64, 0, 0, 0],
            Row::ClearedBySample { dropped } => [8, dropped as i64, 0, 0, 0],
            Row::ClearedByReachFault { dropped } => [9, dropped as i64, 0, 0, 0],
        }
    }
}

/// The lent rows as a sheet of eight, or refusal 1.
pub fn sheet(rows: &mut [Row]) -> Result<&mut [Row; AXES], Refusal> {
    rows.try_into().map_err(|_| Refusal::call(Reason::Sheet))
}
