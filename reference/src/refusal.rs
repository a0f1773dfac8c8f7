//! Refusals: why a call turned back, and where.

use crate::axis::Axis;

/// The reasons, with their numbers.
#[derive(Clone, Copy, PartialEq, Eq, Debug)]
pub enum Reason {
    /// The sheet has not eight rows.
    Sheet = 1,
    /// The answer block is under 192 bytes.
    AnswerBlock = 2,
    /// The readings are not eight.
    Readings = 3,
    /// The text is empty, or over 160 bytes.
    Length = 4,
    /// No such name, or no such axis number on port P.
    Name = 5,
    /// Not valid while all axes are selected.
    NotInAll = 6,
    /// A byte that does not fit, or one missing.
    Form = 7,
    /// A number out of range.
    Range = 8,
    /// A named axis is killed.
    Killed = 9,
    /// Too few command or argument places.
    Places = 10,
    /// Too many entries since Arm.
    Count = 11,
}

#[derive(Clone, Copy, PartialEq, Eq, Debug)]
pub struct Refusal {
    pub reason: Reason,
    pub place: usize,
    pub axis: Option<Axis>,
}

impl Refusal {
    /// A refusal of the call as a whole: no place, no axis.
    pub const fn call(reason: Reason) -> Refusal {
        Refusal::at(reason, 0)
    }

    pub const fn name(place: usize) -> Refusal {
        Refusal::at(Reason::Name, place)
    }

    pub const fn form(place: usize) -> Refusal {
        Refusal::at(Reason::Form, place)
    }

    pub const fn range(place: usize) -> Refusal {
        Refusal::at(Reason::Range, place)
    }

    pub const fn axis(reason: Reason, axis: Axis) -> Refusal {
        Refusal {
            reason,
            place: 0,
            axis: Some(axis),
        }
    }

    const fn at(reason: Reason, place: usize) -> Refusal {
        Refusal {
            reason,
            place,
            axis: None,
        }
    }

    /// 1 to 11.
    pub const fn number(self) -> usize {
        self.reason as usize
    }

    /// 1 to 8, or 0 for none.
    pub fn axis_number(self) -> usize {
        self.axis.map_or(0, Axis::number)
    }
}
