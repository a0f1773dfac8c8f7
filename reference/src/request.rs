//! What a command text asks for.

use crate::axis::{Axis, AxisSet, AXES};
use crate::queue::{Code, Entry};
use crate::refusal::{Reason, Refusal};

/// The most bytes of a text.
pub const TEXT_MAX: usize = 160;

/// One axis, or all of them.
#[derive(Clone, Copy, PartialEq, Eq, Debug)]
pub enum Selection {
    One(Axis),
    All,
}

/// What a clearing does to an axis in motion.
#[derive(Clone, Copy, PartialEq, Eq, Debug)]
pub enum Motion {
    Halts,
    GoesOn,
}

#[derive(Clone, Copy, PartialEq, Eq, Debug)]
pub enum Question {
    Position(Selection),
    FreePlaces(Selection),
    Record,
}

/// Entries to be placed: one on each axis, or, with a GO after it, two.
#[derive(Clone, Copy, PartialEq, Eq, Debug)]
pub struct Order {
    pub axes: AxisSet,
    pub code: Code,
    /// For each axis, though only those of named axes count.
    pub operands: [i64; AXES],
    pub go_after: bool,
}

impl Order {
    pub fn one(axis: Axis, code: Code, operand: i64) -> Order {
        let mut operands = [0; AXES];
        operands[axis.index()] = operand;
        Order {
            axes: AxisSet::one(axis),
            code,
            operands,
            go_after: false,
        }
    }

    pub const fn with_go(self) -> Order {
        Order {
            go_after: true,
            ..self
        }
    }

    pub const fn entry(&self, axis: Axis) -> Entry {
        Entry {
            code: self.code,
            operand: self.operands[axis.index()],
        }
    }

    /// Command places needed on each axis.
    pub const fn commands(&self) -> usize {
        1 + self.go_after as usize
    }

    /// Argument places needed on each axis.
    pub const fn arguments(&self) -> usize {
        self.code.takes_argument() as usize
    }
}

#[derive(Clone, Copy, PartialEq, Eq, Debug)]
pub enum Request {
    Select(Selection),
    Place(Order),
    Clear(AxisSet, Motion),
    Ask(Question),
}

/// Refusal 4.
pub fn check_length(text: &[u8]) -> Result<(), Refusal> {
    match text.len() {
        1..=TEXT_MAX => Ok(()),
        _ => Err(Refusal::call(Reason::Length)),
    }
}

/// The text ends at this place, or the byte there does not fit.
pub fn expect_end(text: &[u8], place: usize) -> Result<(), Refusal> {
    if place == text.len() {
        Ok(())
    } else {
        Err(Refusal::form(place))
    }
}

/// The leading bytes in upper case; zeros, which are in no name, where the text is shorter.
pub fn leading<const N: usize>(text: &[u8]) -> [u8; N] {
    let mut lead = [0; N];
    for (upper, byte) in lead.iter_mut().zip(text) {
        *upper = byte.to_ascii_uppercase();
    }
    lead
}
