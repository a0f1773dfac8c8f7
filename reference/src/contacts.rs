//! Kill inputs: contacts that stop an axis, each at its level.

/// A contact or an output, 0 to 15.
#[derive(Clone, Copy, PartialEq, Eq, Debug)]
pub struct Bit(u8);

impl Bit {
    pub fn new(number: i64) -> Option<Bit> {
        match number {
            0..=15 => Some(Bit(number as u8)),
            _ => None,
        }
    }

    pub const fn mask(self) -> u16 {
        1 << self.0
    }
}

#[derive(Clone, Copy, PartialEq, Eq, Debug)]
pub enum Level {
    Low,
    High,
}

/// The kill inputs of one axis: those that kill at 1 and those that kill at 0.
/// No contact is in both.
#[derive(Clone, Copy, PartialEq, Eq, Debug, Default)]
pub struct KillInputs {
    high: u16,
    low: u16,
}

impl KillInputs {
    /// Makes the contact a kill input; an earlier level of it is replaced.
    pub fn put(&mut self, contact: Bit, level: Level) {
        let mask = contact.mask();
        self.high &= !mask;
        self.low &= !mask;
        match level {
            Level::High => self.high |= mask,
            Level::Low => self.low |= mask,
        }
    }

    pub fn clear(&mut self) {
        *self = KillInputs::default();
    }

    /// Whether one of them is at its level in the word.
    pub const fn hit_by(self, word: u16) -> bool {
        (word & self.high) | (!word & self.low) != 0
    }
}
