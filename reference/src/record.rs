//! The first-error record of port M.

use crate::refusal::{Reason, Refusal};
use crate::request::TEXT_MAX;

/// The bytes of the first bad text, or nothing.
#[derive(Clone, Debug)]
pub struct Record {
    bytes: [u8; TEXT_MAX],
    length: usize,
}

impl Record {
    pub const fn new() -> Record {
        Record {
            bytes: [0; TEXT_MAX],
            length: 0,
        }
    }

    pub fn bytes(&self) -> &[u8] {
        &self.bytes[..self.length]
    }

    pub fn clear(&mut self) {
        self.length = 0;
    }

    /// Takes what a refusal 5 to 8 leaves of its text, if nothing is held yet: the bytes up to
    /// one that does not fit, else the whole text.
    pub fn note(&mut self, text: &[u8], refusal: Refusal) {
        if self.length > 0 {
            return;
        }
        let taken = match refusal.reason {
            Reason::Name | Reason::Form => text.len().min(refusal.place + 1),
            _ => text.len(),
        };
        self.bytes[..taken].copy_from_slice(&text[..taken]);
        self.length = taken;
    }
}

impl Default for Record {
    fn default() -> Self {
        Record::new()
    }
}
