//! The texts of Set.

use crate::axis::Axis;
use crate::contacts::{Bit, Level};
use crate::number::{read_number, read_whole, Factor, Point};
use crate::refusal::Refusal;
use crate::request::{expect_end, leading};

#[derive(Clone, Copy, PartialEq, Eq, Debug)]
pub enum Setting {
    Select(Axis),
    UnitsOn(Factor),
    UnitsOff,
    KillInput(Bit, Level),
    NoKillInputs,
}

enum Name {
    Select(Axis),
    UnitsOn,
    UnitsOff,
    KillInput,
}

/// The setting that a text asks for; refusals 5, 7 and 8.
pub fn read(text: &[u8]) -> Result<Setting, Refusal> {
    let (name, rest) = read_name(text).map_err(Refusal::name)?;
    match name {
        Name::Select(axis) => expect_end(text, rest).map(|()| Setting::Select(axis)),
        Name::UnitsOff => expect_end(text, rest).map(|()| Setting::UnitsOff),
        Name::UnitsOn => read_factor(text, rest),
        Name::KillInput if text.get(rest) == Some(&b',') => read_removal(text, rest + 1),
        Name::KillInput => read_kill_input(text, rest),
    }
}

/// The name with which a text begins and the place after it, or where no name goes on.
fn read_name(text: &[u8]) -> Result<(Name, usize), usize> {
    match leading(text) {
        [b'A', letter, _] => {
            let axis = Axis::from_letter(letter).ok_or(1_usize)?;
            Ok((Name::Select(axis), 2))
        }
        [b'U', b'U', _] => Ok((Name::UnitsOn, 2)),
        [b'U', b'F', _] => Ok((Name::UnitsOff, 2)),
        [b'I', b'O', b'K'] => Ok((Name::KillInput, 3)),
        [b'I', b'O', _] => Err(2),
        [b'U' | b'I', ..] => Err(1),
        _ => Err(0),
    }
}

fn read_factor(text: &[u8], start: usize) -> Result<Setting, Refusal> {
    let (number, end) = read_number(text, start, Point::Allowed)?;
    expect_end(text, end)?;
    let factor = Factor::new(number).ok_or(Refusal::range(start))?;
    Ok(Setting::UnitsOn(factor))
}

/// The C after `IOK,`.
fn read_removal(text: &[u8], start: usize) -> Result<Setting, Refusal> {
    match text.get(start) {
        Some(b'C' | b'c') => expect_end(text, start + 1).map(|()| Setting::NoKillInputs),
        _ => Err(Refusal::form(start)),
    }
}

fn read_kill_input(text: &[u8], start: usize) -> Result<Setting, Refusal> {
    let (bit, comma) = read_whole(text, start)?;
    if text.get(comma) != Some(&b',') {
        return Err(Refusal::form(comma));
    }
    let second = comma + 1;
    let (level, end) = read_whole(text, second)?;
    expect_end(text, end)?;
    let contact = Bit::new(bit).ok_or(Refusal::range(start))?;
    match level {
        0 => Ok(Setting::KillInput(contact, Level::Low)),
        1 => Ok(Setting::KillInput(contact, Level::High)),
        _ => Err(Refusal::range(second)),
    }
}
