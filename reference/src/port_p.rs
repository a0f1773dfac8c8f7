//! Port P, the bench's.

use crate::axis::{Axis, AxisSet};
use crate::number::read_whole;
use crate::queue::Code;
use crate::refusal::Refusal;
use crate::request::{expect_end, leading, Motion, Order, Question, Request, Selection};

/// The greatest size of a number on this port.
const NUMBER_MAX: i64 = 1_000_000_000;

enum Name {
    Relative,
    Absolute,
    Stop,
    WaitStop,
    Position,
}

/// What a text asks for, and of which axis; refusals 5, 7 and 8.
pub fn read(text: &[u8], last: Axis) -> Result<(Axis, Request), Refusal> {
    let (axis, digits) = read_axis(text, last)?;
    let name = read_name(&text[digits..]).map_err(|place| Refusal::name(digits + place))?;
    let rest = digits + 2;
    let request = match name {
        Name::Relative => read_move(text, rest, axis, Code::MoveRelative)?,
        Name::Absolute => read_move(text, rest, axis, Code::MoveAbsolute)?,
        Name::Stop => {
            expect_end(text, rest)?;
            Request::Clear(AxisSet::one(axis), Motion::Halts)
        }
        Name::WaitStop => {
            expect_end(text, rest)?;
            Request::Place(Order::one(axis, Code::WaitStop, 0))
        }
        Name::Position => {
            expect_end(text, rest)?;
            Request::Ask(Question::Position(Selection::One(axis)))
        }
    };
    Ok((axis, request))
}

/// The axis, and how many leading digits name it.
fn read_axis(text: &[u8], last: Axis) -> Result<(Axis, usize), Refusal> {
    let digits = text.iter().take_while(|byte| byte.is_ascii_digit()).count();
    let value = |byte: u8| usize::from(byte - b'0');
    let number = match text[..digits] {
        [] => return Ok((last, 0)),
        [one] => value(one),
        [ten, one] => 10 * value(ten) + value(one),
        _ => return Err(Refusal::name(0)),
    };
    let axis = Axis::from_number(number).ok_or(Refusal::name(0))?;
    Ok((axis, digits))
}

/// The name with which these bytes begin, or where no name goes on.
fn read_name(bytes: &[u8]) -> Result<Name, usize> {
    match leading(bytes) {
        [b'P', b'R'] => Ok(Name::Relative),
        [b'P', b'A'] => Ok(Name::Absolute),
        [b'S', b'T'] => Ok(Name::Stop),
        [b'W', b'S'] => Ok(Name::WaitStop),
        [b'T', b'P'] => Ok(Name::Position),
        [b'P' | b'S' | b'W' | b'T', _] => Err(1),
        _ => Err(0),
    }
}

/// A move and a GO; an absent number is 0.
fn read_move(text: &[u8], start: usize, axis: Axis, code: Code) -> Result<Request, Refusal> {
    let number = if start == text.len() {
        0
    } else {
        let (number, end) = read_whole(text, start)?;
        expect_end(text, end)?;
        number
    };
    if number.abs() > NUMBER_MAX {
        return Err(Refusal::range(start));
    }
    Ok(Request::Place(Order::one(axis, code, number).with_go()))
}
