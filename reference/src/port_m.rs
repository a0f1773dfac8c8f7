//! Port M, the mount's.

use crate::axis::{Axis, AxisSet, AXES};
use crate::contacts::Bit;
use crate::number::{is_count, read_number, read_whole, Decimal, Point, Units};
use crate::queue::Code;
use crate::refusal::{Reason, Refusal};
use crate::request::{expect_end, leading, Motion, Order, Question, Request, Selection};

#[derive(Clone, Copy, PartialEq, Eq, Debug)]
enum Name {
    Select(Selection),
    MoveAbsolute,
    MoveRelative,
    Go,
    BitHigh,
    BitLow,
    WaitHigh,
    WaitLow,
    Kill,
    KillSelected,
    Flush,
    Position,
    Queue,
    Record,
}

impl Name {
    const fn is_valid_in_all(self) -> bool {
        !matches!(
            self,
            Name::BitHigh | Name::BitLow | Name::WaitHigh | Name::WaitLow | Name::Flush
        )
    }
}

/// The name with which a text begins and the place after it, or where no name goes on.
fn read_name(text: &[u8]) -> Result<(Name, usize), usize> {
    let name = match leading(text) {
        [b'A', b'A', _] => Name::Select(Selection::All),
        [b'A', letter, _] => {
            let axis = Axis::from_letter(letter).ok_or(1_usize)?;
            Name::Select(Selection::One(axis))
        }
        [b'M', b'A', _] => Name::MoveAbsolute,
        [b'M', b'R', _] => Name::MoveRelative,
        [b'G', b'O', _] => Name::Go,
        [b'B', b'H', _] => Name::BitHigh,
        [b'B', b'L', _] => Name::BitLow,
        [b'S', b'W', _] => Name::WaitHigh,
        [b'B', b'W', _] => Name::WaitLow,
        [b'K', b'L', _] => Name::Kill,
        [b'K', b'S', _] => Name::KillSelected,
        [b'F', b'L', _] => Name::Flush,
        [b'R', b'P', _] => Name::Position,
        [b'R', b'Q', b'C'] => return Ok((Name::Queue, 3)),
        [b'#', b'E', b'R'] => return Ok((Name::Record, 3)),
        [b'R', b'Q', _] | [b'#', b'E', _] => return Err(2),
        [b'M' | b'G' | b'B' | b'S' | b'K' | b'F' | b'R' | b'#', ..] => return Err(1),
        _ => return Err(0),
    };
    Ok((name, 2))
}

/// What a text asks for; refusals 5 to 8.
pub fn read(
    text: &[u8],
    selection: Selection,
    units: impl Fn(Axis) -> Units,
) -> Result<Request, Refusal> {
    let (name, rest) = read_name(text).map_err(Refusal::name)?;
    match selection {
        Selection::One(axis) => read_for_one(text, name, rest, axis, units(axis)),
        Selection::All if name.is_valid_in_all() => read_for_all(text, name, rest, units),
        Selection::All => Err(Refusal::call(Reason::NotInAll)),
    }
}

fn read_for_one(
    text: &[u8],
    name: Name,
    rest: usize,
    axis: Axis,
    units: Units,
) -> Result<Request, Refusal> {
    let request = match name {
        Name::MoveAbsolute => return read_move(text, rest, axis, Code::MoveAbsolute, units),
        Name::MoveRelative => return read_move(text, rest, axis, Code::MoveRelative, units),
        Name::BitHigh => return read_bit(text, rest, axis, Code::BitHigh),
        Name::BitLow => return read_bit(text, rest, axis, Code::BitLow),
        Name::WaitHigh => return read_bit(text, rest, axis, Code::WaitHigh),
        Name::WaitLow => return read_bit(text, rest, axis, Code::WaitLow),
        Name::Select(selection) => Request::Select(selection),
        Name::Go => Request::Place(Order::one(axis, Code::Go, 0)),
        Name::Kill => Request::Clear(AxisSet::ALL, Motion::Halts),
        Name::KillSelected => Request::Clear(AxisSet::one(axis), Motion::Halts),
        Name::Flush => Request::Clear(AxisSet::one(axis), Motion::GoesOn),
        Name::Position => Request::Ask(Question::Position(Selection::One(axis))),
        Name::Queue => Request::Ask(Question::FreePlaces(Selection::One(axis))),
        Name::Record => Request::Ask(Question::Record),
    };
    expect_end(text, rest)?;
    Ok(request)
}

fn read_for_all(
    text: &[u8],
    name: Name,
    rest: usize,
    units: impl Fn(Axis) -> Units,
) -> Result<Request, Refusal> {
    let request = match name {
        Name::MoveAbsolute => return read_moves(text, rest, Code::MoveAbsolute, units),
        Name::MoveRelative => return read_moves(text, rest, Code::MoveRelative, units),
        Name::Go => {
            let axes = read_naming(text, rest)?;
            return Ok(Request::Place(Order {
                axes,
                code: Code::Go,
                operands: [0; AXES],
                go_after: false,
            }));
        }
        Name::KillSelected => {
            let axes = read_naming(text, rest)?;
            return Ok(Request::Clear(axes, Motion::Halts));
        }
        Name::Select(selection) => Request::Select(selection),
        Name::Kill => Request::Clear(AxisSet::ALL, Motion::Halts),
        Name::Position => Request::Ask(Question::Position(Selection::All)),
        Name::Queue => Request::Ask(Question::FreePlaces(Selection::All)),
        Name::Record => Request::Ask(Question::Record),
        Name::BitHigh | Name::BitLow | Name::WaitHigh | Name::WaitLow | Name::Flush => {
            return Err(Refusal::call(Reason::NotInAll));
        }
    };
    expect_end(text, rest)?;
    Ok(request)
}

fn read_move(
    text: &[u8],
    start: usize,
    axis: Axis,
    code: Code,
    units: Units,
) -> Result<Request, Refusal> {
    let (number, end) = read_number(text, start, units.point())?;
    expect_end(text, end)?;
    let counts = units.counts(number).ok_or(Refusal::range(start))?;
    Ok(Request::Place(Order::one(axis, code, counts)))
}

fn read_bit(text: &[u8], start: usize, axis: Axis, code: Code) -> Result<Request, Refusal> {
    let (number, end) = read_whole(text, start)?;
    expect_end(text, end)?;
    Bit::new(number).ok_or(Refusal::range(start))?;
    Ok(Request::Place(Order::one(axis, code, number)))
}

fn read_moves(
    text: &[u8],
    start: usize,
    code: Code,
    units: impl Fn(Axis) -> Units,
) -> Result<Request, Refusal> {
    let mut operands = [0; AXES];
    let axes = read_list(
        text,
        start,
        |axis| units(axis).point(),
        |axis, number| {
            let counts = units(axis).counts(number)?;
            operands[axis.index()] = counts;
            Some(())
        },
    )?;
    Ok(Request::Place(Order {
        axes,
        code,
        operands,
        go_after: false,
    }))
}

/// A list whose numbers only name their axes.
fn read_naming(text: &[u8], start: usize) -> Result<AxisSet, Refusal> {
    read_list(
        text,
        start,
        |_| Point::Forbidden,
        |_, number| is_count(number.digits).then_some(()),
    )
}

/// Reads a list to the end of the text; gives the axes it names. `take` gets each number, and
/// gives nothing for one that is out of range.
fn read_list(
    text: &[u8],
    start: usize,
    point: impl Fn(Axis) -> Point,
    mut take: impl FnMut(Axis, Decimal) -> Option<()>,
) -> Result<AxisSet, Refusal> {
    let mut named = AxisSet::NONE;
    let mut out_of_range = None;
    let mut at = start;
    for axis in Axis::ALL {
        if !matches!(text.get(at), None | Some(b',')) {
            let (number, end) = read_number(text, at, point(axis))?;
            named.insert(axis);
            if take(axis, number).is_none() {
                out_of_range.get_or_insert(at);
            }
            at = end;
        }
        match text.get(at) {
            None => break,
            Some(b',') if axis != Axis::S => at += 1,
            Some(_) => return Err(Refusal::form(at)),
        }
    }
    match out_of_range {
        Some(place) => Err(Refusal::range(place)),
        None if named.is_empty() => Err(Refusal::form(text.len())),
        None => Ok(named),
    }
}
