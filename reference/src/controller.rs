//! The controller: parked or live, two types that are moved and never copied.

use crate::axis::{Axis, AxisSet, AXES};
use crate::contacts::KillInputs;
use crate::drive::{BeginRefusal, Drive};
use crate::number::{write_number, Units};
use crate::port_m;
use crate::port_p;
use crate::queue::{AxisQueue, Code, Entry};
use crate::record::Record;
use crate::refusal::{Reason, Refusal};
use crate::request::{check_length, Motion, Order, Question, Request, Selection};
use crate::row::{sheet, Row};
use crate::setting::{self, Setting};

/// The least size of an answer block.
pub const ANSWER_MIN: usize = 192;

#[derive(Clone, Copy, PartialEq, Eq, Debug)]
pub enum Port {
    /// The mount's.
    M,
    /// The bench's.
    P,
}

/// What is held for one axis, its drive apart.
struct AxisState {
    queue: AxisQueue,
    killed: bool,
    kill_inputs: KillInputs,
    units: Units,
}

/// What a controller holds in either state.
struct Core<D> {
    drive: D,
    axes: [AxisState; AXES],
    set_axis: Axis,
    sampled: u16,
    output: u16,
    selection: Selection,
    last_axis: Axis,
    record: Record,
    dropped: [u32; AXES],
}

/// A controller that takes settings and executes nothing.
pub struct Parked<D>(Core<D>);

/// A controller that takes commands, samples and steps.
pub struct Live<D>(Core<D>);

impl<D: Drive> Parked<D> {
    pub fn new(mut drive: D) -> Parked<D> {
        for axis in Axis::ALL {
            drive.halt(axis);
        }
        Parked(Core {
            drive,
            axes: std::array::from_fn(|_| AxisState {
                queue: AxisQueue::new(),
                killed: false,
                kill_inputs: KillInputs::default(),
                units: Units::Off,
            }),
            set_axis: Axis::X,
            sampled: 0,
            output: 0,
            selection: Selection::One(Axis::X),
            last_axis: Axis::X,
            record: Record::new(),
            dropped: [0; AXES],
        })
    }

    pub fn set(&mut self, text: &[u8]) -> Result<(), Refusal> {
        check_length(text)?;
        let setting = setting::read(text)?;
        let core = &mut self.0;
        let state = &mut core.axes[core.set_axis.index()];
        match setting {
            Setting::Select(axis) => core.set_axis = axis,
            Setting::UnitsOn(factor) => state.units = Units::On(factor),
            Setting::UnitsOff => state.units = Units::Off,
            Setting::KillInput(contact, level) => state.kill_inputs.put(contact, level),
            Setting::NoKillInputs => state.kill_inputs.clear(),
        }
        Ok(())
    }

    /// Takes the word as the first sample.
    pub fn arm(self, word: u16) -> Live<D> {
        let mut core = self.0;
        core.sampled = word;
        core.output = 0;
        core.selection = Selection::One(Axis::X);
        core.last_axis = Axis::X;
        core.record.clear();
        for state in &mut core.axes {
            state.queue.rearm();
            state.killed = state.kill_inputs.hit_by(word);
        }
        Live(core)
    }

    /// How many entries of each axis the latest Park dropped.
    pub fn dropped(&self) -> &[u32; AXES] {
        &self.0.dropped
    }

    /// Takes the controller apart.
    pub fn into_drive(self) -> D {
        self.0.drive
    }
}

impl<D: Drive> Live<D> {
    /// Does what one text asks; gives the answer's length, 0 for none.
    pub fn command(
        &mut self,
        port: Port,
        text: &[u8],
        rows: &mut [Row],
        block: &mut [u8],
    ) -> Result<usize, Refusal> {
        let rows = sheet(rows)?;
        if block.len() < ANSWER_MIN {
            return Err(Refusal::call(Reason::AnswerBlock));
        }
        check_length(text)?;
        match port {
            Port::M => self.0.command_m(text, rows, block),
            Port::P => self.0.command_p(text, rows, block),
        }
    }

    /// Takes a word of the contacts, and kills or frees axes by it.
    pub fn sample(&mut self, word: u16, rows: &mut [Row]) -> Result<(), Refusal> {
        let rows = sheet(rows)?;
        self.0.sampled = word;
        for (axis, row) in Axis::ALL.into_iter().zip(rows) {
            *row = self.0.sample_axis(axis);
        }
        Ok(())
    }

    /// Advances the drive once, and executes at most one entry of each axis.
    pub fn step(&mut self, readings: &[i64], health: u8, rows: &mut [Row]) -> Result<(), Refusal> {
        let rows = sheet(rows)?;
        if readings.len() != AXES {
            return Err(Refusal::call(Reason::Readings));
        }
        self.0.drive.advance(readings, health);
        for (axis, row) in Axis::ALL.into_iter().zip(rows) {
            *row = self.0.step_axis(axis);
        }
        Ok(())
    }

    pub fn park(self) -> Parked<D> {
        let mut core = self.0;
        for axis in Axis::ALL {
            core.dropped[axis.index()] = core.clear(axis, Motion::Halts);
        }
        Parked(core)
    }

    pub fn output_word(&self) -> u16 {
        self.0.output
    }

    pub fn position(&self, axis: Axis) -> i64 {
        self.0.drive.position(axis)
    }

    pub fn target(&self, axis: Axis) -> i64 {
        self.0.drive.target(axis)
    }

    // What follows is told to the maker of random scripts alone.

    pub(crate) fn drive(&self) -> &D {
        &self.0.drive
    }

    pub(crate) fn selection(&self) -> Selection {
        self.0.selection
    }

    pub(crate) fn units(&self, axis: Axis) -> Units {
        self.0.axes[axis.index()].units
    }

    pub(crate) fn sampled(&self) -> u16 {
        self.0.sampled
    }
}

impl<D: Drive> Core<D> {
    fn command_m(
        &mut self,
        text: &[u8],
        rows: &mut [Row; AXES],
        block: &mut [u8],
    ) -> Result<usize, Refusal> {
        let axes = &self.axes;
        let request = port_m::read(text, self.selection, |axis| axes[axis.index()].units);
        if let Err(refusal) = request {
            self.record.note(text, refusal);
        }
        self.carry_out(&request?, rows, block)
    }

    fn command_p(
        &mut self,
        text: &[u8],
        rows: &mut [Row; AXES],
        block: &mut [u8],
    ) -> Result<usize, Refusal> {
        let (axis, request) = port_p::read(text, self.last_axis)?;
        let length = self.carry_out(&request, rows, block)?;
        self.last_axis = axis;
        Ok(length)
    }

    fn carry_out(
        &mut self,
        request: &Request,
        rows: &mut [Row; AXES],
        block: &mut [u8],
    ) -> Result<usize, Refusal> {
        match *request {
            Request::Place(ref order) => self.place(order, rows).map(|()| 0),
            Request::Clear(axes, motion) => {
                *rows = [Row::Nothing; AXES];
                for axis in axes.iter() {
                    let dropped = self.clear(axis, motion);
                    rows[axis.index()] = Row::ClearedByCommand { dropped };
                }
                Ok(0)
            }
            Request::Select(selection) => {
                *rows = [Row::Nothing; AXES];
                self.selection = selection;
                Ok(0)
            }
            Request::Ask(question) => {
                *rows = [Row::Nothing; AXES];
                Ok(self.answer(question, block))
            }
        }
    }

    /// Places the entries on all named axes, or, refused with 9 to 11, on none.
    fn place(&mut self, order: &Order, rows: &mut [Row; AXES]) -> Result<(), Refusal> {
        let (commands, arguments) = (order.commands(), order.arguments());
        self.refuse_first(order.axes, Reason::Killed, |state| state.killed)?;
        self.refuse_first(order.axes, Reason::Places, |state| {
            state.queue.lacks_places(commands, arguments)
        })?;
        self.refuse_first(order.axes, Reason::Count, |state| {
            state.queue.lacks_count(commands)
        })?;
        *rows = [Row::Nothing; AXES];
        for axis in order.axes.iter() {
            let queue = &mut self.axes[axis.index()].queue;
            queue.place(order.entry(axis));
            if order.go_after {
                queue.place(Entry {
                    code: Code::Go,
                    operand: 0,
                });
            }
            rows[axis.index()] = Row::Accepted {
                count: commands as u32,
            };
        }
        Ok(())
    }

    /// Refuses for the lowest of the axes that the condition holds of, if any.
    fn refuse_first(
        &self,
        axes: AxisSet,
        reason: Reason,
        condition: impl Fn(&AxisState) -> bool,
    ) -> Result<(), Refusal> {
        match axes.iter().find(|axis| condition(&self.axes[axis.index()])) {
            Some(axis) => Err(Refusal::axis(reason, axis)),
            None => Ok(()),
        }
    }

    /// Empties the queues of an axis and drops its plan; gives how many entries waited.
    fn clear(&mut self, axis: Axis, motion: Motion) -> u32 {
        if motion == Motion::Halts {
            self.drive.halt(axis);
        }
        self.axes[axis.index()].queue.clear()
    }

    /// Writes an answer at the front of the block; gives its length.
    fn answer(&mut self, question: Question, block: &mut [u8]) -> usize {
        match question {
            Question::Position(selection) => {
                write_numbers(selection, block, |axis| self.drive.position(axis))
            }
            Question::FreePlaces(selection) => write_numbers(selection, block, |axis| {
                self.axes[axis.index()].queue.free_places() as i64
            }),
            Question::Record => {
                let bytes = self.record.bytes();
                let length = bytes.len();
                block[..length].copy_from_slice(bytes);
                block[length] = b'\n';
                self.record.clear();
                length + 1
            }
        }
    }

    fn sample_axis(&mut self, axis: Axis) -> Row {
        let state = &mut self.axes[axis.index()];
        let hit = state.kill_inputs.hit_by(self.sampled);
        let was_killed = std::mem::replace(&mut state.killed, hit);
        match (was_killed, hit) {
            (false, true) => Row::ClearedBySample {
                dropped: self.clear(axis, Motion::Halts),
            },
            (false, false) | (true, _) => Row::Nothing,
        }
    }

    fn step_axis(&mut self, axis: Axis) -> Row {
        let AxisState { queue, killed, .. } = &mut self.axes[axis.index()];
        if *killed {
            return Row::Killed;
        }
        let Some(entry) = queue.head() else {
            return Row::Nothing;
        };
        if !self.drive.is_still(axis) {
            return Row::InMotion;
        }
        match entry.code {
            Code::MoveAbsolute => queue.plan = Some(entry.operand),
            Code::MoveRelative => queue.plan = Some(self.drive.target(axis) + entry.operand),
            Code::Go => {
                if let Some(plan) = queue.plan {
                    match self.drive.begin(axis, plan) {
                        Ok(()) => queue.plan = None,
                        Err(BeginRefusal::Down) => return Row::DriveDown,
                        Err(BeginRefusal::Reach) => {
                            return Row::ClearedByReachFault {
                                dropped: self.clear(axis, Motion::Halts),
                            }
                        }
                    }
                }
            }
            Code::BitHigh => self.output |= 1 << entry.operand,
            Code::BitLow => self.output &= !(1 << entry.operand),
            Code::WaitHigh if self.sampled & (1 << entry.operand) == 0 => {
                return Row::WaitingForInput
            }
            Code::WaitLow if self.sampled & (1 << entry.operand) != 0 => {
                return Row::WaitingForInput
            }
            Code::WaitHigh | Code::WaitLow | Code::WaitStop => {}
        }
        let serial = queue.head_serial();
        queue.drop_head(entry);
        Row::Executed { serial, entry }
    }
}

/// Writes one number, or eight with commas between, and LF; gives the length.
fn write_numbers(selection: Selection, block: &mut [u8], number: impl Fn(Axis) -> i64) -> usize {
    let mut length = 0;
    match selection {
        Selection::One(axis) => length += write_number(number(axis), block),
        Selection::All => {
            for axis in Axis::ALL {
                if axis != Axis::X {
                    block[length] = b',';
                    length += 1;
                }
                length += write_number(number(axis), &mut block[length..]);
            }
        }
    }
    block[length] = b'\n';
    length + 1
}
