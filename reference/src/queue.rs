//! The queue of one axis: its waiting entries and its plan.

use crate::number::is_count;

pub const COMMAND_PLACES: usize = 128;
pub const ARGUMENT_PLACES: usize = 64;
pub const ENTRIES_MAX: u32 = 1_000_000_000;

/// The kinds of entries, with their numbers.
#[derive(Clone, Copy, PartialEq, Eq, Debug)]
pub enum Code {
    MoveAbsolute = 1,
    MoveRelative = 2,
    Go = 3,
    BitHigh = 4,
    BitLow = 5,
    WaitHigh = 6,
    WaitLow = 7,
    WaitStop = 8,
}

impl Code {
    pub const fn takes_argument(self) -> bool {
        !matches!(self, Code::Go | Code::WaitStop)
    }
}

/// One command of a queue; the operand is 0 where the code takes none.
#[derive(Clone, Copy, PartialEq, Eq, Debug)]
pub struct Entry {
    pub code: Code,
    pub operand: i64,
}

/// A ring of N places.
#[derive(Clone, Debug)]
struct Ring<T, const N: usize> {
    items: [T; N],
    head: usize,
    length: usize,
}

impl<T: Copy, const N: usize> Ring<T, N> {
    const fn new(filler: T) -> Self {
        Ring {
            items: [filler; N],
            head: 0,
            length: 0,
        }
    }

    const fn free(&self) -> usize {
        N - self.length
    }

    fn front(&self) -> Option<T> {
        (self.length > 0).then(|| self.items[self.head])
    }

    /// There must be a free place.
    fn push(&mut self, item: T) {
        self.items[(self.head + self.length) % N] = item;
        self.length += 1;
    }

    /// There must be an item.
    fn drop_front(&mut self) {
        self.head = (self.head + 1) % N;
        self.length -= 1;
    }

    fn clear(&mut self) {
        self.length = 0;
    }
}

#[derive(Clone, Debug)]
pub struct AxisQueue {
    codes: Ring<Code, COMMAND_PLACES>,
    arguments: Ring<i64, ARGUMENT_PLACES>,
    /// Entries accepted since Arm.
    accepted: u32,
    /// The target that the next GO begins.
    pub plan: Option<i64>,
}

impl AxisQueue {
    pub const fn new() -> AxisQueue {
        AxisQueue {
            codes: Ring::new(Code::Go),
            arguments: Ring::new(0),
            accepted: 0,
            plan: None,
        }
    }

    pub const fn lacks_places(&self, commands: usize, arguments: usize) -> bool {
        self.codes.free() < commands || self.arguments.free() < arguments
    }

    pub const fn lacks_count(&self, commands: usize) -> bool {
        self.accepted + commands as u32 > ENTRIES_MAX
    }

    /// Places one entry behind the others. Neither places nor count may lack.
    pub fn place(&mut self, entry: Entry) {
        debug_assert!(is_count(entry.operand));
        self.codes.push(entry.code);
        if entry.code.takes_argument() {
            self.arguments.push(entry.operand);
        }
        self.accepted += 1;
    }

    /// The first entry, if one waits.
    pub fn head(&self) -> Option<Entry> {
        let code = self.codes.front()?;
        let operand = if code.takes_argument() {
            self.arguments.front()?
        } else {
            0
        };
        Some(Entry { code, operand })
    }

    /// The number of the head among the entries accepted since Arm.
    pub const fn head_serial(&self) -> u32 {
        self.accepted - self.waiting() + 1
    }

    /// Lets the head, which must be there, leave the queue.
    pub fn drop_head(&mut self, head: Entry) {
        self.codes.drop_front();
        if head.code.takes_argument() {
            self.arguments.drop_front();
        }
    }

    /// Drops all entries and the plan; gives how many entries waited.
    pub fn clear(&mut self) -> u32 {
        let dropped = self.waiting();
        self.codes.clear();
        self.arguments.clear();
        self.plan = None;
        dropped
    }

    /// Clears, and counts entries from 0 again.
    pub fn rearm(&mut self) {
        self.clear();
        self.accepted = 0;
    }

    pub const fn free_places(&self) -> usize {
        self.codes.free()
    }

    const fn waiting(&self) -> u32 {
        self.codes.length as u32
    }
}

impl Default for AxisQueue {
    fn default() -> Self {
        AxisQueue::new()
    }
}

#[cfg(test)]
mod tests {
    use super::*;

    const GO: Entry = Entry {
        code: Code::Go,
        operand: 0,
    };

    fn move_to(operand: i64) -> Entry {
        Entry {
            code: Code::MoveAbsolute,
            operand,
        }
    }

    #[test]
    fn arguments_run_out_before_commands() {
        let mut queue = AxisQueue::new();
        for n in 0..64 {
            assert!(!queue.lacks_places(1, 1));
            queue.place(move_to(n));
        }
        assert!(queue.lacks_places(1, 1));
        assert!(!queue.lacks_places(64, 0));
        assert!(queue.lacks_places(65, 0));
    }

    #[test]
    fn six_hundred_entries_go_round() {
        let mut queue = AxisQueue::new();
        for n in 0..300 {
            queue.place(move_to(n));
            queue.place(GO);
            if n < 40 {
                continue;
            }
            for expected in [move_to(n - 40), GO] {
                assert_eq!(queue.head(), Some(expected));
                queue.drop_head(expected);
            }
            assert_eq!(queue.head_serial(), 2 * (n as u32 - 40) + 3);
            assert_eq!(queue.free_places(), 48);
        }
        assert_eq!(queue.clear(), 80);
        assert_eq!(queue.head(), None);
        queue.place(GO);
        assert_eq!(queue.head_serial(), 601);
    }

    #[test]
    fn the_count_has_an_end() {
        let mut queue = AxisQueue::new();
        queue.accepted = ENTRIES_MAX - 1;
        assert!(!queue.lacks_count(1));
        assert!(queue.lacks_count(2));
        queue.rearm();
        assert!(!queue.lacks_count(2));
    }
}
