//! Drives: what moves the axes. Three of them: counting, reporting, and ratio over another.

use crate::axis::{Axis, AXES};
use crate::number::COUNT_MAX;

/// Why a drive does not begin a move.
#[derive(Clone, Copy, PartialEq, Eq, Debug)]
pub enum BeginRefusal {
    Down,
    Reach,
}

pub trait Drive {
    fn position(&self, axis: Axis) -> i64;
    fn target(&self, axis: Axis) -> i64;
    fn least(&self, axis: Axis) -> i64;
    fn greatest(&self, axis: Axis) -> i64;
    fn is_down(&self, axis: Axis) -> bool;

    /// Makes a target within reach the target of an axis that is not down.
    fn aim(&mut self, axis: Axis, target: i64);

    /// Makes the position the target.
    fn halt(&mut self, axis: Axis);

    /// One step of time. A missing reading counts as 0; bit 0 of health is the first axis's.
    fn advance(&mut self, readings: &[i64], health: u8);

    fn is_still(&self, axis: Axis) -> bool {
        self.position(axis) == self.target(axis)
    }

    /// Asks for a target; any number may be asked for.
    fn begin(&mut self, axis: Axis, target: i64) -> Result<(), BeginRefusal> {
        if self.is_down(axis) {
            return Err(BeginRefusal::Down);
        }
        if target < self.least(axis) || self.greatest(axis) < target {
            return Err(BeginRefusal::Reach);
        }
        self.aim(axis, target);
        Ok(())
    }
}

#[derive(Clone, Copy, PartialEq, Eq, Debug)]
struct Motor {
    position: i64,
    target: i64,
}

impl Motor {
    /// A motor that is still; a start out of range counts as the nearest end.
    fn at(start: i64) -> Motor {
        let start = start.clamp(-COUNT_MAX, COUNT_MAX);
        Motor {
            position: start,
            target: start,
        }
    }

    fn halt(&mut self) {
        self.target = self.position;
    }

    fn is_on_the_way(&self, place: i64) -> bool {
        let (low, high) = if self.position <= self.target {
            (self.position, self.target)
        } else {
            (self.target, self.position)
        };
        low <= place && place <= high
    }
}

/// Moves by itself, each axis at its rate.
#[derive(Clone, PartialEq, Eq, Debug)]
pub struct Counting {
    motors: [Motor; AXES],
    rates: [i64; AXES],
}

impl Counting {
    /// Values out of range count as the nearest end.
    pub fn new(rates: [i64; AXES], starts: [i64; AXES]) -> Counting {
        Counting {
            motors: starts.map(Motor::at),
            rates: rates.map(|rate| rate.clamp(1, 1_000_000)),
        }
    }
}

impl Drive for Counting {
    fn position(&self, axis: Axis) -> i64 {
        self.motors[axis.index()].position
    }

    fn target(&self, axis: Axis) -> i64 {
        self.motors[axis.index()].target
    }

    fn least(&self, _: Axis) -> i64 {
        -COUNT_MAX
    }

    fn greatest(&self, _: Axis) -> i64 {
        COUNT_MAX
    }

    fn is_down(&self, _: Axis) -> bool {
        false
    }

    fn aim(&mut self, axis: Axis, target: i64) {
        self.motors[axis.index()].target = target;
    }

    fn halt(&mut self, axis: Axis) {
        self.motors[axis.index()].halt();
    }

    fn advance(&mut self, _: &[i64], _: u8) {
        for (motor, &rate) in self.motors.iter_mut().zip(&self.rates) {
            motor.position += (motor.target - motor.position).clamp(-rate, rate);
        }
    }
}

/// Is where its readings say, as long as they make sense and the health bit is up.
#[derive(Clone, PartialEq, Eq, Debug)]
pub struct Reporting {
    motors: [Motor; AXES],
    down: [bool; AXES],
}

impl Reporting {
    /// Starts out of range count as the nearest end; every axis is up.
    pub fn new(starts: [i64; AXES]) -> Reporting {
        Reporting {
            motors: starts.map(Motor::at),
            down: [false; AXES],
        }
    }
}

impl Drive for Reporting {
    fn position(&self, axis: Axis) -> i64 {
        self.motors[axis.index()].position
    }

    fn target(&self, axis: Axis) -> i64 {
        self.motors[axis.index()].target
    }

    fn least(&self, _: Axis) -> i64 {
        -COUNT_MAX
    }

    fn greatest(&self, _: Axis) -> i64 {
        COUNT_MAX
    }

    fn is_down(&self, axis: Axis) -> bool {
        self.down[axis.index()]
    }

    fn aim(&mut self, axis: Axis, target: i64) {
        self.motors[axis.index()].target = target;
    }

    fn halt(&mut self, axis: Axis) {
        self.motors[axis.index()].halt();
    }

    fn advance(&mut self, readings: &[i64], health: u8) {
        for (i, (motor, down)) in self.motors.iter_mut().zip(&mut self.down).enumerate() {
            let reading = readings.get(i).copied().unwrap_or(0);
            let up = health & (1 << i) != 0 && motor.is_on_the_way(reading);
            if up {
                motor.position = reading;
            }
            *down = !up;
        }
    }
}

/// Stands over another drive, with some steps of that drive to one count.
#[derive(Clone, PartialEq, Eq, Debug)]
pub struct Ratio<D> {
    below: D,
    steps: i64,
}

impl<D: Drive> Ratio<D> {
    /// Steps out of range count as the nearest end.
    pub fn new(steps: i64, below: D) -> Ratio<D> {
        Ratio {
            below,
            steps: steps.clamp(1, 1000),
        }
    }

    pub fn below(&self) -> &D {
        &self.below
    }
}

impl<D: Drive> Drive for Ratio<D> {
    fn position(&self, axis: Axis) -> i64 {
        self.below.position(axis) / self.steps
    }

    fn target(&self, axis: Axis) -> i64 {
        self.below.target(axis) / self.steps
    }

    fn least(&self, axis: Axis) -> i64 {
        // Rounded up: the steps are above 0.
        -(-self.below.least(axis)).div_euclid(self.steps)
    }

    fn greatest(&self, axis: Axis) -> i64 {
        // Rounded down.
        self.below.greatest(axis).div_euclid(self.steps)
    }

    fn is_down(&self, axis: Axis) -> bool {
        self.below.is_down(axis)
    }

    fn aim(&mut self, axis: Axis, target: i64) {
        // A target in reach here is, times the steps, in reach below.
        self.below.aim(axis, self.steps * target);
    }

    fn halt(&mut self, axis: Axis) {
        self.below.halt(axis);
    }

    fn advance(&mut self, readings: &[i64], health: u8) {
        self.below.advance(readings, health);
    }
}

#[cfg(test)]
mod tests {
    use super::*;

    const X: Axis = Axis::X;
    const STILL: [i64; AXES] = [0; AXES];

    #[test]
    fn counting_moves_by_the_lesser_of_rate_and_distance() {
        let mut drive = Counting::new([2; AXES], [0; AXES]);
        assert_eq!(drive.begin(X, -5), Ok(()));
        let mut positions = Vec::new();
        for _ in 0..4 {
            drive.advance(&[], 0);
            positions.push(drive.position(X));
        }
        assert_eq!(positions, [-2, -4, -5, -5]);
        assert_eq!(drive.begin(X, COUNT_MAX), Ok(()));
        assert_eq!(drive.begin(X, COUNT_MAX + 1), Err(BeginRefusal::Reach));
        assert_eq!(drive.begin(X, i64::MIN), Err(BeginRefusal::Reach));
        assert_eq!(drive.target(X), COUNT_MAX);
    }

    #[test]
    fn values_out_of_range_count_as_the_nearest_end() {
        let mut drive = Counting::new([0; AXES], [i64::MAX; AXES]);
        assert_eq!(drive.position(X), COUNT_MAX);
        assert_eq!(drive.begin(X, 0), Ok(()));
        drive.advance(&STILL, 0xFF);
        assert_eq!(drive.position(X), COUNT_MAX - 1);
        let ratio = Ratio::new(5000, Counting::new([1; AXES], [-5000; AXES]));
        assert_eq!(ratio.position(X), -5);
        let ratio = Ratio::new(-3, Counting::new([1; AXES], [-5000; AXES]));
        assert_eq!(ratio.position(X), -5000);
    }

    #[test]
    fn reporting_takes_readings_on_the_way() {
        let mut drive = Reporting::new([0; AXES]);
        assert_eq!(drive.begin(X, 10), Ok(()));
        for (reading, health, position, down) in [
            (4, 0xFF, 4, false),
            (3, 0xFF, 4, true),
            (11, 0xFF, 4, true),
            (6, 0xFE, 4, true),
            (10, 0x01, 10, false),
        ] {
            let mut readings = STILL;
            readings[0] = reading;
            drive.advance(&readings, health);
            assert_eq!((drive.position(X), drive.is_down(X)), (position, down));
        }
        drive.advance(&[], 0xFF);
        assert!(drive.is_down(X));
        assert!(!drive.is_down(Axis::Y));
        assert_eq!(drive.begin(X, i64::MAX), Err(BeginRefusal::Down));
    }

    #[test]
    fn ratio_rounds_positions_to_zero_and_reaches_inward() {
        let mut drive = Ratio::new(1000, Counting::new([300; AXES], [-1999; AXES]));
        assert_eq!(drive.position(X), -1);
        assert_eq!((drive.least(X), drive.greatest(X)), (-2_147_483, 2_147_483));
        assert_eq!(drive.begin(X, 2_147_484), Err(BeginRefusal::Reach));
        assert_eq!(drive.begin(X, -1), Ok(()));
        // Still in its own counts, though the drive below runs from -1999 to -1000.
        assert!(drive.is_still(X));
        drive.advance(&STILL, 0);
        assert_eq!(drive.below.position(X), -1699);
        drive.halt(X);
        assert_eq!(drive.below.target(X), -1699);
        let twice = Ratio::new(10, drive);
        assert_eq!((twice.least(X), twice.greatest(X)), (-214_748, 214_748));
    }
}
