//! The eight axes, and sets of them.

pub const AXES: usize = 8;

#[derive(Clone, Copy, PartialEq, Eq, Debug)]
pub enum Axis {
    X,
    Y,
    Z,
    T,
    U,
    V,
    R,
    S,
}

impl Axis {
    pub const ALL: [Axis; AXES] = [
        Axis::X,
        Axis::Y,
        Axis::Z,
        Axis::T,
        Axis::U,
        Axis::V,
        Axis::R,
        Axis::S,
    ];

    /// 0 to 7.
    pub const fn index(self) -> usize {
        self as usize
    }

    /// 1 to 8.
    pub const fn number(self) -> usize {
        self as usize + 1
    }

    pub fn from_number(number: usize) -> Option<Axis> {
        Axis::ALL.get(number.checked_sub(1)?).copied()
    }

    pub const fn letter(self) -> char {
        match self {
            Axis::X => 'X',
            Axis::Y => 'Y',
            Axis::Z => 'Z',
            Axis::T => 'T',
            Axis::U => 'U',
            Axis::V => 'V',
            Axis::R => 'R',
            Axis::S => 'S',
        }
    }

    /// The axis of an upper-case letter.
    pub const fn from_letter(letter: u8) -> Option<Axis> {
        Some(match letter {
            b'X' => Axis::X,
            b'Y' => Axis::Y,
            b'Z' => Axis::Z,
            b'T' => Axis::T,
            b'U' => Axis::U,
            b'V' => Axis::V,
            b'R' => Axis::R,
            b'S' => Axis::S,
            _ => return None,
        })
    }
}

/// A set of axes, one bit each.
#[derive(Clone, Copy, PartialEq, Eq, Debug)]
pub struct AxisSet(u8);

impl AxisSet {
    pub const NONE: AxisSet = AxisSet(0);
    pub const ALL: AxisSet = AxisSet(u8::MAX);

    pub const fn one(axis: Axis) -> AxisSet {
        AxisSet(1 << axis.index())
    }

    pub fn insert(&mut self, axis: Axis) {
        self.0 |= 1 << axis.index();
    }

    pub const fn is_empty(self) -> bool {
        self.0 == 0
    }

    /// Its axes, the lowest first.
    pub fn iter(self) -> impl Iterator<Item = Axis> {
        let mut left = self.0;
        std::iter::from_fn(move || {
            // Of no bits, eight are zeros at the end: there is no such axis.
            let axis = Axis::ALL.get(left.trailing_zeros() as usize).copied()?;
            left &= left - 1;
            Some(axis)
        })
    }
}

#[cfg(test)]
mod tests {
    use super::*;

    #[test]
    fn a_set_tells_its_axes_in_order() {
        let mut set = AxisSet::one(Axis::S);
        set.insert(Axis::Y);
        assert!(set.iter().eq([Axis::Y, Axis::S]));
        assert!(AxisSet::ALL.iter().eq(Axis::ALL));
        assert_eq!(AxisSet::NONE.iter().next(), None);
    }
}
