//! Numbers: reading, units and factors, writing.

use crate::refusal::Refusal;

/// The greatest size of a count.
pub const COUNT_MAX: i64 = 2_147_483_646;

/// The most digits that a number has.
const DIGITS_MAX: usize = 10;

/// 10 to the power of the index.
const POWERS: [u64; 19] = {
    let mut powers = [1; 19];
    let mut i = 1;
    while i < powers.len() {
        powers[i] = powers[i - 1] * 10;
        i += 1;
    }
    powers
};

pub const fn is_count(number: i64) -> bool {
    -COUNT_MAX <= number && number <= COUNT_MAX
}

#[derive(Clone, Copy, PartialEq, Eq, Debug)]
pub enum Point {
    Allowed,
    Forbidden,
}

/// A number as it was typed: the signed number with its point left out, and how many digits
/// stood after the point.
#[derive(Clone, Copy, PartialEq, Eq, Debug)]
pub struct Decimal {
    pub digits: i64,
    pub places: usize,
}

/// Reads the number that begins at byte `start`; gives it and the place after it. Whether what
/// follows it fits is for the caller to judge.
pub fn read_number(text: &[u8], start: usize, point: Point) -> Result<(Decimal, usize), Refusal> {
    let (negative, first) = match text.get(start) {
        Some(b'-') => (true, start + 1),
        Some(b'+') => (false, start + 1),
        _ => (false, start),
    };
    let (mut size, mut end) = read_digits(text, first, DIGITS_MAX, 0);
    if end == first {
        return Err(Refusal::form(first));
    }
    let room = DIGITS_MAX - (end - first);
    let mut places = 0;
    if point == Point::Allowed && room > 0 && text.get(end) == Some(&b'.') {
        let after = end + 1;
        (size, end) = read_digits(text, after, room, size);
        if end == after {
            return Err(Refusal::form(after));
        }
        places = end - after;
    }
    let digits = if negative { -size } else { size };
    Ok((Decimal { digits, places }, end))
}

/// Reads a whole number, as `read_number`.
pub fn read_whole(text: &[u8], start: usize) -> Result<(i64, usize), Refusal> {
    let (number, end) = read_number(text, start, Point::Forbidden)?;
    Ok((number.digits, end))
}

/// Appends at most `room` digits to `size`; gives the result and the place after them.
fn read_digits(text: &[u8], start: usize, room: usize, mut size: i64) -> (i64, usize) {
    let mut at = start;
    while at - start < room {
        match text.get(at) {
            Some(&byte @ b'0'..=b'9') => size = size * 10 + i64::from(byte - b'0'),
            _ => break,
        }
        at += 1;
    }
    (size, at)
}

/// A factor: a number above 0.
#[derive(Clone, Copy, PartialEq, Eq, Debug)]
pub struct Factor(Decimal);

impl Factor {
    pub fn new(number: Decimal) -> Option<Factor> {
        (1..=COUNT_MAX)
            .contains(&number.digits)
            .then_some(Factor(number))
    }

    pub(crate) const fn decimal(self) -> Decimal {
        self.0
    }

    /// The number times the factor, to the nearest count, halves away from zero.
    /// The number, its point left out, is a count.
    fn scale(self, number: Decimal) -> i64 {
        let product = number.digits.unsigned_abs() * self.0.digits.unsigned_abs();
        let unit = POWERS[number.places + self.0.places];
        let (quotient, rest) = (product / unit, product % unit);
        let size = if 2 * rest < unit {
            quotient as i64
        } else {
            quotient as i64 + 1
        };
        if number.digits < 0 {
            -size
        } else {
            size
        }
    }
}

/// The units of an axis.
#[derive(Clone, Copy, PartialEq, Eq, Debug, Default)]
pub enum Units {
    #[default]
    Off,
    On(Factor),
}

impl Units {
    /// Whether a number of MA and MR may have a point.
    pub const fn point(self) -> Point {
        match self {
            Units::Off => Point::Forbidden,
            Units::On(_) => Point::Allowed,
        }
    }

    /// The counts that a number stands for, unless it or they are out of range.
    pub fn counts(self, number: Decimal) -> Option<i64> {
        if !is_count(number.digits) {
            return None;
        }
        let counts = match self {
            Units::Off => number.digits,
            Units::On(factor) => factor.scale(number),
        };
        is_count(counts).then_some(counts)
    }
}

/// Writes a number in base ten at the front of the block, which has room for it; gives its
/// length.
pub fn write_number(number: i64, block: &mut [u8]) -> usize {
    let mut digits = [0; 20];
    let mut first = digits.len();
    let mut rest = number.unsigned_abs();
    loop {
        first -= 1;
        digits[first] = b'0' + (rest % 10) as u8;
        rest /= 10;
        if rest == 0 {
            break;
        }
    }
    if number < 0 {
        first -= 1;
        digits[first] = b'-';
    }
    let written = &digits[first..];
    block[..written.len()].copy_from_slice(written);
    written.len()
}

#[cfg(test)]
mod tests {
    use super::*;

    fn read(text: &str, point: Point) -> Result<(i64, usize, usize), usize> {
        read_number(text.as_bytes(), 0, point)
            .map(|(number, end)| (number.digits, number.places, end))
            .map_err(|refusal| refusal.place)
    }

    #[test]
    fn form_without_a_point() {
        let whole = |text| read(text, Point::Forbidden);
        assert_eq!(whole("+0012"), Ok((12, 0, 5)));
        assert_eq!(whole("-0"), Ok((0, 0, 2)));
        assert_eq!(whole("1.5"), Ok((1, 0, 1)));
        assert_eq!(whole("9999999999"), Ok((9_999_999_999, 0, 10)));
        assert_eq!(whole("12345678901"), Ok((1_234_567_890, 0, 10)));
        assert_eq!(whole(""), Err(0));
        assert_eq!(whole("-"), Err(1));
        assert_eq!(whole("+-1"), Err(1));
        assert_eq!(whole(",1"), Err(0));
    }

    #[test]
    fn form_with_a_point() {
        let point = |text| read(text, Point::Allowed);
        assert_eq!(point("-1.50"), Ok((-150, 2, 5)));
        assert_eq!(point("0.000000001"), Ok((1, 9, 11)));
        assert_eq!(point("123456789.12"), Ok((1_234_567_891, 1, 11)));
        assert_eq!(point("1234567890.1"), Ok((1_234_567_890, 0, 10)));
        assert_eq!(point("1.2.3"), Ok((12, 1, 3)));
        assert_eq!(point("1."), Err(2));
        assert_eq!(point("1.,"), Err(2));
        assert_eq!(point(".5"), Err(0));
        assert_eq!(point("+.5"), Err(1));
    }

    fn counts(factor: &str, number: &str) -> Option<i64> {
        let parse = |text: &str| {
            read_number(text.as_bytes(), 0, Point::Allowed)
                .expect("a number")
                .0
        };
        let factor = Factor::new(parse(factor)).expect("a factor");
        Units::On(factor).counts(parse(number))
    }

    #[test]
    fn the_nearest_count() {
        assert_eq!(counts("2.5", "1.1"), Some(3));
        assert_eq!(counts("2.5", "-0.2"), Some(-1));
        assert_eq!(counts("2.5", "0.2"), Some(1));
        assert_eq!(counts("2.5", "-0.1"), Some(0));
        assert_eq!(counts("0.1", "14"), Some(1));
        assert_eq!(counts("0.1", "15"), Some(2));
        assert_eq!(counts("1000", "2147484"), None);
    }

    #[test]
    fn the_ends_of_the_range() {
        assert_eq!(counts("1", "2147483646"), Some(COUNT_MAX));
        assert_eq!(counts("1", "-2147483647"), None);
        assert_eq!(counts("0.1", "2147483647"), None);
        assert_eq!(counts("2147483646", "1"), Some(COUNT_MAX));
        // 2147483646.5 rounds out of the range, 2147483646.4 stays in it.
        assert_eq!(counts("924.1", "2323865"), None);
        assert_eq!(counts("1.6", "1342177279"), Some(COUNT_MAX));
        assert_eq!(counts("2147483646", "2147483646"), None);
        assert_eq!(counts("2.147483646", "2.147483646"), Some(5));
        assert_eq!(counts("0.000000001", "0.000000001"), Some(0));
    }

    #[test]
    fn numbers_as_they_are_written() {
        let written = |number| {
            let mut block = [b'.'; 24];
            let length = write_number(number, &mut block);
            assert!(block[length..].iter().all(|&byte| byte == b'.'));
            String::from_utf8(block[..length].to_vec()).expect("digits")
        };
        assert_eq!(written(0), "0");
        assert_eq!(written(-12), "-12");
        assert_eq!(written(COUNT_MAX), "2147483646");
        assert_eq!(written(-COUNT_MAX), "-2147483646");
        assert_eq!(written(i64::MIN), "-9223372036854775808");
    }
}
