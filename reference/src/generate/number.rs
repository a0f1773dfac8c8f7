//! Numbers as a host, or a careless host, types them.

use crate::number::{Decimal, Factor, Units, COUNT_MAX};
use crate::random::Random;

/// Numbers at the edges of ranges and forms, and some of no form at all.
const EDGES: [&str; 36] = [
    "2147483646",
    "-2147483646",
    "+2147483646",
    "2147483647",
    "-2147483647",
    "9999999999",
    "-9999999999",
    "0000000000",
    "00000000001",
    "12345678901",
    "-12345678901",
    "1000000000",
    "-1000000000",
    "1000000001",
    "-1000000001",
    "0",
    "-0",
    "+0",
    "0000000015",
    "15",
    "16",
    "-1",
    "",
    "+",
    "-",
    "+-1",
    "--1",
    "1.",
    ".5",
    "1..2",
    "1.2.3",
    "1234567890.1",
    "123456789.1",
    "0.000000001",
    "214748364.6",
    "2147483.647",
];

/// A number for MA or MR on an axis with these units.
pub fn moving(random: &mut Random, units: Units, pace: i64) -> Vec<u8> {
    if random.chance(9) {
        return edge(random);
    }
    let counts = random.between(-pace, pace);
    match units {
        Units::Off if random.chance(3) => pointed(random, counts, 1),
        Units::Off if random.chance(5) => {
            let far = random.between(-COUNT_MAX, COUNT_MAX);
            dressed(random, far)
        }
        Units::Off => dressed(random, counts),
        Units::On(factor) => scaled(random, factor, counts),
    }
}

/// A number for PR or PA.
pub fn bench(random: &mut Random, pace: i64) -> Vec<u8> {
    match random.below(100) {
        0..=7 => edge(random),
        8..=15 => Vec::new(),
        16..=18 => pointed(random, pace, 1),
        _ => {
            let counts = random.between(-pace, pace);
            dressed(random, counts)
        }
    }
}

/// A number for BH, BL, SW or BW.
pub fn bit(random: &mut Random) -> Vec<u8> {
    match random.below(100) {
        0..=6 => edge(random),
        7..=59 => {
            let bit = random.between(0, 5);
            dressed(random, bit)
        }
        _ => {
            let bit = random.between(0, 15);
            dressed(random, bit)
        }
    }
}

/// A number that only names its axis.
pub fn naming(random: &mut Random) -> Vec<u8> {
    if random.chance(6) {
        return edge(random);
    }
    let number = random.between(-3, 3);
    dressed(random, number)
}

/// A factor for UU.
pub fn factor(random: &mut Random) -> Vec<u8> {
    const FACTORS: [&str; 20] = [
        "2.5",
        "2.5",
        "0.5",
        "0.5",
        "0.1",
        "0.05",
        "1",
        "1.5",
        "1000",
        "0.001",
        "+0010",
        "3",
        "0.3333",
        "924.1",
        "1.6",
        "2147483646",
        "2.147483646",
        "0.000000001",
        "1.000000001",
        "0.125",
    ];
    match random.below(100) {
        0..=79 => random.pick(&FACTORS).as_bytes().to_vec(),
        80..=89 => edge(random),
        _ => {
            let digits = random.between(1, 99_999);
            let places = random.below(6);
            pointed(random, digits, places)
        }
    }
}

/// A number next to the end of the range, seldom one of no form.
pub fn at_range_end(random: &mut Random) -> Vec<u8> {
    const ENDS: [&str; 8] = [
        "2147483646",
        "-2147483646",
        "2147483647",
        "-2147483647",
        "9999999999",
        "-9999999999",
        "7",
        "",
    ];
    if random.chance(4) {
        return edge(random);
    }
    random.pick(&ENDS).as_bytes().to_vec()
}

fn edge(random: &mut Random) -> Vec<u8> {
    random.pick(&EDGES).as_bytes().to_vec()
}

/// A number for an axis whose units are on: about these counts, or near a half, or near the end
/// of the range.
fn scaled(random: &mut Random, factor: Factor, counts: i64) -> Vec<u8> {
    let places = random.below(4);
    let digits = match random.below(100) {
        0..=49 => digits_for(factor, places, 2 * i128::from(counts)),
        50..=79 => Some(random.between(-60, 60)),
        80..=89 => {
            let half = digits_for(factor, places, 2 * i128::from(COUNT_MAX) + 1);
            half.map(|digits| digits + random.between(-1, 1))
        }
        _ => Some(counts),
    };
    let digits = digits.unwrap_or(1);
    pointed(random, digits, places)
}

/// The number, its point left out, that the factor makes so many half counts, if it is in range.
fn digits_for(factor: Factor, places: usize, halves: i128) -> Option<i64> {
    let Decimal {
        digits,
        places: more,
    } = factor.decimal();
    let unit = 10_i128.pow((places + more) as u32);
    let digits = halves * unit / (2 * i128::from(digits));
    (digits.abs() <= i128::from(COUNT_MAX)).then_some(digits as i64)
}

/// A whole number with or without sign and leading zeros.
fn dressed(random: &mut Random, number: i64) -> Vec<u8> {
    pointed(random, number, 0)
}

/// A number whose last digits stand after a point.
fn pointed(random: &mut Random, digits: i64, places: usize) -> Vec<u8> {
    let sign = if digits < 0 {
        "-"
    } else {
        random.weighted(&[(90, ""), (8, "+"), (2, "-")])
    };
    let least = places + 1;
    let width = if random.chance(12) {
        random.between(least as i64, 10) as usize
    } else {
        least
    };
    let mut text = format!("{:0width$}", digits.abs());
    if places > 0 {
        text.insert(text.len() - places, '.');
    }
    text.insert_str(0, sign);
    text.into_bytes()
}
