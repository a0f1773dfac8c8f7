//! Texts for the ports and for Set, most of them right.

use super::damage;
use super::number;
use crate::axis::Axis;
use crate::controller::Live;
use crate::number::Units;
use crate::random::Random;
use crate::replay::AnyDrive;
use crate::request::Selection;

const LETTERS: [&str; 8] = ["X", "Y", "Z", "T", "U", "V", "R", "S"];

/// A text for port M.
pub fn mount(random: &mut Random, live: &Live<AnyDrive>, pace: i64) -> Vec<u8> {
    let name = match live.selection() {
        Selection::One(_) => random.weighted(&[
            (14, "MA"),
            (16, "MR"),
            (20, "GO"),
            (5, "BH"),
            (4, "BL"),
            (3, "SW"),
            (3, "BW"),
            (8, "A"),
            (4, "AA"),
            (1, "KL"),
            (2, "KS"),
            (2, "FL"),
            (3, "RP"),
            (3, "RQC"),
            (3, "#ER"),
        ]),
        Selection::All => random.weighted(&[
            (16, "MA"),
            (18, "MR"),
            (20, "GO"),
            (1, "BH"),
            (1, "BL"),
            (1, "SW"),
            (1, "BW"),
            (12, "A"),
            (1, "AA"),
            (1, "KL"),
            (3, "KS"),
            (1, "FL"),
            (3, "RP"),
            (3, "RQC"),
            (3, "#ER"),
        ]),
    };
    let operands = match (name, live.selection()) {
        ("MA" | "MR", _) => move_operands(random, live, pace),
        ("GO" | "KS", Selection::All) => list(random, |random, _| number::naming(random)),
        ("BH" | "BL" | "SW" | "BW", _) => number::bit(random),
        ("A", _) => random.pick(&LETTERS).as_bytes().to_vec(),
        _ if random.chance(3) => number::naming(random),
        _ => Vec::new(),
    };
    finish(random, [name.as_bytes(), &operands].concat())
}

/// What MA and MR take in the present mode.
pub fn move_operands(random: &mut Random, live: &Live<AnyDrive>, pace: i64) -> Vec<u8> {
    match live.selection() {
        Selection::One(axis) => {
            let units = if random.chance(3) {
                Units::Off
            } else {
                live.units(axis)
            };
            number::moving(random, units, pace)
        }
        Selection::All => list(random, |random, axis| {
            number::moving(random, live.units(axis), pace)
        }),
    }
}

/// A GO for the axes that a list of moves names.
pub fn echo_of_list(operands: &[u8]) -> Vec<u8> {
    let mut go = b"GO".to_vec();
    for (index, field) in operands.split(|&byte| byte == b',').enumerate() {
        if index > 0 {
            go.push(b',');
        }
        if !field.is_empty() {
            go.push(b'1');
        }
    }
    go
}

/// A list of one to eight fields, or, seldom, nine; some are empty.
fn list(random: &mut Random, field: impl Fn(&mut Random, Axis) -> Vec<u8>) -> Vec<u8> {
    let fields = match random.below(100) {
        0..=1 => 9,
        2..=19 => 8,
        20..=49 => random.between(1, 8),
        _ => random.between(1, 4),
    };
    let empty = random.pick(&[10, 35, 35, 70]);
    let fields: Vec<Vec<u8>> = if random.chance(6) {
        // Numbers in and out of the range, of the right form more often than not.
        (0..fields).map(|_| number::at_range_end(random)).collect()
    } else {
        (0..fields as usize)
            .map(|index| match random.below(3) {
                _ if random.chance(empty) => Vec::new(),
                0 => field(random, Axis::ALL[index % 8]),
                // Most fields are plain, since one bad field spoils the list.
                _ => random.between(-9, 9).to_string().into_bytes(),
            })
            .collect()
    };
    fields.join(&b',')
}

/// A text for port P.
pub fn bench(random: &mut Random, pace: i64) -> Vec<u8> {
    let axis = match random.below(100) {
        0..=29 => String::new(),
        30..=84 => random.between(1, 8).to_string(),
        85..=93 => format!("0{}", random.between(1, 8)),
        _ => String::from(random.pick(&["0", "9", "00", "003", "12", "99", "123", "08", "80"])),
    };
    let name = random.weighted(&[(30, "PR"), (25, "PA"), (18, "WS"), (12, "TP"), (6, "ST")]);
    let operand = match name {
        "PR" | "PA" => number::bench(random, pace),
        _ if random.chance(3) => number::naming(random),
        _ => Vec::new(),
    };
    finish(
        random,
        [axis.as_bytes(), name.as_bytes(), &operand].concat(),
    )
}

/// A text for Set, and the contact that it makes a kill input, if it does.
pub fn setting(random: &mut Random, quiet: u16) -> (Vec<u8>, u16) {
    let mut kill_bit = 0;
    let text = match random.below(100) {
        0..=29 => format!("A{}", random.pick(&LETTERS)).into_bytes(),
        30..=54 => [b"UU", &number::factor(random)[..]].concat(),
        55..=59 => b"UF".to_vec(),
        60..=92 => {
            let contact = match random.below(3) {
                0 => random.below(16),
                _ => random.below(4),
            };
            kill_bit = 1 << contact;
            let loud = usize::from(quiet & kill_bit == 0);
            let level = if random.chance(90) { loud } else { 1 - loud };
            format!("IOK{contact},{level}").into_bytes()
        }
        93..=95 => b"IOK,C".to_vec(),
        96 => damage::long_text(random),
        _ => random
            .pick(&[
                "IOK16,1",
                "IOK2,2",
                "IOK-0,1",
                "IOK+2,+1",
                "IOK0015,01",
                "IOK,",
                "IOK",
                "IOK2",
                "IOK2,",
                "IOK16,",
                "IOK,5",
                "IOK,Cx",
                "AA",
                "A",
                "U",
                "UU",
                "UU1.",
                "UU.5",
                "I",
                "IO",
                "UF1",
                "AY1",
                "IOK-1,0",
                "IOK2,-1",
                "IOK9999999999,9999999999",
            ])
            .as_bytes()
            .to_vec(),
    };
    (finish(random, text), kill_bit)
}

/// The letters in either case, and, at times, some damage.
fn finish(random: &mut Random, text: Vec<u8>) -> Vec<u8> {
    let text = damage::cased(random, text);
    if random.chance(9) {
        damage::damaged(random, text)
    } else {
        text
    }
}
