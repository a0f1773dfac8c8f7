//! Damaged texts, long texts and lines that are skipped.

use crate::random::Random;

/// Bytes that are put in where they do not belong; no LF, which would end the line.
const BYTES: &[u8] = b" ;\r\t,,..++--#0159AXMRGOPSTWLKBHFQCEUIyztmr\0\x7f\x80\xC3\xFF\"\\";

/// Letters in upper case, lower case, or both.
pub fn cased(random: &mut Random, mut text: Vec<u8>) -> Vec<u8> {
    match random.below(10) {
        0..=5 => {}
        6..=7 => text.make_ascii_lowercase(),
        _ => {
            for byte in &mut text {
                if random.chance(50) {
                    byte.make_ascii_lowercase();
                }
            }
        }
    }
    text
}

/// One or two faults of transmission.
pub fn damaged(random: &mut Random, mut text: Vec<u8>) -> Vec<u8> {
    for _ in 0..random.between(1, 2) {
        let length = text.len();
        if length == 0 {
            text.push(random.pick(BYTES));
            continue;
        }
        let at = random.below(length);
        match random.below(8) {
            0 => {
                text.remove(at);
            }
            1 => text.swap(at, (at + 1) % length),
            2 => text.insert(at, random.pick(BYTES)),
            3 => text.push(random.pick(BYTES)),
            4 => text.truncate(at),
            5 => text[at] = random.pick(BYTES),
            6 => text.insert(at, text[at]),
            _ => text.extend_from_within(at..),
        }
    }
    text
}

/// A text at or over the greatest length, or none at all.
pub fn long_text(random: &mut Random) -> Vec<u8> {
    let length = match random.below(20) {
        0 => 0,
        1 => random.between(171, 3000),
        2..=11 => random.between(159, 161),
        _ => random.between(159, 170),
    };
    let front = random.pick(&[
        "FL", "fl", "BH", "bw", "SW1", "MR", "MR1,", "GO", "AX", "#ER", "KL", "RQC", "", "3PR",
        "3", "ST", "WS1", "UU", "IOK", "AY", "##", "q",
    ]);
    let filling: &[u8] = random.pick(&[&b"0"[..], b"1", b",", b" ", b"x", b"GO;", b"\xFF", b"1,2"]);
    let mut text = front.as_bytes().to_vec();
    while text.len() < length as usize {
        text.extend_from_slice(filling);
    }
    text.truncate(length as usize);
    text
}

/// A line that `replay` takes and `axes` skips.
pub fn line_of_replay_alone(random: &mut Random) -> Vec<u8> {
    const LINES: [&[u8]; 9] = [
        b"show",
        b"park",
        b"rows 7",
        b"answer 0",
        b"set IOK0,1",
        b"arm 0004",
        b"new counting 5 5",
        b"T FF 0 0 0 0 0 0 0 0",
        b"T 00",
    ];
    random.pick(&LINES).to_vec()
}

/// A line that is skipped, or a right line with a fault in it.
pub fn junk_line(random: &mut Random) -> Vec<u8> {
    const JUNK: [&[u8]; 63] = [
        b"",
        b" ",
        b"M",
        b"P",
        b"m GO",
        b"p 3PR",
        b"MR5",
        b" M GO",
        b"\tM GO",
        b"S",
        b"S ",
        b"S 12",
        b"S 00000",
        b"S 0004 ",
        b"S  0004",
        b"S 000G",
        b"S 0x04",
        b"S +004",
        b"S FFFF\r",
        b"s FFFF",
        b"T ",
        b"t",
        b"T\r",
        b"T F",
        b"T FFF",
        b"T GG 0 0 0 0 0 0 0 0",
        b"T FF 0 0 0 0 0 0 0 0 ",
        b"T FF  0 0 0 0 0 0 0 0",
        b"T FF 0 0 0 0 0 0 0 +1",
        b"T FF 0 0 0 0 0 0 0 -",
        b"T FF 0 0 0 0 0 0 0 12345678901",
        b"T FF 0 0 0 0 0 0 0 1.5",
        b"rows",
        b"rows ",
        b"rows 65",
        b"rows -1",
        b"rows +7",
        b"rows 7 7",
        b"rows 7 ",
        b"rows 7x",
        b"rows 99999999999999999999",
        b"answer",
        b"answer 4097",
        b"answer -0",
        b"answer 0 0",
        b"show ",
        b"show 1",
        b"SHOW",
        b"park ",
        b"Park",
        b"arm",
        b"arm 000",
        b"arm 00000",
        b"arm 0000 ",
        b"new",
        b"new counting 2",
        b"new counting 2 0 0",
        b"new counting +2 0",
        b"new counting 2 12345678901",
        b"new counting  2 0",
        b"new ratio 2 ratio 3 counting 1 0",
        b"new ratio 2 reporting",
        b"lint \x80\xFF",
    ];
    const RIGHT: [&[u8]; 13] = [
        b"M GO",
        b"P 3PR5",
        b"S 0004",
        b"T",
        b"T FF 0 0 0 0 0 0 0 0",
        b"show",
        b"rows 8",
        b"answer 192",
        b"set IOK2,1",
        b"set AX",
        b"arm 0000",
        b"M AX",
        b"P TP",
    ];
    if random.chance(75) {
        random.pick(&JUNK).to_vec()
    } else {
        let line = random.pick(&RIGHT).to_vec();
        damaged(random, line)
    }
}
