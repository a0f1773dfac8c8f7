//! The lines of a script for `replay`, and of an input for `axes`.

use crate::axis::AXES;
use crate::controller::Port;

/// The most rows and answer bytes that a script may lend.
const ROWS_MAX: usize = 64;
const ANSWER_MAX: usize = 4096;

/// A drive that a script asks for; all axes are alike.
#[derive(Clone, Copy, PartialEq, Eq, Debug)]
pub enum Make {
    Counting { rate: i64, start: i64 },
    Reporting { start: i64 },
    RatioCounting { steps: i64, rate: i64, start: i64 },
    RatioReporting { steps: i64, start: i64 },
}

#[derive(Clone, PartialEq, Eq, Debug)]
pub enum Line<'a> {
    New(Make),
    Set(&'a [u8]),
    Arm(u16),
    Park,
    Command(Port, &'a [u8]),
    Sample(u16),
    Step { health: u8, readings: Vec<i64> },
    Rows(usize),
    Answer(usize),
    Show,
}

impl<'a> Line<'a> {
    /// A line of a script, or nothing for one that is skipped.
    pub fn parse(line: &'a [u8]) -> Option<Line<'a>> {
        if let Some(text) = line.strip_prefix(b"set ") {
            return Some(Line::Set(text));
        }
        if let Some((port, text)) = command(line) {
            return Some(Line::Command(port, text));
        }
        let words: Vec<&[u8]> = line.split(|&byte| byte == b' ').collect();
        match words[..] {
            [b"new", ref drive @ ..] => make(drive).map(Line::New),
            [b"arm", word] => hex16(word).map(Line::Arm),
            [b"park"] => Some(Line::Park),
            [b"S", word] => hex16(word).map(Line::Sample),
            [b"T"] => Some(Line::Step {
                health: u8::MAX,
                readings: vec![0; AXES],
            }),
            [b"T", health, ref readings @ ..] => Some(Line::Step {
                health: hex8(health)?,
                readings: readings
                    .iter()
                    .map(|word| signed(word))
                    .collect::<Option<_>>()?,
            }),
            [b"rows", size] => bounded(size, ROWS_MAX).map(Line::Rows),
            [b"answer", size] => bounded(size, ANSWER_MAX).map(Line::Answer),
            [b"show"] => Some(Line::Show),
            _ => None,
        }
    }

    /// A line of an input for `axes`, which takes some of these lines alone.
    pub fn parse_for_axes(line: &'a [u8]) -> Option<Line<'a>> {
        if let Some((port, text)) = command(line) {
            return Some(Line::Command(port, text));
        }
        match line {
            b"T" => Line::parse(line),
            [b'S', b' ', ..] => Line::parse(line),
            _ => None,
        }
    }
}

/// The lines of an input: each ends with LF, but the last may lack it.
pub fn lines(input: &[u8]) -> impl Iterator<Item = &[u8]> {
    input
        .split_inclusive(|&byte| byte == b'\n')
        .map(|line| line.strip_suffix(b"\n").unwrap_or(line))
}

fn command(line: &[u8]) -> Option<(Port, &[u8])> {
    match line {
        [b'M', b' ', text @ ..] => Some((Port::M, text)),
        [b'P', b' ', text @ ..] => Some((Port::P, text)),
        _ => None,
    }
}

fn make(words: &[&[u8]]) -> Option<Make> {
    Some(match *words {
        [b"counting", rate, start] => Make::Counting {
            rate: signed(rate)?,
            start: signed(start)?,
        },
        [b"reporting", start] => Make::Reporting {
            start: signed(start)?,
        },
        [b"ratio", steps, b"counting", rate, start] => Make::RatioCounting {
            steps: signed(steps)?,
            rate: signed(rate)?,
            start: signed(start)?,
        },
        [b"ratio", steps, b"reporting", start] => Make::RatioReporting {
            steps: signed(steps)?,
            start: signed(start)?,
        },
        _ => return None,
    })
}

/// One to ten digits.
fn digits(word: &[u8]) -> Option<i64> {
    if !(1..=10).contains(&word.len()) {
        return None;
    }
    word.iter().try_fold(0, |number, byte| match byte {
        b'0'..=b'9' => Some(number * 10 + i64::from(byte - b'0')),
        _ => None,
    })
}

/// One to ten digits, and an optional minus before them.
fn signed(word: &[u8]) -> Option<i64> {
    match word {
        [b'-', size @ ..] => digits(size).map(|number| -number),
        _ => digits(word),
    }
}

fn bounded(word: &[u8], bound: usize) -> Option<usize> {
    let number = usize::try_from(digits(word)?).ok()?;
    (number <= bound).then_some(number)
}

fn hex16(word: &[u8]) -> Option<u16> {
    (word.len() == 4).then(|| hex(word)).flatten()
}

fn hex8(word: &[u8]) -> Option<u8> {
    let number = (word.len() == 2).then(|| hex(word)).flatten()?;
    u8::try_from(number).ok()
}

/// At most four hexadecimal digits.
fn hex(word: &[u8]) -> Option<u16> {
    word.iter().try_fold(0, |number, &byte| {
        let digit = char::from(byte).to_digit(16)?;
        Some(number * 16 + digit as u16)
    })
}

#[cfg(test)]
mod tests {
    use super::*;

    #[test]
    fn lines_that_are_taken() {
        let taken = |line: &'static str| Line::parse(line.as_bytes()).expect(line);
        assert_eq!(taken("M "), Line::Command(Port::M, b""));
        assert_eq!(taken("P  3 "), Line::Command(Port::P, b" 3 "));
        assert_eq!(taken("set "), Line::Set(b""));
        assert_eq!(taken("S 0aBf"), Line::Sample(0x0ABF));
        assert_eq!(taken("rows 064"), Line::Rows(64));
        let step = Line::Step {
            health: 0xF0,
            readings: vec![0, -9_999_999_999],
        };
        assert_eq!(taken("T f0 -0 -9999999999"), step);
        let ratio = Make::RatioReporting {
            steps: -3,
            start: 7,
        };
        assert_eq!(taken("new ratio -3 reporting 7"), Line::New(ratio));
    }

    #[test]
    fn lines_that_are_skipped() {
        for line in [
            "",
            "M",
            "set",
            "m GO",
            "S 12",
            "S  0004",
            "S 0004 ",
            "S 00000",
            "S 000g",
            "T ",
            "T F",
            "T FFF",
            "T FF ",
            "T FF +1",
            "T FF 12345678901",
            "T FF 1  1",
            "rows 65",
            "rows -1",
            "rows ",
            "rows 8 8",
            "answer 4097",
            "new",
            "new counting 2",
            "new counting 2 0 0",
            "new ratio 2 ratio 2 counting 1 0",
            "new counting  2 0",
            "NEW counting 2 0",
            " show",
            "show ",
            "arm 0",
            "park 0",
            "T\r",
        ] {
            assert_eq!(Line::parse(line.as_bytes()), None, "{line}");
        }
    }

    #[test]
    fn the_last_line_may_lack_its_end() {
        let parted: Vec<&[u8]> = lines(b"T\n\nT\r\nT").collect();
        assert_eq!(parted, [&b"T"[..], b"", b"T\r", b"T"]);
        assert_eq!(lines(b"").count(), 0);
    }
}
