//! What the programs print.

use std::io::Write;

use crate::axis::Axis;
use crate::refusal::Refusal;
use crate::row::Row;

/// Each row that is not of kind 0.
pub fn rows(rows: &[Row], out: &mut Vec<u8>) {
    for (axis, row) in Axis::ALL.into_iter().zip(rows) {
        let [kind, count, serial, code, operand] = row.numbers();
        if kind != 0 {
            let letter = axis.letter();
            line(
                out,
                format_args!("{letter} {kind} {count} {serial} {code} {operand}"),
            );
        }
    }
}

/// An answer, which ends with LF; one of no bytes is none.
pub fn answer(bytes: &[u8], out: &mut Vec<u8>) {
    if !bytes.is_empty() {
        out.extend_from_slice(b"= ");
        out.extend_from_slice(bytes);
    }
}

pub fn refusal(refusal: Refusal, out: &mut Vec<u8>) {
    let (number, place, axis) = (refusal.number(), refusal.place, refusal.axis_number());
    line(out, format_args!("! {number} {place} {axis}"));
}

pub fn dropped(counts: &[u32], out: &mut Vec<u8>) {
    out.push(b'-');
    for count in counts {
        write!(out, " {count}").expect("a Vec takes every byte");
    }
    out.push(b'\n');
}

pub fn word(word: u16, out: &mut Vec<u8>) {
    line(out, format_args!("word {word:04X}"));
}

pub fn place(axis: Axis, position: i64, target: i64, out: &mut Vec<u8>) {
    let letter = axis.letter();
    line(out, format_args!("{letter} {position} {target}"));
}

fn line(out: &mut Vec<u8>, what: std::fmt::Arguments<'_>) {
    writeln!(out, "{what}").expect("a Vec takes every byte");
}
