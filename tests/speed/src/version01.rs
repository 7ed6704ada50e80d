//! Lines down to version 01 and up again: the archive beside plain Rust.

use crate::library;
use crate::timing::Pair;
use reference::good::{good_comment, good_labels, good_numbers};
use reference::seeded::Seeded;
use reference::{Labels, LINE_BYTES, OLD_BYTES};

const HC: u8 = 5;
const FRC: [u8; 3] = *b"L1C";

// Never inlined and with plain names, so that valgrind can count what is inside.
#[inline(never)]
#[no_mangle]
fn speed_proved_down(line: &[u8], lent: &mut [u8]) -> u32 {
    library::down(Some(line), Some(lent))
}

#[inline(never)]
#[no_mangle]
fn speed_plain_down(line: &[u8], lent: &mut [u8]) -> u32 {
    fast::down(line, lent)
}

#[inline(never)]
#[no_mangle]
fn speed_proved_up(old: &[u8], lent: &mut [u8]) -> u32 {
    library::up(Some(old), HC, FRC, Some(lent))
}

#[inline(never)]
#[no_mangle]
fn speed_plain_up(old: &[u8], lent: &mut [u8]) -> u32 {
    fast::up(old, HC, FRC, lent)
}

const DOWN: Pair<u8> =
    Pair { function: "trackline_down", proved: speed_proved_down, plain: speed_plain_down, lent: OLD_BYTES };
const UP: Pair<u8> =
    Pair { function: "trackline_up", proved: speed_proved_up, plain: speed_plain_up, lent: LINE_BYTES };

/// A GPS line, with a comment of 0 to 27 characters.
fn a_line(seeded: &mut Seeded) -> Vec<u8> {
    let labels = good_labels(seeded);
    let labels = Labels { constellation: b'G', fr: 0, ioe: labels.ioe % 256, ..labels };
    let mut line = vec![0; LINE_BYTES];
    assert_eq!(reference::line(&labels, &good_numbers(seeded), &mut line), 0);
    let length = seeded.below(28) as usize;
    line.extend(good_comment(seeded, length));
    line
}

/// The same in the old form, with a comment of 0 to 25 characters.
fn an_old_line(line: &[u8], seeded: &mut Seeded) -> Vec<u8> {
    let mut old = vec![0; OLD_BYTES];
    assert_eq!(reference::down(line, &mut old), 0);
    let length = seeded.below(26) as usize;
    old.extend(good_comment(seeded, length));
    old
}

/// Writes from a column on, and puts CK right.
fn with(line: &mut [u8], columns: usize, column: usize, text: &[u8]) {
    line[column - 1..column - 1 + text.len()].copy_from_slice(text);
    let sum = line[..columns].iter().fold(0u8, |sum, byte| sum.wrapping_add(*byte));
    line[columns..columns + 2].copy_from_slice(format!("{sum:02X}").as_bytes());
}

fn row(count: usize, pair: &Pair<u8>, input: &str, lines: &[Vec<u8>], answer: u32, spoil: fn(&mut Vec<u8>)) {
    let mut spoilt = lines.to_vec();
    spoilt.iter_mut().for_each(spoil);
    pair.whole(count, input, 1, &spoilt, Some(answer));
}

/// So many lines each way, and such as are refused: for CK, for a start, and for the letter.
pub fn run(count: usize, number: usize, seeded: &mut Seeded) {
    let lines: Vec<Vec<u8>> = (0..number).map(|_| a_line(seeded)).collect();
    let olds: Vec<Vec<u8>> = lines.iter().map(|line| an_old_line(line, seeded)).collect();
    row(count, &DOWN, "a GPS line", &lines, 0, |_| {});
    row(count, &DOWN, "a line with a wrong CK", &lines, 14, |line| line[112] = b' ');
    row(count, &DOWN, "a line with no start", &lines, 8, |line| with(line, 111, 18, b"01"));
    row(count, &DOWN, "a QZSS line", &lines, 25, |line| with(line, 111, 1, b"J"));
    row(count, &UP, "an old line", &olds, 0, |_| {});
    row(count, &UP, "an old line with a wrong CK", &olds, 14, |old| old[102] = b' ');
    row(count, &UP, "an old line with no start", &olds, 8, |old| with(old, 101, 18, b"01"));
}
