//! Where an accepted line is spoilt so that it is refused after a known part of the reading.

use crate::stages::{stage, Stage};
use reference::{LINE_BYTES, LONGEST_LINE};

/// In the order of the refusals.
pub const READ_STAGES: [Stage; 5] = [
    stage("length of the line", 12, |line| line.resize(LONGEST_LINE + 1, b' ')),
    stage("checksum", 14, |line| line[LINE_BYTES - 1] = b' '),
    stage("characters and comment", 13, wrong_last_character),
    stage("labels", 7, no_satellite),
    stage("start and numbers", 0, |_| {}),
];

/// The last character that is looked at: of the comment, or of FRC where there is none.
fn wrong_last_character(line: &mut Vec<u8>) {
    let last = if line.len() > LINE_BYTES { line.len() - 1 } else { 109 };
    line[last] = 0x7F;
    repair(line);
}

fn no_satellite(line: &mut Vec<u8>) {
    line[1..3].copy_from_slice(b"00");
    repair(line);
}

/// Puts CK right.
fn repair(line: &mut [u8]) {
    let sum = line[..LINE_BYTES - 2].iter().fold(0u8, |sum, byte| sum.wrapping_add(*byte));
    line[LINE_BYTES - 2..LINE_BYTES].copy_from_slice(format!("{sum:02X}").as_bytes());
}
