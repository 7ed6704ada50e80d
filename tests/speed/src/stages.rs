//! Where an accepted block is spoilt so that it is refused after a known part of the work.

use crate::case::{CLOCK, GEOMETRY, TROPOSPHERE};

pub struct Stage {
    /// the work between the refusal before and this one
    pub part: &'static str,
    pub answer: u32,
    pub spoil: fn(&mut Vec<u8>),
}

pub const fn stage(part: &'static str, answer: u32, spoil: fn(&mut Vec<u8>)) -> Stage {
    Stage { part, answer, spoil }
}

/// In the order of the refusals, named as in the table of docs/SPEED.md. Plain Rust sums for the fits while it corrects, so that its part
/// "four fits" has the quotients alone.
pub const STAGES: [Stage; 6] = [
    stage("length and sizes", 1, |block| block[2] -= 1),
    stage("measurements: decoding, limits, smoothing", 2, first_geometry_beyond),
    stage("corrections: decoding, limits, correcting", 2, last_clock_beyond),
    stage("four fits", 5, negative_troposphere),
    stage("scatter", 7, |block| block[5] = 0),
    stage("labels and start, text", 0, |_| {}),
];

pub fn put(block: &mut [u8], at: usize, value: i64) {
    block[at..at + 8].copy_from_slice(&value.to_le_bytes());
}

/// The number of blocks of 15 seconds.
pub fn blocks(block: &[u8]) -> usize {
    block[2].into()
}

fn correction(block: &[u8], which: usize, j: usize) -> usize {
    58 + 120 * blocks(block) + 40 * j + 8 * which
}

/// The first number that either side tests behind the measurements and the delays.
fn first_geometry_beyond(block: &mut Vec<u8>) {
    let geometry = correction(block, GEOMETRY, 0);
    put(block, geometry, i64::MAX);
}

fn last_clock_beyond(block: &mut Vec<u8>) {
    let last = correction(block, CLOCK, blocks(block) - 1);
    put(block, last, i64::MAX);
}

/// MDTR below 0 by an even column, so that its slope stays.
fn negative_troposphere(block: &mut Vec<u8>) {
    for j in 0..blocks(block) {
        let at = correction(block, TROPOSPHERE, j);
        put(block, at, -1000);
    }
}
