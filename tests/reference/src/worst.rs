//! Tracks whose slopes lie as far from the exact ones as the roundings allow: for 52 blocks 0.5019 of their unit.

use crate::{BLOCK_SECONDS, TENTHS};

/// Twice the place of block j from the middle of n.
fn place(n: usize, j: usize) -> i64 {
    2 * j as i64 + 1 - n as i64
}

/// How many tenths higher one value is to lie, at a place that is above 0, so that with t the sum of values times places before it
/// the slope is rounded farthest, away from 0 by this sign: 4T lies least above half of its unit over a multiple of it, half
/// way only for a sign of 1, as a tie goes up. A value that is rounded by 550 / 1105 is even.
fn higher(n: usize, sign: i64, t: i64, at: i64) -> i64 {
    let count = n as i64;
    let unit = TENTHS * count * (count * count - 1);
    let above = |tenths: &i64| (4 * (t + at * tenths) - unit / 2).rem_euclid(unit);
    let even = (0..unit / 2).step_by(2);
    even.filter(|tenths| sign == 1 || above(tenths) != 0).min_by_key(above).expect("sums to choose from")
}

/// A block whose smoothed value is so many tenths, an even number, above 268 and rounded by as much: each 221 ps more in
/// the middle are 334 tenths more to the last.
fn block(tenths: i64) -> [i64; BLOCK_SECONDS] {
    let more = (0..5).find(|k| (tenths - 334 * k) % TENTHS == 0).expect("an even number");
    let mut block = [(tenths - 334 * more) / TENTHS; BLOCK_SECONDS];
    block[BLOCK_SECONDS / 2] += MIDDLE + 221 * more;
    block
}

const MIDDLE: i64 = 177;

/// The measurements of n blocks; all else that Track is given is 0. A sign of -1 turns them over.
///
/// Each block has 177 ps in its middle, before the mean date -177. As 10 x 167 x 177 is 267 x 1105 + 555, every smoothed value
/// is rounded by 550 / 1105 of a tenth away from 0, and the line is tilted. The first block behind the mean date lies so much higher
/// that the slope is rounded as far as can be the same way.
pub fn measurements(n: usize, sign: i64) -> Vec<i64> {
    let t: i64 = (0..n).map(|j| 268 * place(n, j).abs()).sum();
    let first = n.div_ceil(2);
    let tenths = higher(n, sign, t, place(n, first));
    let along = |j: usize| {
        let side = sign * place(n, j).signum();
        block(if j == first { tenths } else { 0 }).map(|m| side * m)
    };
    (0..n).flat_map(along).collect()
}
