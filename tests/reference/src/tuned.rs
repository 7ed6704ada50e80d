//! Blocks of fifteen measurements tuned to a tenth of a ps, which corrections in whole ps can't do.

use crate::{smooth, BLOCK_SECONDS, TENTHS};

/// Moves the middle measurement, toward 0 and past it, until the smoothed value has moved by so many tenths and some whole ps, and
/// gives these ps. Each ps in the middle moves it by about a tenth and a half, so that the ten remainders come soon. Where a
/// measurement is beyond its limit, nothing is tuned.
pub fn tune(block: &mut [i64], tenths: i64) -> i64 {
    let Ok(before) = smooth(block) else { return 0 };
    let toward = if block[BLOCK_SECONDS / 2] > 0 { -1 } else { 1 };
    for _ in 0..100 {
        let more = smooth(block).expect("within the limits") - before - tenths;
        if more % TENTHS == 0 {
            return more / TENTHS;
        }
        block[BLOCK_SECONDS / 2] += toward;
    }
    panic!("no measurement gives {tenths} tenths more than {block:?}")
}
