//! Blocks of which one measurement is outside its limit.

use crate::stages::{blocks, put, stage, Stage};

/// Where the limit test on the measurements stops (docs/SPEED.md).
pub const MEASUREMENTS: [Stage; 2] = [
    stage("the first measurement outside", 2, |block| put(block, 58, i64::MAX)),
    stage("the last measurement outside", 2, |block| {
        let last = 58 + 8 * (15 * blocks(block) - 1);
        put(block, last, i64::MAX)
    }),
];
