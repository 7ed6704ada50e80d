//! Blocks with the largest values that their limits allow, for every number of blocks.

use crate::blocks::any_lent;
use crate::case::*;
use crate::compare::Compare;
use crate::faults::{long_lent, BLOCK_ORDER};
use reference::seeded::Seeded;
use reference::{waves, worst, Delays, BLOCK_SECONDS, LEAST_BLOCKS, MOST_BLOCKS, WEIGHTS};

/// How the largest values go along the blocks.
#[derive(Clone, Copy)]
enum Along {
    /// all one sign: the largest sum
    One,
    /// by the side of the mean date: the largest sum times place
    Place,
    /// the first and the last against all between: the largest residual
    Ends,
    /// one sign after the other
    Turns,
    Any,
    /// from end to end
    Ramp,
}

impl Along {
    /// In thousandths of the largest.
    fn at(self, n: usize, j: usize, seeded: &mut Seeded) -> i64 {
        let side = 1000 * place(n, j).signum();
        match self {
            Along::One => 1000,
            Along::Place => side,
            Along::Ends => side * if j == 0 || j == n - 1 { 1 } else { -1 },
            Along::Turns => 1000 - 2000 * (j % 2) as i64,
            Along::Any => seeded.pick(&[1000, -1000]),
            Along::Ramp => 1000 * place(n, j) / (n as i64 - 1),
        }
    }
}

const LARGEST_MEASUREMENT: i64 = 1_000_000_000_000;
const LARGEST_CORRECTION: i64 = 10_000_000_000;
/// What each column does to A or B where it is positive, and how large it can be.
const COLUMNS: [i64; 5] = [-20, 1, -1, -1, 1];

/// Fifteen measurements whose smoothed value is 1469 / 1105 of this one.
fn by_weight(measurement: i64) -> [i64; BLOCK_SECONDS] {
    WEIGHTS.map(|w| w.signum() * measurement)
}

/// The largest corrected values there can be, of either sign.
pub fn extremes(compare: &mut Compare, seeded: &mut Seeded) {
    let n = reference::good::good_blocks(seeded);
    extremes_of(n, Along::Any, compare, seeded);
    extremes_of(n, Along::One, compare, seeded);
}

/// The same for every number of blocks, and along them so that each sum is largest; each correction alone, and waves.
pub fn run(compare: &mut Compare, seeded: &mut Seeded) {
    for n in LEAST_BLOCKS..=MOST_BLOCKS {
        for along in [Along::One, Along::Place, Along::Ends, Along::Turns, Along::Any, Along::Ramp] {
            (0..4).for_each(|_| extremes_of(n, along, compare, seeded));
            (0..9).for_each(|which| one_correction(n, which, along, compare, seeded));
        }
        for (sign, level) in [(1, 0), (-1, 0), (1, 999_000_000_000), (-1, 999_000_000_000)] {
            highest_waves(n, sign, level, compare, seeded);
            highest_waves(n, sign, -level, compare, seeded);
        }
    }
}

fn extremes_of(n: usize, along: Along, compare: &mut Compare, seeded: &mut Seeded) {
    let mut case = good_of(n, seeded);
    let first = seeded.pick(&[1, -1]);
    let top = first * LARGEST_CORRECTION;
    case.delays = Delays { int: -top, cab: -top, refdly: top, gd: -top };
    for j in 0..n {
        let share = first * along.at(n, j, seeded);
        let block = by_weight(share * LARGEST_MEASUREMENT / 1000);
        case.measurements[BLOCK_SECONDS * j..BLOCK_SECONDS * (j + 1)].copy_from_slice(&block);
        (0..5).for_each(|k| case.columns[k][j] = share * COLUMNS[k] * LARGEST_CORRECTION / 1000);
    }
    let lent = any_lent(seeded);
    compare.block("blocks with the largest values", Some(&case.bytes()), lent);
}

/// One of the nine corrections at its limit, a delay all along and a column in this way; the others as in a good block.
fn one_correction(n: usize, which: usize, along: Along, compare: &mut Compare, seeded: &mut Seeded) {
    let mut case = good_of(n, seeded);
    let top = seeded.pick(&[1, -1]) * LARGEST_CORRECTION;
    match which {
        0 => case.delays.int = top,
        1 => case.delays.cab = top,
        2 => case.delays.refdly = top,
        3 => case.delays.gd = top,
        _ => {
            let most = COLUMNS[which - 4] * top / 1000;
            (0..n).for_each(|j| case.columns[which - 4][j] = most * along.at(n, j, seeded));
        }
    }
    let lent = any_lent(seeded);
    compare.block("blocks with one correction at its limit", Some(&case.bytes()), lent);
}

/// Waves about a level, up to the largest smoothed value: no midpoint and no slope is refused, and the residuals are the largest
/// that get to Scatter.
fn highest_waves(n: usize, sign: i64, level: i64, compare: &mut Compare, seeded: &mut Seeded) {
    let mut case = good_of(n, seeded);
    case.delays = Delays::default();
    case.columns.iter_mut().for_each(|column| column.fill(0));
    let wave = waves::wave(n);
    let most = wave.iter().map(|w| w.abs()).max().expect("values");
    let size = (1_329_000_000_000 - level.abs()) / most;
    for (block, w) in case.measurements.chunks_mut(BLOCK_SECONDS).zip(wave) {
        let smoothed = i128::from(level + sign * w * size);
        block.copy_from_slice(&by_weight((smoothed * 1105 / 1469) as i64));
    }
    let lent = any_lent(seeded);
    let answer = compare.block("blocks with the highest waves", Some(&case.bytes()), lent);
    compare.known("block", 6, answer);
}

/// The tracks of each number of blocks whose slopes lie as far from the exact ones as can be, of either sign.
pub fn far_slopes(compare: &mut Compare, seeded: &mut Seeded) {
    for (n, sign) in (LEAST_BLOCKS..=MOST_BLOCKS).flat_map(|n| [(n, 1), (n, -1)]) {
        let mut case = good_of(n, seeded);
        case.delays = Delays::default();
        case.columns.iter_mut().for_each(|column| column.fill(0));
        case.measurements = worst::measurements(n, sign);
        let lent = long_lent(seeded);
        let answer = compare.block("blocks with slopes far from exact", Some(&case.bytes()), lent);
        compare.faults("block", &BLOCK_ORDER, &[], answer);
    }
}
