//! Smooth, Fit and Scatter, over the steps in which a ps is counted inside.

use crate::{nearest, within};

/// Limit of one measurement, in ps.
pub(crate) const MEASUREMENT_LIMIT: i64 = 1_000_000_000_000;
/// Limit of a value that is fitted, in ps; the value itself is in steps.
const VALUE_LIMIT: i64 = 2_000_000_000_000;
/// The greatest DSG that its four columns hold.
pub(crate) const MOST_DSG: i64 = 9999;

/// Steps of a ps: a smoothed value, a corrected value and a residual are whole tenths.
pub const TENTHS: i64 = 10;

/// The fewest values that a line is fitted through.
pub const LEAST_BLOCKS: usize = 4;
/// The most: those of a track of 780 s.
pub const MOST_BLOCKS: usize = 52;

/// Weights over 1105 that give a parabola's value at the middle of fifteen seconds.
pub const WEIGHTS: [i64; 15] = [-78, -13, 42, 87, 122, 147, 162, 167, 162, 147, 122, 87, 42, -13, -78];

/// A line through n values: midpoint in 0.1 ns, slope in 0.1 ps/s.
#[derive(Clone, Copy, Debug, PartialEq, Eq)]
pub struct Fitted {
    pub midpoint: i64,
    pub slope: i64,
}

/// Smooth: the parabola's value at the middle of fifteen measurements in ps, in whole tenths.
pub fn smooth(measurements: &[i64]) -> Result<i64, u32> {
    smooth_in::<TENTHS>(measurements)
}

pub(crate) fn smooth_in<const STEPS: i64>(measurements: &[i64]) -> Result<i64, u32> {
    if measurements.len() != 15 {
        return Err(1);
    }
    if measurements.iter().any(|&m| !within(m, MEASUREMENT_LIMIT)) {
        return Err(2);
    }
    // the weights' magnitudes sum to 1469: below 1.5e15
    let sum: i64 = WEIGHTS.iter().zip(measurements).map(|(w, m)| w * m).sum();
    Ok(nearest(STEPS * sum, 1105))
}

/// Whether a track may have n blocks.
pub(crate) fn blocks_fit(n: usize) -> bool {
    (LEAST_BLOCKS..=MOST_BLOCKS).contains(&n)
}

/// Twice the place of value j from the middle of n.
fn place(n: i64, j: usize) -> i64 {
    2 * j as i64 - (n - 1)
}

/// The sum of the values, and the sum of the values times their places: below 1.1e15 and 2.8e16.
fn sums(values: &[i64], n: i64) -> (i64, i64) {
    let s = values.iter().sum();
    let t = values.iter().enumerate().map(|(j, v)| place(n, j) * v).sum();
    (s, t)
}

/// What Fit and Scatter ask of their list.
fn admit<const STEPS: i64>(values: &[i64]) -> Result<(), u32> {
    if !blocks_fit(values.len()) {
        return Err(1);
    }
    if values.iter().any(|&v| !within(v, STEPS * VALUE_LIMIT)) {
        return Err(2);
    }
    Ok(())
}

/// Fit: midpoint and slope of the line through 4 to 52 values in tenths.
pub fn fit(values: &[i64]) -> Result<Fitted, u32> {
    fit_in::<TENTHS>(values)
}

pub(crate) fn fit_in<const STEPS: i64>(values: &[i64]) -> Result<Fitted, u32> {
    admit::<STEPS>(values)?;
    Ok(counted(values, line_through::<STEPS>))
}

/// What an operation gives on the values and their number, which for a full track is a constant to the compiler.
#[inline(always)]
fn counted<T>(values: &[i64], operation: impl Fn(&[i64], i64) -> T) -> T {
    match values.len() {
        MOST_BLOCKS => operation(values, MOST_BLOCKS as i64),
        n => operation(values, n as i64),
    }
}

/// The line through n values.
#[inline(always)]
fn line_through<const STEPS: i64>(values: &[i64], n: i64) -> Fitted {
    let (s, t) = sums(values, n);
    Fitted { midpoint: nearest(s, 100 * STEPS * n), slope: nearest(4 * t, STEPS * n * (n * n - 1)) }
}

/// The sum of the squared whole residuals of n values, in steps squared.
#[inline(always)]
fn squares(values: &[i64], n: i64) -> i128 {
    let (s, t) = sums(values, n);
    let mut q: i128 = 0;
    for (j, v) in values.iter().enumerate() {
        // the value - s / n - 3 place t / (n (n n - 1)): the value is whole and taken out, the rest over that divisor is below 7e18
        let residual = v + nearest(-(n * n - 1) * s - 3 * place(n, j) * t, n * (n * n - 1));
        q += i128::from(residual) * i128::from(residual);
    }
    q
}

/// The least sum of squares whose DSG is d, for d from 1 up.
fn threshold<const STEPS: i64>(n: usize, d: i64) -> i128 {
    let root = i128::from(STEPS * (100 * d - 50));
    n as i128 * root * root
}

/// Scatter: DSG in 0.1 ns, from the squared whole residuals of the line through 4 to 52 values in tenths.
pub fn scatter(values: &[i64]) -> Result<i64, u32> {
    scatter_in::<TENTHS>(values)
}

pub(crate) fn scatter_in<const STEPS: i64>(values: &[i64]) -> Result<i64, u32> {
    admit::<STEPS>(values)?;
    let (n, q) = (values.len(), counted(values, squares));
    if q >= threshold::<STEPS>(n, MOST_DSG + 1) {
        return Err(6);
    }
    // the greatest d whose threshold is not above q; under threshold 1, which is 250000 n in tenths, it is 0
    let (mut low, mut above) = (0, MOST_DSG + 1);
    while above - low > 1 {
        let d = (low + above) / 2;
        if threshold::<STEPS>(n, d) <= q {
            low = d;
        } else {
            above = d;
        }
    }
    Ok(low)
}
