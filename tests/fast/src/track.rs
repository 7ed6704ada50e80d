//! The ten numbers of a block: each number is decoded and tested once, on the way through the bytes.

use crate::beyond;
use reference::{Numbers, BLOCK_SECONDS, MOST_BLOCKS};

/// Bytes of fifteen measurements, and of a group of five corrections.
const FIFTEEN: usize = 8 * BLOCK_SECONDS;
const GROUP: usize = 40;

pub const MEASUREMENTS_AT: usize = 58;

const MEASUREMENT_LIMIT: i64 = 1_000_000_000_000;
const GEOMETRY_LIMIT: i64 = 200_000_000_000;
const CORRECTION_LIMIT: i64 = 10_000_000_000;
/// No sum with a residual beyond this, in tenths, has a DSG that is written.
const RESIDUAL_LIMIT: i64 = 100_000_000;
const MOST_DSG: i64 = 9999;

#[inline(always)]
fn numbers<const BYTES: usize, const COUNT: usize>(bytes: &[u8; BYTES]) -> [i64; COUNT] {
    let (eights, _) = bytes.as_chunks();
    std::array::from_fn(|i| i64::from_le_bytes(eights[i]))
}

/// The floor of x / d, for x from -d·2^BITS up. A quotient of unsigned numbers takes fewer steps, so x is raised and the quotient
/// lowered.
#[inline(always)]
fn floor<const BITS: u32>(x: i64, d: i64) -> i64 {
    let raised = (x as u64).wrapping_add((d as u64) << BITS);
    (raised / d as u64) as i64 - (1 << BITS)
}

/// The nearest whole number to x / d, a tie going up, for x from -d·2^BITS up.
#[inline(always)]
fn nearest<const BITS: u32>(x: i64, d: i64) -> i64 {
    floor::<BITS>(x + d / 2, d)
}

/// The smoothed value in tenths; nothing where a measurement is outside its limit. The weights are the same to both sides of the
/// middle.
#[inline(always)]
fn smooth(fifteen: &[u8; FIFTEEN]) -> Option<i64> {
    let m: [i64; BLOCK_SECONDS] = numbers(fifteen);
    if m.iter().any(|m| beyond(*m, MEASUREMENT_LIMIT)) {
        return None;
    }
    let pair = |x: usize| m[7 - x] + m[7 + x];
    let sum = 167 * m[7] + 162 * pair(1) + 147 * pair(2) + 122 * pair(3) + 87 * pair(4) + 42 * pair(5)
        - 13 * pair(6)
        - 78 * pair(7);
    // ten times the sum over 1105; twice the sum is below 3e15
    Some(nearest::<44>(2 * sum, 221))
}

/// The sum of the values so far, and the sum of all such sums before the last one.
#[derive(Clone, Copy, Default)]
struct Running {
    total: i64,
    totals: i64,
}

impl Running {
    #[inline(always)]
    fn add(&mut self, value: i64) {
        self.totals += self.total;
        self.total += value;
    }

    /// T: the sum of the n values times 2j - (n - 1).
    #[inline(always)]
    fn moment(&self, n: i64) -> i64 {
        (n - 1) * self.total - 2 * self.totals
    }

    /// Midpoint and slope of n values in so many steps a ps. The sums are below 1.1e15 and 2.8e16.
    #[inline(always)]
    fn line(&self, n: i64, steps: i64) -> (i64, i64) {
        let midpoint = nearest::<42>(self.total, 100 * steps * n);
        (midpoint, nearest::<42>(4 * self.moment(n), steps * n * (n * n - 1)))
    }
}

/// The squares of the residuals of 52 values, in tenths: 901 S + (2j - 51) T over 46852 is taken from each. Nothing where one is
/// too large.
#[inline(always)]
fn full_squares(values: &[i64; MOST_BLOCKS], s: i64, t: i64) -> Option<i64> {
    let mut numerator = 51 * t - 901 * s;
    let mut squares = 0;
    for value in values {
        let residual = value + nearest::<46>(numerator, 46_852);
        if beyond(residual, RESIDUAL_LIMIT) {
            return None;
        }
        squares += residual * residual;
        numerator -= 2 * t;
    }
    Some(squares)
}

/// The same of fewer values. The quotients follow each other by the same step, so that none is divided but the first.
#[inline(always)]
fn short_squares(values: &[i64], s: i64, t: i64) -> Option<i64> {
    let n = values.len() as i64;
    let span = n * (n * n - 1);
    let numerator = 3 * (n - 1) * t - (n * n - 1) * s + span / 2;
    let (mut quotient, mut rest) = (numerator.div_euclid(span), numerator.rem_euclid(span));
    let (step, part) = ((-6 * t).div_euclid(span), (-6 * t).rem_euclid(span));
    let mut squares = 0;
    for value in values {
        let residual = value + quotient;
        if beyond(residual, RESIDUAL_LIMIT) {
            return None;
        }
        squares += residual * residual;
        rest += part;
        let over = rest >= span;
        rest -= if over { span } else { 0 };
        quotient += step + i64::from(over);
    }
    Some(squares)
}

/// The greatest d with n(1000d - 500)² not above the squares, or nothing where it is above 9999: the root of a float, and a step to
/// either side where that was rounded.
#[inline(always)]
fn dsg(squares: i64, n: i64) -> Option<i64> {
    let threshold = |d: i64| n * (1000 * d - 500) * (1000 * d - 500);
    if squares >= threshold(MOST_DSG + 1) {
        return None;
    }
    let root = (squares as f64 / n as f64).sqrt();
    let mut d = ((root + 500.0) / 1000.0) as i64;
    while d > 0 && threshold(d) > squares {
        d -= 1;
    }
    while threshold(d + 1) <= squares {
        d += 1;
    }
    Some(d)
}

/// 3, 4 and 5.
#[inline(always)]
pub fn check_fits(numbers: &Numbers) -> Result<(), u32> {
    if beyond(numbers.refsv, 9_999_999_999) | beyond(numbers.refsys, 9_999_999_999) {
        return Err(3);
    }
    let slopes = beyond(numbers.srsv, 99_999) | beyond(numbers.srsys, 99_999);
    if slopes | beyond(numbers.smdt, 999) | beyond(numbers.smdi, 999) {
        return Err(4);
    }
    if (numbers.mdtr as u64 > 9999) | (numbers.mdio as u64 > 9999) {
        return Err(5);
    }
    Ok(())
}

/// Track of a block of n, whose length is that of n: its ten numbers, or 2, 3, 4, 5 or 6. No corrected value is outside Fit's
/// limit: none is above 1.7e12 ps.
#[inline(always)]
pub fn track(block: &[u8], n: usize) -> Result<Numbers, u32> {
    let (head, lists) = block.split_at(MEASUREMENTS_AT);
    let (measurements, corrections) = lists.split_at(FIFTEEN * n);
    let (fifteens, _) = measurements.as_chunks();
    let (groups, _) = corrections.as_chunks::<GROUP>();
    let [int, cab, refdly, gd] = numbers(head.last_chunk::<32>().expect("four delays"));
    if [int, cab, refdly, gd].iter().any(|delay| beyond(*delay, CORRECTION_LIMIT)) {
        return Err(2);
    }
    let delay = int + cab - refdly + gd;
    let mut values = [0; MOST_BLOCKS];
    for (fifteen, value) in fifteens.iter().zip(&mut values) {
        *value = smooth(fifteen).ok_or(2u32)?;
    }
    let [mut a, mut b, mut c, mut d] = [Running::default(); 4];
    for (group, value) in groups.iter().zip(&mut values) {
        let [geometry, relativity, ionosphere, troposphere, clock] = numbers(group);
        let others = [relativity, ionosphere, troposphere, clock];
        if beyond(geometry, GEOMETRY_LIMIT) || others.iter().any(|v| beyond(*v, CORRECTION_LIMIT)) {
            return Err(2);
        }
        let corrected = *value - 10 * (delay + geometry - relativity + ionosphere + troposphere);
        *value = corrected + 10 * clock;
        a.add(corrected);
        b.add(*value);
        c.add(troposphere);
        d.add(ionosphere);
    }
    let count = n as i64;
    let ((refsv, srsv), (refsys, srsys)) = (a.line(count, 10), b.line(count, 10));
    let ((mdtr, smdt), (mdio, smdi)) = (c.line(count, 1), d.line(count, 1));
    let trkl = BLOCK_SECONDS as i64 * count;
    let mut numbers = Numbers { refsv, srsv, refsys, srsys, mdtr, smdt, mdio, smdi, dsg: 0, trkl };
    check_fits(&numbers)?;
    let moment = b.moment(count);
    let squares = if n == MOST_BLOCKS {
        full_squares(&values, b.total, moment)
    } else {
        short_squares(&values[..n], b.total, moment)
    };
    numbers.dsg = squares.and_then(|squares| dsg(squares, count)).ok_or(6u32)?;
    Ok(numbers)
}
