//! Blocks on the edge of a rounding, so that a tenth of a picosecond more or less anywhere shows in the line.

use crate::blocks::any_lent;
use crate::case::*;
use crate::compare::Compare;
use crate::faults::bring_a_near;
use reference::seeded::Seeded;
use reference::tuned::tune;
use reference::{waves, BLOCK_SECONDS, TENTHS};

pub fn run(compare: &mut Compare, seeded: &mut Seeded) {
    on_edges(compare, seeded);
    on_thresholds(compare, seeded);
    if seeded.below(8) == 0 {
        squares_that_wrap(compare, seeded);
        one_high(compare, seeded);
    }
}

/// A's values in tenths, whatever Track would say of them.
fn corrected(case: &Case) -> Vec<i64> {
    let d = &case.delays;
    let at = |j: usize| {
        let smoothed = reference::smooth(&case.measurements[15 * j..15 * j + 15]).unwrap_or(0);
        let [geometry, relativity, ionosphere, troposphere, _] = case.columns.each_ref().map(|column| column[j]);
        smoothed + TENTHS * (d.refdly - d.int - d.cab - d.gd - geometry + relativity - ionosphere - troposphere)
    };
    (0..case.blocks()).map(at).collect()
}

/// Raises A of block j by so many tenths: by the middle of its measurements, and by whole ps in its geometry.
fn raise(case: &mut Case, j: usize, tenths: i64) {
    let ps = tune(&mut case.measurements[BLOCK_SECONDS * j..BLOCK_SECONDS * (j + 1)], tenths);
    case.columns[GEOMETRY][j] += ps;
}

fn sums(values: &[i64]) -> (i64, i64) {
    let t = values.iter().enumerate().map(|(j, v)| place(values.len(), j) * v).sum();
    (values.iter().sum(), t)
}

/// What to add to n values so that their sums grow by s and t, or by one more than t, as t is even or odd with n and s.
fn steer(n: usize, (s, t): (i64, i64), seeded: &mut Seeded) -> Vec<i64> {
    let mut add = vec![s.div_euclid(n as i64); n];
    let start = seeded.below(n as u64) as usize;
    (0..s.rem_euclid(n as i64) as usize).for_each(|i| add[(start + i) % n] += 1);
    let tilt = (t - sums(&add).1) / (span(n) / 3);
    add.iter_mut().enumerate().for_each(|(j, a)| *a += tilt * place(n, j));
    let half = (t - sums(&add).1).div_euclid(2);
    // two neighbours in the middle: places -1 and 1, or 0 and 2
    add[n.div_ceil(2)] += half;
    add[n.div_ceil(2) - 1] -= half;
    add
}

/// How far off the sums are at which midpoint and slope are about to change, near where they are or near their ends, where a ps
/// has so many steps.
fn to_an_edge(values: &[i64], steps: i64, ends: (&[i64], &[i64]), seeded: &mut Seeded) -> (i64, i64) {
    let ((s, t), n) = (sums(values), values.len());
    let (unit, span) = (100 * steps * n as i64, steps * span(n));
    let midpoint = if seeded.below(8) == 0 { seeded.pick(ends.0) } else { s.div_euclid(unit) + seeded.range(-2, 2) };
    let slope = if seeded.below(8) == 0 { seeded.pick(ends.1) } else { (4 * t).div_euclid(span) + seeded.range(-2, 2) };
    let half_way = (2 * span * slope + span).div_euclid(8);
    (unit * midpoint - unit / 2 + seeded.range(-1, 1) - s, half_way + seeded.range(-1, 2) - t)
}

fn on_edges(compare: &mut Compare, seeded: &mut Seeded) {
    let case = good(seeded);
    let far = seeded.below(16) == 0;
    let case = edged(case, far, seeded);
    let lent = any_lent(seeded);
    compare.block("blocks on the edge of a midpoint or a slope", Some(&case.bytes()), lent);
}

/// The case with all eight fitted numbers next to another: REFSV and REFSYS by a tenth, one of their slopes too and the other
/// by a ps, those of the air by a ps; and REFSV, where asked for, near its limit.
pub fn edged(mut case: Case, far: bool, seeded: &mut Seeded) -> Case {
    let n = case.blocks();
    for column in [TROPOSPHERE, IONOSPHERE] {
        let ends: (&[i64], &[i64]) = (&[0, 1, 9999, 10_000], &[0, 999, 998, -999, -1000]);
        let off = to_an_edge(&case.columns[column], 1, ends, seeded);
        let add = steer(n, off, seeded);
        case.columns[column].iter_mut().zip(add).for_each(|(v, a)| *v += a);
    }
    if far {
        bring_a_near(&mut case, seeded.pick(&[1, -1]) * 999_999_999_950);
        case.shift(CLOCK, -case.mean(CLOCK));
    }
    let values = corrected(&case);
    let ends: (&[i64], &[i64]) = (&[sums(&values).0 / (1000 * n as i64)], &[0, 99_999, 99_998, -99_999, -100_000]);
    let off = to_an_edge(&values, TENTHS, ends, seeded);
    steer(n, off, seeded).iter().enumerate().for_each(|(j, tenths)| raise(&mut case, j, *tenths));
    let values: Vec<i64> =
        corrected(&case).iter().zip(&case.columns[CLOCK]).map(|(a, clock)| a + TENTHS * clock).collect();
    let (s, mut t) = to_an_edge(&values, TENTHS, ends, seeded);
    if seeded.below(2) == 0 {
        // A's two middle values make up for what whole ps of the clock can't
        let half = t.rem_euclid(TENTHS) / 2;
        raise(&mut case, n.div_ceil(2), half);
        raise(&mut case, n.div_ceil(2) - 1, -half);
        t -= 2 * half;
    }
    let whole = |tenths: i64| (tenths + TENTHS / 2).div_euclid(TENTHS);
    let add = steer(n, (whole(s), whole(t)), seeded);
    case.columns[CLOCK].iter_mut().zip(add).for_each(|(v, a)| *v += a);
    case
}

/// A wave of n values times so much, its parts in any order and each with a sign of its own.
fn waves_of(n: usize, times: i64, seeded: &mut Seeded) -> Vec<i64> {
    let mut parts = waves::parts(n);
    (1..parts.len()).rev().for_each(|i| parts.swap(i, seeded.below(i as u64 + 1) as usize));
    let signed = |part: &&[i64]| {
        let sign = seeded.pick(&[1, -1]);
        part.iter().map(|v| sign * times * v).collect::<Vec<i64>>()
    };
    parts.iter().flat_map(signed).collect()
}

/// One more on half of the places, which balance about the middle: every residual lies half way between two whole numbers.
/// There are such where 4 divides n.
fn all_tie(n: usize) -> Vec<i64> {
    (0..n).map(|j| i64::from(n % 4 == 0 && !(n / 4..n - n / 4).contains(&j))).collect()
}

/// Small numbers whose sum is 0 and whose sum times place is an odd multiple of n(n² - 1) / 6q, for an odd q: a residual
/// lies half way between two whole numbers at the places that are an odd multiple of q; where n is odd, of n(n² - 1) / 12q
/// and at the odd multiples of 2q. Where n is twice an odd number, no residual ever does.
fn some_tie(n: usize, seeded: &mut Seeded) -> Vec<i64> {
    if n % 4 == 2 {
        return vec![0; n];
    }
    let step = if n % 2 == 0 { 1 } else { 2 };
    let most = span(n) / (6 * step);
    let divides: Vec<i64> = (1..n as i64 / step).step_by(2).filter(|q| most % q == 0).collect();
    let (m, q) = (seeded.pick(&[1, -1, 3, -3, 5, 7]), seeded.pick(&divides));
    let mut add: Vec<i64> = (0..n).map(|j| place(n, j) * m / (2 * step * q)).collect();
    let mut rest = m * most / q - sums(&add).1;
    while rest != 0 {
        // one more k places behind one less is 2k
        let k = (rest.abs() / 2).min(n as i64 - 1) as usize;
        let j = seeded.below((n - k) as u64) as usize;
        add[j + k] += rest.signum();
        add[j] -= rest.signum();
        rest -= 2 * k as i64 * rest.signum();
    }
    add
}

/// What keeps a wave off an exact edge: nothing, one value, some values, or residuals that tie.
fn ripple(n: usize, seeded: &mut Seeded) -> Vec<i64> {
    let mut add = vec![0; n];
    let mut any = |seeded: &mut Seeded, by: i64| add[seeded.below(n as u64) as usize] += by;
    match seeded.below(5) {
        0 => {
            let by = seeded.pick(&[1, -1]);
            any(seeded, by);
        }
        1 => (0..8).for_each(|_| {
            let by = seeded.range(-1, 1);
            any(seeded, by);
        }),
        2 => add = all_tie(n),
        3 => add = some_tie(n, seeded),
        _ => {}
    }
    add
}

/// B becomes a line through the case's values plus what is added in tenths: by the clock, and where asked for to the tenth by A too.
fn put_on_line(case: &mut Case, add: &[i64], to_the_tenth: bool, seeded: &mut Seeded) {
    let (n, values) = (case.blocks(), corrected(case));
    let (s, t) = sums(&values);
    let level = s / n as i64 + seeded.spread(10_000_000_000);
    let tilt = 3 * t / span(n) + seeded.range(-1000, 1000);
    for (j, add) in add.iter().enumerate() {
        let off = level + tilt * place(n, j) + add - values[j];
        if to_the_tenth {
            raise(case, j, off.rem_euclid(TENTHS));
        }
        case.columns[CLOCK][j] = off.div_euclid(TENTHS);
    }
}

/// A DSG, the ends of its range more often.
fn any_dsg(seeded: &mut Seeded) -> i64 {
    let any = seeded.range(1, 10_000);
    seeded.pick(&[1, 2, 9999, 10_000, 10_001, any, any, any])
}

/// B is a line plus waves whose squares sum to a threshold of DSG, or nearly.
fn on_thresholds(compare: &mut Compare, seeded: &mut Seeded) {
    let mut case = good(seeded);
    let n = case.blocks();
    let near = seeded.pick(&[0, 0, 0, -1, 1]);
    let times = 500 * any_dsg(seeded) - 250 + near;
    let waves = waves_of(n, times, seeded);
    let add: Vec<i64> = waves.iter().zip(ripple(n, seeded)).map(|(wave, ripple)| wave + ripple).collect();
    put_on_line(&mut case, &add, true, seeded);
    let lent = any_lent(seeded);
    compare.block("blocks on a threshold of DSG", Some(&case.bytes()), lent);
}

/// B is a line but for one value: nearly all of a DSG is one residual, which is the larger the more blocks there are.
fn one_high(compare: &mut Compare, seeded: &mut Seeded) {
    let mut case = good(seeded);
    let n = case.blocks();
    let high = seeded.below(n as u64) as usize;
    // what is left of one value when the line through it is taken off
    let slope = 3.0 * place(n, high) as f64 / span(n) as f64;
    let left = |j: usize| f64::from(u8::from(j == high)) - 1.0 / n as f64 - slope * place(n, j) as f64;
    let size = seeded.pick(&[1.0, -1.0]) * (1000 * any_dsg(seeded) - 500) as f64 * (n as f64 / left(high)).sqrt();
    let near = seeded.range(-20, 20);
    let add: Vec<i64> = (0..n).map(|j| (size * left(j)) as i64 + if j == high { near } else { 0 }).collect();
    put_on_line(&mut case, &add, false, seeded);
    let lent = any_lent(seeded);
    compare.block("blocks with one high value", Some(&case.bytes()), lent);
}

/// Waves about multiples of 2^30 ps: the sum of their squares in tenths is near a multiple of 2^64.
fn squares_that_wrap(compare: &mut Compare, seeded: &mut Seeded) {
    let mut case = good(seeded);
    case.columns[RELATIVITY..].iter_mut().for_each(|column| column.fill(0));
    let small = seeded.below(2) == 0;
    let times = seeded.range(1, if small { 2 } else { 200 });
    let near = seeded.pick(&[0, 0, 1, -1]) * seeded.range(1, 125);
    let waves = waves_of(case.blocks(), (1 << 30) * times + near, seeded);
    case.columns[GEOMETRY].fill(0);
    case.measurements.fill(0);
    if small {
        case.columns[CLOCK] = waves;
    } else {
        case.measurements.iter_mut().enumerate().for_each(|(i, m)| *m = waves[i / 15]);
    }
    let lent = any_lent(seeded);
    compare.block("blocks whose squares pass 64 bits", Some(&case.bytes()), lent);
}
