//! Seeded data against the definitions themselves, in 128-bit numbers: what nearest means, and the exact figures.

use super::*;
use crate::seeded::Seeded;
use crate::{fit, nearest, scatter, smooth, worst, WEIGHTS};

/// r is nearest to n / d, a tie going up: n / d - 1/2 < r <= n / d + 1/2.
fn is_nearest(r: i64, n: i128, d: i128) -> bool {
    let (r2, n2) = (2 * d * i128::from(r), 2 * n);
    n2 - d < r2 && r2 <= n2 + d
}

/// Twice the place of value j from the middle of n.
fn place(n: usize, j: usize) -> i128 {
    2 * j as i128 - (n as i128 - 1)
}

/// n(n² - 1): three times the sum of the squared places.
fn span(n: usize) -> i128 {
    let n = n as i128;
    n * (n * n - 1)
}

/// The sum of n values and the sum of values times places.
fn sums(values: &[i128]) -> (i128, i128) {
    (values.iter().sum(), values.iter().enumerate().map(|(j, v)| place(values.len(), j) * v).sum())
}

/// What is left of each value over the least line, times n(n² - 1). It is the least line's: what is left has no sum and no
/// sum times place.
fn residuals(values: &[i128]) -> Vec<i128> {
    let ((s, t), n) = (sums(values), values.len());
    let left = |(j, v): (usize, &i128)| span(n) * v - span(n) / n as i128 * s - 3 * place(n, j) * t;
    let left: Vec<i128> = values.iter().enumerate().map(left).collect();
    assert_eq!(sums(&left), (0, 0));
    left
}

fn wide(values: &[i64]) -> Vec<i128> {
    values.iter().map(|v| i128::from(*v)).collect()
}

#[test]
fn nearest_by_its_definition() {
    for d in 1..30 {
        for n in -200..200 {
            assert!(is_nearest(nearest(n, d), n.into(), d.into()), "{n} / {d}");
        }
    }
    assert_eq!((nearest(1, 2), nearest(-1, 2), nearest(-3, 2)), (1, 0, -1));
}

#[test]
fn weights_are_the_parabolas() {
    // normal equations over x = -7..7 with sums of squares 280 and of fourth powers 9352, eliminated by hand:
    // 61880 p = sum of (9352 - 280 x x) m, and 61880 = 56 * 1105
    let squares: i64 = (-7..=7).map(|x: i64| x * x).sum();
    let fourths: i64 = (-7..=7).map(|x: i64| x * x * x * x).sum();
    assert_eq!((squares, fourths, 15 * fourths - squares * squares), (280, 9352, 56 * 1105));
    for (w, x) in WEIGHTS.iter().zip(-7i64..) {
        assert_eq!(56 * w, fourths - squares * x * x);
    }
    assert_eq!(WEIGHTS.iter().sum::<i64>(), 1105);
}

#[test]
fn smooth_fit_and_scatter_by_their_definitions() {
    let mut seeded = Seeded::new(1);
    for round in 0..20_000 {
        let limit = 1_000_000_000_000;
        let m: Vec<i64> =
            (0..15).map(|_| if round % 2 == 0 { seeded.spread(limit) } else { seeded.range(-limit, limit) }).collect();
        let sum: i128 = m.iter().zip(WEIGHTS).map(|(m, w)| i128::from(*m) * i128::from(w)).sum();
        assert!(is_nearest(smooth(&m).expect("accepted"), 10 * sum, 1105));
        let level = seeded.spread(MOST);
        let noise = seeded.spread(MOST - level.abs()).abs();
        let n = 4 + round % 49;
        check_fits(&(0..n).map(|_| level + seeded.range(-noise, noise)).collect::<Vec<i64>>());
    }
}

/// The largest value that is fitted, in tenths.
const MOST: i64 = 20_000_000_000_000;

/// Fit and Scatter of these values in tenths are what the papers say, whose sums are taken in 128 bits and not rearranged.
fn check_fits(values: &[i64]) {
    let (n, (s, t)) = (values.len(), sums(&wide(values)));
    let fitted = fit(values).expect("accepted");
    assert!(is_nearest(fitted.midpoint, s, 1000 * n as i128) && is_nearest(fitted.slope, 4 * t, 10 * span(n)));
    let whole = |left: i128| {
        let r = left.div_euclid(span(n));
        (r..=r + 1).find(|r| is_nearest(*r as i64, left, span(n))).expect("one of the two")
    };
    let q: i128 = residuals(&wide(values)).into_iter().map(|left| whole(left) * whole(left)).sum();
    let threshold = |d: i128| n as i128 * (1000 * d - 500) * (1000 * d - 500);
    match scatter(values) {
        Err(refusal) => assert!(refusal == 6 && threshold(10_000) <= q),
        Ok(0) => assert!(q < 250_000 * n as i128),
        Ok(d) => assert!(threshold(d.into()) <= q && q < threshold(i128::from(d) + 1)),
    }
}

/// The largest values that Fit and Scatter take, and signs along them that make each sum largest: all one, by the side of the
/// mean date, the ends against all between, one after the other, in halves, one value alone.
fn largest_values(n: usize) -> Vec<Vec<i64>> {
    let along = |value: &dyn Fn(usize) -> i64| (0..n).map(value).collect::<Vec<i64>>();
    let side = |j: usize| place(n, j).signum() as i64;
    let end = |j: usize| if j == 0 || j == n - 1 { 1 } else { -1 };
    let mut patterns = vec![
        along(&|_| MOST),
        along(&|j| MOST * side(j)),
        along(&|j| MOST * side(j) * end(j)),
        along(&|j| MOST * end(j)),
        along(&|j| if j % 2 == 0 { MOST } else { -MOST }),
        along(&|j| if j % 4 == 0 || j % 4 == 3 { MOST } else { -MOST }),
        along(&|j| if j < n / 2 { MOST } else { 0 }),
        along(&|j| (2 * MOST as i128 * j as i128 / (n as i128 - 1)) as i64 - MOST),
    ];
    patterns.extend([0, n / 2, n - 1].map(|at| along(&|j| if j == at { MOST } else { -MOST })));
    patterns.extend([0, n / 2, n - 1].map(|at| along(&|j| if j == at { MOST } else { 0 })));
    patterns
}

/// At the limits, and next to them, for every number of blocks: nothing wraps where overflow is checked, and the figures are
/// those of 128 bits.
#[test]
fn largest_values_by_their_definitions() {
    let mut seeded = Seeded::new(3);
    for n in 4..=52 {
        for values in largest_values(n) {
            let under = values.iter().map(|v| v - v.signum() * seeded.range(0, 1000)).collect();
            let turned: Vec<i64> = values.iter().map(|v| -v).collect();
            [values, under, turned].iter().for_each(|values| check_fits(values));
        }
        (0..20).for_each(|_| check_fits(&(0..n).map(|_| seeded.pick(&[MOST, -MOST])).collect::<Vec<i64>>()));
        assert_eq!((scatter(&vec![MOST; n]), scatter(&vec![-MOST; n])), (Ok(0), Ok(0)));
    }
}

/// The measurements that give the largest smoothed value, and the largest corrected values there can be: Fit takes them, and the midpoint is 3.
#[test]
fn largest_measurements_and_corrections() {
    for (n, sign) in (4..=52).flat_map(|n| [(n, 1), (n, -1)]) {
        // 1469 / 1105 of 10^13 tenths
        let by_weight: Vec<i64> = WEIGHTS.iter().map(|w| sign * w.signum() * 1_000_000_000_000).collect();
        assert_eq!(smooth(&by_weight), Ok(sign * 13_294_117_647_059));
        assert!(fit(&vec![sign * 16_094_117_647_059; n]).is_ok());
        assert_eq!(largest(n, sign).track(), Err(3));
    }
}

/// The largest corrected values there can be.
fn largest(n: usize, sign: i64) -> Given {
    let mut given = Given::of(n, 0);
    for (i, m) in given.measurements.iter_mut().enumerate() {
        *m = sign * WEIGHTS[i % 15].signum() * 1_000_000_000_000;
    }
    let top = sign * 10_000_000_000;
    given.delays = Delays { int: -top, cab: -top, refdly: top, gd: -top };
    for (column, v) in given.columns.iter_mut().zip([-20, 1, -1, -1, 1]) {
        column.fill(v * top);
    }
    given
}

/// A track of n blocks; the fewer they are, the more noise shows in a slope, and so there is less of it.
pub fn seeded_track(n: usize, seeded: &mut Seeded) -> Given {
    let mut given = Given::of(n, 0);
    let noise_of = |most: i64| (most as f64 * (span(n) as f64 / span(52) as f64).sqrt()) as i64;
    let (level, slope) = (seeded.spread(100_000_000_000), seeded.spread(9_000));
    let noise = seeded.spread(noise_of(2_000_000)).abs();
    for (i, m) in given.measurements.iter_mut().enumerate() {
        *m = level + slope * i as i64 + seeded.range(-noise, noise);
    }
    for k in 0..5 {
        let top = if k == 2 || k == 3 { 400_000 } else { 5_000_000 };
        let (base, step) = (seeded.range(0, top), seeded.range(-40, 40));
        given.columns[k].iter_mut().enumerate().for_each(|(j, v)| *v = base + step * j as i64);
    }
    given
}

/// The accuracy that is promised against the exact figures: 0.5005 of a unit for midpoints, 0.501 for DSG, 1/2 + n / (10(n² - 1))
/// for slopes.
#[test]
fn within_the_exact_figures() {
    let mut seeded = Seeded::new(2);
    for n in 4..=52 {
        let mut accepted = 0;
        for _ in 0..100 {
            let given = seeded_track(n, &mut seeded);
            let Ok(record) = given.track() else { continue };
            accepted += 1;
            check_track(&given, &record);
        }
        assert!(accepted > 50, "{accepted} accepted of {n} blocks");
    }
}

fn check_track(given: &Given, record: &Record) {
    let numbers = record.numbers;
    let a: Vec<i128> = (0..record.blocks).map(|j| exact_a(given, j)).collect();
    check_line(&a, 1105, numbers.refsv, numbers.srsv);
    let b: Vec<i128> = a.iter().zip(&given.columns[4]).map(|(a, clock)| a + 1105 * i128::from(*clock)).collect();
    check_line(&b, 1105, numbers.refsys, numbers.srsys);
    check_scatter(&b, 1105, numbers.dsg);
    check_line(&wide(&given.columns[3]), 1, numbers.mdtr, numbers.smdt);
    check_line(&wide(&given.columns[2]), 1, numbers.mdio, numbers.smdi);
}

/// How far SRSV lies from the exact slope, away from 0, in millionths of its unit and rounded down.
fn slope_off(given: &Given, record: &Record, sign: i64) -> i128 {
    let n = record.blocks;
    let exact: Vec<i128> = (0..n).map(|j| exact_a(given, j)).collect();
    let unit = span(n) * 1105;
    1_000_000 * i128::from(sign) * (unit * i128::from(record.numbers.srsv) - 4 * sums(&exact).1) / unit
}

/// For every number of blocks there is a track whose slopes lie nearly as far off as is promised, and both ways.
#[test]
fn slopes_nearly_as_far_off_as_promised() {
    let mut seen = Vec::new();
    for (n, sign) in (4..=52).flat_map(|n| [(n, 1), (n, -1)]) {
        let given = Given { measurements: worst::measurements(n, sign), ..Given::of(n, 0) };
        let record = given.track().expect("accepted");
        check_track(&given, &record);
        let (off, count) = (slope_off(&given, &record, sign), n as i128);
        assert!(off > 500_000);
        // the smoothing moves the slope by 550 / 1105 tenths times 4 over 10n(n² - 1) times all places, and one rounding comes to
        // it, which may miss the farthest by what two tenths in one block move 4T
        let places: i128 = (0..n).map(|j| place(n, j).abs()).sum();
        let moved = 1_000_000 * 4 * 550 * places / (1105 * 10 * span(n));
        let least = 1_000_000 / (10 * span(n) / gcd(10 * span(n), if n % 2 == 0 { 8 } else { 16 }));
        assert!((499_999 + moved - least..=500_001 + moved).contains(&off), "{n}: {off}");
        assert!(off <= 500_000 + 100_000 * count / (count * count - 1));
        seen.push((n, sign, off));
    }
    // worked out by another program from the fractions themselves
    for (n, up, down) in [
        (4, 519_879, 519_879),
        (5, 513_242, 513_242),
        (6, 516_112, 516_112),
        (8, 512_640, 511_053),
        (13, 507_291, 507_291),
        (26, 503_823, 503_823),
        (40, 502_490, 502_477),
        (51, 501_945, 501_945),
        (52, 501_912, 501_912),
    ] {
        assert!(seen.contains(&(n, 1, up)) && seen.contains(&(n, -1, down)), "{n} blocks");
    }
}

fn gcd(a: i128, b: i128) -> i128 {
    if b == 0 {
        a
    } else {
        gcd(b, a % b)
    }
}

/// Exact A times 1105.
fn exact_a(given: &Given, j: usize) -> i128 {
    let smoothed: i128 = (0..15).map(|i| i128::from(WEIGHTS[i]) * i128::from(given.measurements[15 * j + i])).sum();
    let at = |k: usize| i128::from(given.columns[k][j]);
    let delays = given.delays.int + given.delays.cab - given.delays.refdly + given.delays.gd;
    smoothed + 1105 * (at(1) - at(0) - at(2) - at(3) - i128::from(delays))
}

/// Values are y / e, in ps. Exact midpoint S / 100n e, exact slope 4T / n(n² - 1) e.
fn check_line(y: &[i128], e: i128, midpoint: i64, slope: i64) {
    let ((s, t), n) = (sums(y), y.len() as i128);
    assert!((10_000 * (100 * n * e * i128::from(midpoint) - s)).abs() <= 5005 * 100 * n * e);
    // (1/2 + n / 10(n² - 1)) times 20(n² - 1) is 10(n² - 1) + 2n
    let unit = span(y.len()) * e;
    assert!(20 * (n * n - 1) * (unit * i128::from(slope) - 4 * t).abs() <= (10 * (n * n - 1) + 2 * n) * unit);
}

/// The least sum is that of what is left squared, over (n(n² - 1) e) squared; 0.501 of a unit is 501 tenths.
fn check_scatter(y: &[i128], e: i128, dsg: i64) {
    let least: i128 = residuals(y).iter().map(|left| (10 * left) * (10 * left)).sum();
    let bound = |root: i128| y.len() as i128 * (span(y.len()) * e * root) * (span(y.len()) * e * root);
    let d = i128::from(dsg);
    assert!(least <= bound(1000 * d + 501));
    assert!(d == 0 || bound(1000 * d - 501) <= least);
}
