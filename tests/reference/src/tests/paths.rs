//! Path by hand: lengths, the floor beside perfect squares, what a whole number is, and the order of 23 and 24.

use crate::{path, Point};

/// The limit on a coordinate.
const MOST: f64 = 50_000_000_000.0;
const ORIGIN: [f64; 3] = [0.0, 0.0, 0.0];

fn point([x, y, z]: [f64; 3]) -> Point {
    Point { x, y, z }
}

/// The length by its bits, so that minus zero is not taken for zero; both ways round.
fn check(satellite: [f64; 3], antenna: [f64; 3], wanted: Result<u64, u32>) {
    let wanted = wanted.map(|length| (length as f64).to_bits());
    assert_eq!(path(point(satellite), point(antenna)).map(f64::to_bits), wanted, "{satellite:?} {antenna:?}");
    assert_eq!(path(point(antenna), point(satellite)).map(f64::to_bits), wanted, "{antenna:?} {satellite:?}");
}

#[test]
fn lengths_by_hand() {
    check([3.0, 4.0, 0.0], ORIGIN, Ok(5));
    check([1.0, 2.0, 2.0], ORIGIN, Ok(3));
    check([2.0, -3.0, 6.0], ORIGIN, Ok(7));
    check([1.0, 1.0, 1.0], [2.0, 3.0, 3.0], Ok(3));
    check([-10.0, 5.0, 7.0], [-7.0, 1.0, 19.0], Ok(13));
    // 2.83, 1.73 and 2.45: the floor and not the nearest
    check([2.0, 2.0, 0.0], ORIGIN, Ok(2));
    check([1.0, 1.0, 1.0], ORIGIN, Ok(1));
    check([0.0, 2.0, -1.0], [1.0, 1.0, 1.0], Ok(2));
}

/// Every coordinate counts, with its own partner.
#[test]
fn each_coordinate_counts() {
    for i in 0..3 {
        let mut satellite = ORIGIN;
        satellite[i] = 7.0;
        check(satellite, ORIGIN, Ok(7));
        for k in (0..3).filter(|k| *k != i) {
            let mut antenna = ORIGIN;
            antenna[k] = 24.0;
            check(satellite, antenna, Ok(25));
        }
    }
}

/// A satellite and an antenna as they may be; the root by another program (Python's isqrt).
#[test]
fn as_from_an_antenna() {
    let satellite = [15_600_123_457.0, 7_540_654_321.0, 20_140_777_888.0];
    let antenna = [4_202_777_366.0, 171_367_999.0, 4_778_660_203.0];
    check(satellite, antenna, Ok(20_498_793_588));
}

/// Sums from 0 to 299 that three squares make: the length is the last whole number whose square is reached.
#[test]
fn every_small_sum() {
    let mut seen = [false; 300];
    for x in 0..10u32 {
        for y in 0..10 {
            for z in 0..10 {
                let sum = (x * x + y * y + z * z) as usize;
                let wanted = (0..20).filter(|length| length * length <= sum as u64).last().expect("0 is one");
                check([x.into(), y.into(), z.into()], ORIGIN, Ok(wanted));
                seen[sum] = true;
            }
        }
    }
    // 7 and 28 are no sum of three squares
    assert_eq!([0, 1, 3, 6, 7, 27, 28, 29].map(|sum| seen[sum]), [true, true, true, true, false, true, false, true]);
}

/// The two largest k of each kind, whose differences' squares make k² - 1, k² or k² + 1; and the largest sum.
#[test]
fn beside_the_largest_squares() {
    let rows: [([i128; 3], i128, i128, u64); 6] = [
        ([99_999_999_373, 99_999_980_321, 99_999_992_027], 173_205_064_430, -1, 173_205_064_429),
        ([99_999_999_622, 99_999_976_106, 99_999_989_600], 173_205_060_739, -1, 173_205_060_738),
        ([99_999_998_346, 99_999_969_003, 99_999_993_926], 173_205_058_399, 0, 173_205_058_399),
        ([99_999_996_183, 99_999_974_124, 99_999_986_288], 173_205_055_697, 0, 173_205_055_697),
        ([99_999_999_167, 99_999_990_231, 99_999_998_800], 173_205_073_943, 1, 173_205_073_943),
        ([99_999_998_239, 99_999_979_794, 99_999_993_688], 173_205_064_430, 1, 173_205_064_430),
    ];
    for (differences, k, more, wanted) in rows {
        assert_eq!(differences.iter().map(|d| d * d).sum::<i128>(), k * k + more);
        check(differences.map(|d| d as f64 - MOST), [-MOST; 3], Ok(wanted));
    }
    // 3 × 10^22 lies between 173205080756² and the next square
    assert!(173_205_080_756_i128.pow(2) <= 3 * 10_i128.pow(22) && 3 * 10_i128.pow(22) < 173_205_080_757_i128.pow(2));
    check([MOST; 3], [-MOST; 3], Ok(173_205_080_756));
}

#[test]
fn perfect_squares_and_their_neighbours() {
    for k in [1u64, 2, 3, 1000, 94_906_265, 94_906_266, 94_906_267, 49_999_999_999] {
        let side = k as f64;
        check([side, 0.0, 0.0], ORIGIN, Ok(k));
        check([0.0, side, 1.0], ORIGIN, Ok(k));
        check([side, -side, 0.0], [side, 0.0, 0.0], Ok(k));
    }
    // (2t)² + (2t²)² = (2t² + 1)² - 1
    for t in [1u64, 2, 100, 67_108, 158_113] {
        check([(2 * t) as f64, 0.0, (2 * t * t) as f64], ORIGIN, Ok(2 * t * t));
    }
    // beyond the numbers whose squares a float holds, where a root in floats comes out one too large
    check([94_906_267.0, 0.0, 0.0], [0.0, 0.0, 1.0], Ok(94_906_267));
}

/// A minus zero is zero, and no length is minus zero.
#[test]
fn zeros_have_no_sign() {
    check([-0.0; 3], ORIGIN, Ok(0));
    check([-0.0; 3], [-0.0; 3], Ok(0));
    check(ORIGIN, ORIGIN, Ok(0));
    check([5.0, -0.0, 0.0], [5.0, 0.0, -0.0], Ok(0));
    check([-0.0, 0.0, -3.0], [0.0, -0.0, -0.0], Ok(3));
}

/// One coordinate of the six in each place.
fn everywhere(coordinate: f64, wanted: Result<u64, u32>) {
    for i in 0..3 {
        let mut satellite = ORIGIN;
        satellite[i] = coordinate;
        check(satellite, ORIGIN, wanted);
    }
}

#[test]
fn what_is_not_whole_is_23() {
    let least = f64::from_bits(1);
    for coordinate in
        [0.5, 1.5, 0.1, 49_999_999_999.5, 1.0 - f64::EPSILON, 1.0 + f64::EPSILON, least, f64::MIN_POSITIVE]
    {
        everywhere(coordinate, Err(23));
        everywhere(-coordinate, Err(23));
    }
    // beyond the limit too
    for coordinate in
        [50_000_000_000.5, 4_503_599_627_370_495.5, f64::INFINITY, f64::NAN, f64::from_bits(0x7FF0_0000_0000_0001)]
    {
        everywhere(coordinate, Err(23));
        everywhere(-coordinate, Err(23));
    }
}

#[test]
fn what_is_outside_is_24() {
    for coordinate in [50_000_000_001.0, 4_503_599_627_370_496.0, 9_007_199_254_740_993.0, 1e22, 1e300, f64::MAX] {
        everywhere(coordinate, Err(24));
        everywhere(-coordinate, Err(24));
    }
    everywhere(MOST, Ok(50_000_000_000));
    everywhere(-MOST, Ok(50_000_000_000));
}

/// One coordinate that is not whole is 23, whatever the others are.
#[test]
fn order_of_path() {
    for i in 0..6 {
        for k in (0..6).filter(|k| *k != i) {
            for (half, outside) in [(0.5, 1e300), (f64::NAN, 50_000_000_001.0), (f64::NEG_INFINITY, -1e300)] {
                let mut six = [1.0; 6];
                (six[i], six[k]) = (half, outside);
                check([six[0], six[1], six[2]], [six[3], six[4], six[5]], Err(23));
            }
        }
    }
}
