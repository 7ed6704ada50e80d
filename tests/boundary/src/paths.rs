//! Pairs of points for a path: floats of every kind in every place, sums beside perfect squares up to the largest, the largest sums,
//! and points all over the range.

use crate::compare::{Compare, Length};
use crate::squares::{beside_squares, near_the_largest, Beside};
use crate::{answers, pairs};
use reference::seeded::Seeded;

const PATH_ORDER: [u32; 2] = [23, 24];
const MOST: i64 = 50_000_000_000;
/// Pairs of points anywhere in the range.
const ANYWHERE: usize = 7_000_000;
/// Triples of sums beside a square.
const SQUARES: usize = 1_200_000;
/// Of each sum beside the largest squares.
const LARGEST: usize = 40;

pub fn run(compare: &mut Compare, seeded: &mut Seeded, scale: usize) {
    every_kind(compare);
    largest_sums(compare);
    small_sums(compare);
    near_the_largest(LARGEST, |sum| one_sum(compare, seeded, sum));
    for _ in 0..SQUARES * scale {
        beside_squares(seeded, |seeded, sum| one_sum(compare, seeded, sum));
    }
    for _ in 0..400_000 * scale {
        any_floats(compare, seeded);
        nearly_whole(compare, seeded);
    }
    for _ in 0..ANYWHERE * scale {
        let six = std::array::from_fn(|_| coordinate(seeded) as f64);
        compare.path("anywhere", six).ok();
    }
    for _ in 0..100_000 * scale {
        exchanged(compare, seeded);
    }
}

/// Prints the counts; gives what should have been seen and was not.
pub fn report(compare: &Compare) -> Vec<String> {
    let mut missing = Vec::new();
    answers(compare, "path", &PATH_ORDER, &mut missing);
    pairs(compare, "path", &PATH_ORDER, &mut missing);
    missing
}

/// A coordinate within the limits, small ones and those at the ends more often.
fn coordinate(seeded: &mut Seeded) -> i64 {
    match seeded.below(16) {
        0 => MOST - seeded.range(0, 3),
        1 => seeded.range(0, 3) - MOST,
        2..=5 => seeded.spread(MOST),
        _ => seeded.range(-MOST, MOST),
    }
}

/// Both points of a path with these differences, the antenna anywhere that leaves room for them.
fn placed(seeded: &mut Seeded, differences: [i64; 3]) -> [f64; 6] {
    let mut six = [0.0; 6];
    for (i, difference) in differences.into_iter().enumerate() {
        let antenna = seeded.range((-MOST).max(-MOST - difference), MOST.min(MOST - difference));
        six[i] = (antenna + difference) as f64;
        six[i + 3] = antenna as f64;
    }
    six
}

/// The same length, and nothing that it could be taken for.
fn is(length: Length, wanted: u64) -> bool {
    length.map(f64::to_bits) == Ok((wanted as f64).to_bits())
}

/// A sum beside a square, whose root is known.
fn one_sum(compare: &mut Compare, seeded: &mut Seeded, sum: Beside) {
    let six = placed(seeded, sum.differences);
    let length = compare.path("beside a square", six);
    compare.expect(is(length, sum.root()), || format!("{six:?} are {} mm, not {length:?}", sum.root()));
}

/// Points whose differences are 0 to 12, about 0 and at the ends of the range.
fn small_sums(compare: &mut Compare) {
    for at in [0, 1, -1, MOST - 12, -MOST, -MOST + 1] {
        for (x, y, z) in (0..13 * 13 * 13).map(|i| (i % 13, i / 13 % 13, i / 169)) {
            let sum = x * x + y * y + z * z;
            let six = [at + x, at + y, at + z, at, at, at].map(|v| v as f64);
            let length = compare.path("small sums", six);
            let wanted = (0..30).rev().find(|root| root * root <= sum).expect("0 is one");
            compare.expect(is(length, wanted as u64), || format!("{six:?} are {wanted} mm, not {length:?}"));
        }
    }
}

/// All differences are the largest or a little less, in every corner: up to 3 × 10^22.
fn largest_sums(compare: &mut Compare) {
    for corner in 0..64 {
        for less in 0..4i64.pow(6) {
            let six = std::array::from_fn(|i| {
                let coordinate = (MOST - (less >> (2 * i) & 3)) as f64;
                if corner >> i & 1 == 0 {
                    coordinate
                } else {
                    -coordinate
                }
            });
            let length = compare.path("largest sums", six);
            if less == 0 {
                // 0, 10^11, and its products with the roots of 2 and 3
                let axes = (0..3).filter(|i| corner >> i & 1 != corner >> (i + 3) & 1).count();
                let wanted = [0, 100_000_000_000, 141_421_356_237, 173_205_080_756][axes];
                compare.expect(is(length, wanted), || format!("{six:?} are {wanted} mm, not {length:?}"));
            }
        }
    }
}

/// Floats of every kind, and the number that each is refused with, or 0. Each comes with both signs.
const KINDS: [(f64, u32); 42] = [
    (0.0, 0),
    (1.0, 0),
    (2.0, 0),
    (4_095.0, 0),
    (4_294_967_296.0, 0),
    (49_999_999_999.0, 0),
    (50_000_000_000.0, 0),
    (f64::from_bits(1), 23), // the least above 0
    (f64::from_bits(2), 23),
    (f64::from_bits(0x000F_FFFF_FFFF_FFFF), 23), // the greatest subnormal
    (f64::MIN_POSITIVE, 23),
    (1e-300, 23),
    (f64::EPSILON, 23),
    (0.1, 23),
    (0.25, 23),
    (0.5, 23),
    (1.0 - f64::EPSILON / 2.0, 23),
    (1.0 + f64::EPSILON, 23),
    (1.5, 23),
    (2.5, 23),
    (4_294_967_296.5, 23),
    (49_999_999_999.5, 23),
    (49_999_999_999.999_99, 23),
    (50_000_000_000.000_01, 23),
    (50_000_000_000.5, 23),
    (2_251_799_813_685_247.75, 23),
    (4_503_599_627_370_495.5, 23),
    (f64::INFINITY, 23),
    (f64::NAN, 23),
    (f64::from_bits(0x7FF0_0000_0000_0001), 23), // signalling
    (f64::from_bits(0x7FF7_FFFF_FFFF_FFFF), 23),
    (f64::from_bits(0x7FFF_FFFF_FFFF_FFFF), 23),
    (50_000_000_001.0, 24),
    (100_000_000_000.0, 24),
    (4_503_599_627_370_497.0, 24),
    (9_007_199_254_740_992.0, 24),
    (9_223_372_036_854_775_808.0, 24),
    (18_446_744_073_709_551_616.0, 24), // 2^64, and 2^64 + 2^12
    (18_446_744_073_709_555_712.0, 24),
    (1e22, 24),
    (1e300, 24),
    (f64::MAX, 24),
];

/// With both signs.
fn kind(i: usize) -> (f64, u32) {
    let (coordinate, number) = KINDS[i / 2];
    (if i % 2 == 0 { coordinate } else { -coordinate }, number)
}

/// Every kind in every place, every two kinds in every two places, and every kind in all.
fn every_kind(compare: &mut Compare) {
    for one in 0..2 * KINDS.len() {
        for other in 0..2 * KINDS.len() {
            for (i, k) in (0..36).map(|places| (places / 6, places % 6)) {
                let mut six = [3.0, -4.0, 12.0, 0.0, -0.0, 7.0];
                let ((first, number), (second, other_number)) = (kind(one), kind(other));
                six[k] = second;
                six[i] = first;
                known(compare, six, if i == k { vec![number] } else { vec![number, other_number] });
            }
        }
        known(compare, [kind(one).0; 6], vec![kind(one).1]);
    }
}

/// A path with these faults, or 0 for none.
fn known(compare: &mut Compare, six: [f64; 6], mut numbers: Vec<u32>) {
    numbers.retain(|number| *number != 0);
    numbers.dedup();
    let length = compare.path("every kind", six);
    compare.faults("path", &PATH_ORDER, &numbers, length.err().unwrap_or(0));
}

/// Any 64 bits in some places.
fn any_floats(compare: &mut Compare, seeded: &mut Seeded) {
    let often = seeded.below(6) + 1;
    let six = std::array::from_fn(|_| {
        if seeded.below(6) < often {
            f64::from_bits(seeded.bits())
        } else {
            coordinate(seeded) as f64
        }
    });
    compare.path("any floats", six).ok();
}

/// Whole numbers, and in one or more places one with some binary places behind the point, or beyond the limit, of any size.
fn nearly_whole(compare: &mut Compare, seeded: &mut Seeded) {
    let six = std::array::from_fn(|_| match seeded.below(8) {
        0 => seeded.spread(i64::MAX >> 1) as f64,
        1 => (seeded.spread(1 << 53) as f64) * 0.5_f64.powi(seeded.range(0, 60) as i32),
        2 => f64::from_bits(((coordinate(seeded) as f64).to_bits() as i64 + seeded.range(-2, 2)) as u64),
        _ => coordinate(seeded) as f64,
    });
    compare.path("nearly whole", six).ok();
}

/// The points exchanged, and both moved alike, have the same length; the points of a path are the same where it is 0.
fn exchanged(compare: &mut Compare, seeded: &mut Seeded) {
    let six: [f64; 6] = std::array::from_fn(|_| coordinate(seeded) as f64);
    let length = compare.path("exchanged", six);
    let turned = compare.path("exchanged", [six[3], six[4], six[5], six[0], six[1], six[2]]);
    compare.expect(length == turned, || format!("{six:?} are {length:?} mm, and exchanged {turned:?}"));
    let mirrored = compare.path("exchanged", six.map(|v| -v));
    compare.expect(length == mirrored, || format!("{six:?} are {length:?} mm, and with other signs {mirrored:?}"));
    compare.expect(is(length, 0) == (six[..3] == six[3..]), || format!("{six:?} are {length:?} mm"));
}
