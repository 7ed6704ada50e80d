//! The length of a path: the archive beside plain Rust.

use crate::library;
use crate::timing::Pair;
use reference::seeded::Seeded;

const MOST: f64 = 50_000_000_000.0;

/// The six coordinates, eight bytes each.
fn coordinates(given: &[u8]) -> [f64; 6] {
    std::array::from_fn(|i| f64::from_le_bytes(given[8 * i..8 * i + 8].try_into().expect("eight bytes")))
}

// Never inlined and with plain names, so that valgrind can count what is inside.
#[inline(never)]
#[no_mangle]
fn speed_proved_path(given: &[u8], lent: &mut [u64]) -> u32 {
    let mut length = 0.0;
    let answer = library::path(coordinates(given), &mut length);
    lent[0] = length.to_bits();
    answer
}

#[inline(never)]
#[no_mangle]
fn speed_plain_path(given: &[u8], lent: &mut [u64]) -> u32 {
    let answer = fast::path(coordinates(given));
    lent[0] = answer.unwrap_or(0.0).to_bits();
    answer.err().unwrap_or(0)
}

/// One coordinate that is refused: what it is called, its place, itself and the answer. The first one is refused at once, by both.
const REFUSED: [(&str, usize, f64, u32); 11] = [
    ("with a half, the first", 0, 0.5, 23),
    ("with a half, the last", 5, 0.5, 23),
    ("with a subnormal, the first", 0, 5e-324, 23),
    ("with an infinity, the first", 0, f64::INFINITY, 23),
    ("with an infinity, the last", 5, f64::INFINITY, 23),
    ("with no number, the first", 0, f64::NAN, 23),
    ("with a half outside, the first", 0, 60_000_000_000.5, 23),
    ("outside, the first", 0, 60_000_000_000.0, 24),
    ("outside, the last", 5, -60_000_000_000.0, 24),
    ("far outside, the first", 0, 1e300, 24),
    ("far outside, the last", 5, 1e300, 24),
];

const PATH: Pair<u64> =
    Pair { function: "trackline_path", proved: speed_proved_path, plain: speed_plain_path, lent: 1 };

fn bytes(six: [f64; 6]) -> Vec<u8> {
    six.iter().flat_map(|v| v.to_le_bytes()).collect()
}

/// A satellite 20,000 to 40,000 km from the middle of the Earth, and an antenna on it, near enough.
fn as_in_orbit(seeded: &mut Seeded) -> [f64; 6] {
    let mut six = [0; 6];
    for (i, coordinate) in six.iter_mut().enumerate() {
        let most = if i < 3 { 23_000_000_000 } else { 3_680_000_000 };
        *coordinate = seeded.range(most / 2, most) * if seeded.below(2) == 0 { 1 } else { -1 };
    }
    six.map(|v| v as f64)
}

/// Ten pairs of points for each block, as in orbit and all over the range, and such as are refused.
pub fn run(count: usize, number: usize, seeded: &mut Seeded) {
    let orbits: Vec<Vec<u8>> = (0..number).map(|_| bytes(as_in_orbit(seeded))).collect();
    let any = |seeded: &mut Seeded| std::array::from_fn(|_| seeded.spread(MOST as i64) as f64);
    let anywhere: Vec<Vec<u8>> = (0..number).map(|_| bytes(any(seeded))).collect();
    for (what, inputs) in [("of a satellite", &orbits), ("between any points", &anywhere)] {
        PATH.whole(count, what, 1, inputs, Some(0));
    }
    for (what, place, value, answer) in REFUSED {
        let spoil = |given: &Vec<u8>| {
            let mut six = coordinates(given);
            six[place] = value;
            bytes(six)
        };
        PATH.whole(count, what, 1, &orbits.iter().map(spoil).collect::<Vec<_>>(), Some(answer));
    }
}
