//! Path: the straight length between satellite and antenna in whole millimetres.

/// Three coordinates in millimetres.
#[derive(Clone, Copy, Debug)]
pub struct Point {
    pub x: f64,
    pub y: f64,
    pub z: f64,
}

/// The largest coordinate, to either side of 0.
pub const MOST_COORDINATE: i128 = 50_000_000_000;

/// The whole number that a float is, or nothing where it is none. A number that does not fit stands as the largest of its sign.
fn whole(coordinate: f64) -> Option<i128> {
    let bits = coordinate.to_bits();
    let (field, fraction) = (bits >> 52 & 0x7FF, i128::from(bits & ((1 << 52) - 1)));
    // the float is its significand times two to the power
    let (significand, power) = match field {
        0x7FF => return None,
        0 => (fraction, -1074),
        _ => (fraction + (1 << 52), field as i32 - 1075),
    };
    let magnitude = if significand == 0 {
        0
    } else if power >= 0 {
        if power > 70 {
            i128::MAX
        } else {
            significand << power
        }
    } else if significand.trailing_zeros() as i32 >= -power {
        significand >> -power
    } else {
        return None;
    };
    Some(if bits >> 63 == 0 { magnitude } else { -magnitude })
}

/// The greatest whole number whose square is not above this, found bit by bit. The sum is at most 3 × 10^22, and so its root under 2^38.
fn root(sum: u128) -> u64 {
    let mut length = 0u64;
    for bit in (0..38).rev() {
        let longer = length | 1 << bit;
        if u128::from(longer) * u128::from(longer) <= sum {
            length = longer;
        }
    }
    length
}

/// Path: the length, or 23 or 24.
pub fn path(satellite: Point, antenna: Point) -> Result<f64, u32> {
    let given = [satellite.x, satellite.y, satellite.z, antenna.x, antenna.y, antenna.z];
    let mut numbers = [0; 6];
    for (number, coordinate) in numbers.iter_mut().zip(given) {
        *number = whole(coordinate).ok_or(23u32)?;
    }
    if numbers.iter().any(|number| !(-MOST_COORDINATE..=MOST_COORDINATE).contains(number)) {
        return Err(24);
    }
    let square = |i: usize| numbers[i].abs_diff(numbers[i + 3]).pow(2);
    let sum = square(0) + square(1) + square(2);
    // below 2^53, so that no float rounds it
    Ok(root(sum) as f64)
}
