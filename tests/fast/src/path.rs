//! Path: the root of a float, mended by 128-bit squares.

const MOST: f64 = 50_000_000_000.0;

/// Beside 2^52 a float has no digits behind the point; from there on floats are whole, infinities and what is no number apart.
#[inline(always)]
fn is_whole(v: f64) -> bool {
    const BESIDE: f64 = 4_503_599_627_370_496.0;
    let v = v.abs();
    if v < BESIDE {
        v + BESIDE - BESIDE == v
    } else {
        v.is_finite()
    }
}

/// The length between the satellite's three coordinates and the antenna's, or 23 or 24.
pub fn path(six: [f64; 6]) -> Result<f64, u32> {
    if !six.iter().all(|v| is_whole(*v)) {
        return Err(23);
    }
    if six.iter().any(|v| v.abs() > MOST) {
        return Err(24);
    }
    let squared = |v: u64| u128::from(v) * u128::from(v);
    let square = |i: usize| squared((six[i] as i64 - six[i + 3] as i64).unsigned_abs());
    let sum = square(0) + square(1) + square(2);
    let mut root = (sum as f64).sqrt() as u64;
    while squared(root) > sum {
        root -= 1;
    }
    while squared(root + 1) <= sum {
        root += 1;
    }
    Ok(root as f64)
}
