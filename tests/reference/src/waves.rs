//! Waves along n values that no line follows: their sum and their sum times place are 0, and for n from 4 up the sum of their
//! squares is 4n, so that 250(2d - 1) times as much, in tenths of a ps, is a threshold of DSG to the last.

/// Parts that make up a wave of n values, each with sum and sum times place 0; zeros fill the rest.
pub fn parts(n: usize) -> Vec<&'static [i64]> {
    let last: &[&[i64]] = match n % 4 {
        0 => &[&[2, -2, -2, 2]],              // 16
        1 => &[&[1, -3, 3, -1], &[0]],        // 20
        2 => &[&[2, -4, 2], &[0, 0, 0]],      // 24
        _ => &[&[1, -1, -1, 1], &[2, -4, 2]], // 28
    };
    let mut parts: Vec<&[i64]> = vec![&[2, -2, -2, 2]; n / 4 - 1];
    parts.extend(last);
    parts
}

/// The parts one after the other.
pub fn wave(n: usize) -> Vec<i64> {
    parts(n).concat()
}
