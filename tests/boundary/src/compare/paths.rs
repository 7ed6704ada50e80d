//! The length of a path.

use super::{Compare, NOTHING};
use crate::library;
use reference::Point;

/// A length in millimetres, or the refusal.
pub type Length = Result<f64, u32>;

impl Compare {
    /// Path, of the satellite's coordinates and the antenna's. Gives what the archive answers; lengths are compared by their bits.
    pub fn path(&mut self, family: &str, six: [f64; 6]) -> Length {
        let [xs, ys, zs, xa, ya, za] = six;
        let wanted = reference::path(Point { x: xs, y: ys, z: zs }, Point { x: xa, y: ya, z: za });
        self.fast(family, wanted.map(f64::to_bits), fast::path(six).map(f64::to_bits), &NOTHING);
        // three numbers, of which the middle one is lent
        let before = f64::from_bits(self.seeded.bits());
        let mut lent = [before; 3];
        let answer = library::path(six, &mut lent[1]);
        let number = wanted.err().unwrap_or(0);
        *self.answers.entry(("path", number)).or_default() += 1;
        let left = [before, wanted.unwrap_or(before), before];
        if answer != number || lent.map(f64::to_bits) != left.map(f64::to_bits) {
            let bits = six.map(|v| format!("{:016X}", v.to_bits()));
            let lengths = format!("  lent: should be {left:?}, was {lent:?}");
            self.show(family, &(six, bits), number, answer, Some(lengths));
        }
        if answer == 0 {
            Ok(lent[1])
        } else {
            Err(answer)
        }
    }
}
