//! The two ways between our lines and those of version 01.

use super::{as_text, Compare, Lent};
use crate::library::{self, Bytes, LentBytes};
use reference::{LINE_BYTES, OLD_BYTES};

/// The HC and the FRC that go up with a line.
pub type Supplied = (u8, [u8; 3]);

/// What was written, or the refusal.
pub type Written = Result<Vec<u8>, u32>;

/// One way: its name, how many bytes it writes, and its implementations.
struct Way<'a> {
    of: &'static str,
    bytes: usize,
    plain: &'a dyn Fn(&[u8], &mut [u8]) -> u32,
    fast: &'a dyn Fn(&[u8], &mut [u8]) -> u32,
    proved: &'a dyn Fn(Bytes, LentBytes) -> u32,
}

impl Compare {
    /// Gives what the archive wrote, or its refusal.
    fn way(&mut self, family: &str, way: &Way, line: Bytes, lent: Lent) -> Written {
        let (mut lines, at) = self.lines(lent);
        let (moved, shift) = self.moved(line);
        let handed = line.map(|_| &moved[shift..]);
        let wanted = (way.plain)(line.unwrap_or_default(), &mut lines.wanted[at.clone()]);
        let fast = (way.fast)(line.unwrap_or_default(), &mut lines.fast[at.clone()]);
        self.fast(family, wanted, fast, &lines);
        let lent_bytes = (lent != Lent::Null).then(|| &mut lines.got[at.clone()]);
        let got = (way.proved)(handed, lent_bytes);
        let intact = handed == line;
        self.count(way.of, lent, wanted);
        if wanted != got || !lines.agree(wanted) || !intact {
            let case =
                (way.of, line.map(as_text), line.map(<[u8]>::len), lent, if intact { "" } else { "line changed" });
            self.show(family, &case, wanted, got, lines.difference(as_text));
        }
        lines.got[at].get(..way.bytes).filter(|_| got == 0).map(<[u8]>::to_vec).ok_or(got)
    }

    pub fn down(&mut self, family: &str, line: Bytes, lent: Lent) -> Written {
        let (plain, fast, proved) = (&reference::down, &fast::down, &library::down);
        let way = Way { of: "down", bytes: OLD_BYTES, plain, fast, proved };
        self.way(family, &way, line, lent)
    }

    pub fn up(&mut self, family: &str, old: Bytes, (hc, frc): Supplied, lent: Lent) -> Written {
        let plain = |old: &[u8], lent: &mut [u8]| reference::up(old, hc, frc, lent);
        let fast = |old: &[u8], lent: &mut [u8]| fast::up(old, hc, frc, lent);
        let proved = |old: Bytes, lent: LentBytes| library::up(old, hc, frc, lent);
        let way = Way { of: "up", bytes: LINE_BYTES, plain: &plain, fast: &fast, proved: &proved };
        self.way(family, &way, old, lent)
    }
}
