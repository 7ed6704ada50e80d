//! Stores of delays that are accepted, for tests and for measuring.

use crate::seeded::Seeded;
use crate::Delays;

/// The largest delay, to both sides of 0.
pub const MOST_DELAY: i64 = 10_000_000_000;

/// An entry: the MJD that it starts on, and its set.
pub type Entry = (u32, Delays);

/// How many delays an entry of this version has.
pub fn in_group(version: u16) -> usize {
    if version == 1 {
        3
    } else {
        4
    }
}

/// The bytes of a store, whatever its version and its entries are.
pub fn store_of(version: u16, entries: &[Entry]) -> Vec<u8> {
    let mut bytes = [version.to_le_bytes(), (entries.len() as u16).to_le_bytes()].concat();
    entries.iter().for_each(|(start, _)| bytes.extend(start.to_le_bytes()));
    for (_, set) in entries {
        let delays = [set.int, set.cab, set.refdly, set.gd];
        delays[..in_group(version)].iter().for_each(|delay| bytes.extend(delay.to_le_bytes()));
    }
    bytes
}

/// A delay of any size, now and then one at its limit.
pub fn any_delay(seeded: &mut Seeded) -> i64 {
    match seeded.below(8) {
        0 => seeded.pick(&[-MOST_DELAY, MOST_DELAY, 0, 1, -1]),
        _ => seeded.spread(MOST_DELAY),
    }
}

/// A set that a store of this version can have.
pub fn any_set(version: u16, seeded: &mut Seeded) -> Delays {
    let gd = any_delay(seeded);
    let gd = if version == 1 { 0 } else { gd };
    Delays { int: any_delay(seeded), cab: any_delay(seeded), refdly: any_delay(seeded), gd }
}

/// So many entries whose starts rise from about a date on, by 1 to `step` each; the least start is 0, and the greatest can be the
/// last of 32 bits.
pub fn entries_from(first: u32, count: usize, step: u32, version: u16, seeded: &mut Seeded) -> Vec<Entry> {
    let highest = u32::MAX - (count as u32).saturating_mul(step);
    let mut start = first.min(highest);
    let mut entries = Vec::with_capacity(count);
    for _ in 0..count {
        entries.push((start, any_set(version, seeded)));
        start += 1 + seeded.below(u64::from(step)) as u32;
    }
    entries
}

/// Entries of any version at any dates: few days or many years apart, at either end of 32 bits too.
pub fn any_entries(count: usize, version: u16, seeded: &mut Seeded) -> Vec<Entry> {
    let any = seeded.bits() as u32;
    let first = seeded.pick(&[0, 1, 50_722, 59_000, 61_000, u32::MAX, any]);
    let step = seeded.pick(&[1, 2, 40, 400, 70_000]);
    entries_from(first, count, step, version, seeded)
}
