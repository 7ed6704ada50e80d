//! Faults that can be put into a good store of delays or into what is appended to it, each the cause of one refusal.

use crate::compare::Lent;
use crate::file_faults::{Pairs, Place};
use reference::good_stores::{any_delay, any_set, entries_from, in_group, store_of, Entry, MOST_DELAY};
use reference::seeded::Seeded;
use reference::{Delays, MOST_ENTRIES};
use Fault::{Beyond, Count, Early, Full, GroupDelay, Length, New, NotLater, Order, Short, Version};
use Place::{First, Last, Middle};

/// In the order in which they are tried; all up to Beyond are of the store.
#[derive(Clone, Copy, Debug, PartialEq, Eq, PartialOrd, Ord)]
pub enum Fault {
    Version,
    Count,
    Length,
    /// the start of an entry is not later than the one before it; the first that can is the second
    Order(Place),
    /// a delay of an entry, the first of its group or the last
    Beyond(Place, bool),
    /// a new delay, by its place in the group
    New(usize),
    /// a new GD other than 0 in version 1
    GroupDelay,
    /// no start is early enough
    Early,
    /// the new date is not later than the last
    NotLater,
    /// there are 1000 entries
    Full,
    /// what is lent
    Short,
}

impl Fault {
    pub fn number(self) -> u32 {
        match self {
            Early => 21,
            NotLater | Full => 22,
            Short => 9,
            _ => 20,
        }
    }
}

fn of_stores() -> Vec<Fault> {
    let mut all = vec![Version, Count, Length];
    all.extend([First, Middle, Last].map(Order));
    all.extend([First, Middle, Last].map(|place| Beyond(place, false)));
    all.extend([First, Middle, Last].map(|place| Beyond(place, true)));
    all
}

pub fn of_lookups() -> Vec<Fault> {
    let mut all = of_stores();
    all.extend([Early, Short]);
    all
}

pub fn of_appends() -> Vec<Fault> {
    let mut all = of_stores();
    all.extend([0, 1, 2, 3].map(New));
    all.extend([GroupDelay, NotLater, Full, Short]);
    all
}

/// Counts each two of some faults, and gives the number of the one that decides.
pub fn decided(faults: &[Fault], pairs: &mut Pairs<Fault>) -> u32 {
    let mut sorted = faults.to_vec();
    sorted.sort_unstable();
    for (i, decides) in sorted.iter().enumerate() {
        sorted[i + 1..].iter().for_each(|other| *pairs.entry((*decides, *other)).or_default() += 1);
    }
    sorted[0].number()
}

/// A store with faults, what is asked of it or appended to it, and what is lent.
pub struct Faulty {
    pub store: Vec<u8>,
    pub mjd: u32,
    pub set: Delays,
    pub lent: Lent,
}

/// The place of a faulty entry, counted from 0, among so many.
fn entry_of(place: Place, first: usize, count: usize) -> usize {
    match place {
        First => first,
        Middle => count / 2,
        Last => count - 1,
    }
}

/// A delay just beyond its limit, or far.
fn beyond(seeded: &mut Seeded) -> i64 {
    let far = seeded.spread(i64::MAX - MOST_DELAY - 1).abs() + MOST_DELAY + 1;
    seeded.pick(&[MOST_DELAY + 1, -MOST_DELAY - 1, i64::MAX, i64::MIN, far, -far])
}

/// The new date is not later than the last, or the one asked for is before the first.
fn date(faults: &[Fault], entries: &[Entry], seeded: &mut Seeded) -> u32 {
    let (first, last) = (entries[0].0, entries[entries.len() - 1].0);
    if faults.contains(&Early) {
        return seeded.pick(&[first - 1, 0]);
    }
    if faults.contains(&NotLater) {
        return seeded.pick(&[last, last - 1, first, 0]);
    }
    seeded.pick(&[last + 1, last + 2, u32::MAX])
}

fn spoil_entries(entries: &mut [Entry], faults: &[Fault], version: u16, seeded: &mut Seeded) {
    let count = entries.len();
    for fault in faults {
        match *fault {
            Order(place) => {
                let i = entry_of(place, 1, count);
                let before = entries[i - 1].0;
                entries[i].0 = seeded.pick(&[before, before.saturating_sub(1), 0]);
            }
            Beyond(place, last) => {
                let set = &mut entries[entry_of(place, 0, count)].1;
                let delay = beyond(seeded);
                match (last, in_group(version)) {
                    (false, _) => set.int = delay,
                    (true, 3) => set.refdly = delay,
                    (true, _) => set.gd = delay,
                }
            }
            _ => {}
        }
    }
}

fn spoil_bytes(store: &mut Vec<u8>, faults: &[Fault], seeded: &mut Seeded) {
    if faults.contains(&Version) {
        let other = seeded.pick(&[0, 3, 4, 255, 256, 257, 258, 512, 65_535_u16]);
        store[..2].copy_from_slice(&other.to_le_bytes());
    }
    if faults.contains(&Length) {
        let length = store.len();
        let entry = if store[0] == 1 { 28 } else { 36 };
        let other = seeded.pick(&[length - 1, length + 1, length - 4, length + 8, length - entry, length + entry, 4]);
        store.resize(other, 0);
    }
}

fn new_set(faults: &[Fault], version: u16, seeded: &mut Seeded) -> Delays {
    let mut set = any_set(version, seeded);
    if faults.contains(&GroupDelay) {
        let gd = any_delay(seeded);
        set.gd = if gd == 0 { -1 } else { gd };
    }
    for fault in faults {
        let delay = beyond(seeded);
        match fault {
            New(0) => set.int = delay,
            New(1) => set.cab = delay,
            New(2) => set.refdly = delay,
            New(_) => set.gd = delay,
            _ => {}
        }
    }
    set
}

/// A good store with these faults in it, for a lookup or for an append.
pub fn faulty(faults: &[Fault], append: bool, seeded: &mut Seeded) -> Faulty {
    let version = if faults.contains(&GroupDelay) { 1 } else { seeded.pick(&[1, 2]) };
    let any = 5 + seeded.below(20) as usize;
    let over = MOST_ENTRIES + 1 + seeded.below(3) as usize;
    let count = if faults.contains(&Count) { over } else { any };
    let count = if faults.contains(&Full) && !faults.contains(&Count) { MOST_ENTRIES } else { count };
    let mut entries = entries_from(seeded.pick(&[2, 50_722, 61_000]), count, 40, version, seeded);
    let mjd = date(faults, &entries, seeded);
    spoil_entries(&mut entries, faults, version, seeded);
    let set = new_set(faults, version, seeded);
    let enough = if append { 4 + (4 + 8 * in_group(version)) * (count + 1) } else { 4 };
    let mut store = store_of(version, &entries);
    spoil_bytes(&mut store, faults, seeded);
    let less = seeded.below(enough as u64) as usize;
    let short = seeded.pick(&[Lent::Null, Lent::Of(0), Lent::Of(enough - 1), Lent::Of(less)]);
    let whole = seeded.pick(&[Lent::Of(enough), Lent::Of(enough + 1), Lent::Of(enough + 40)]);
    Faulty { store, mjd, set, lent: if faults.contains(&Short) { short } else { whole } }
}
