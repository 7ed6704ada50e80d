//! Delays by date: a store of sets of delays, each in force from its own MJD on until the next one starts.

use crate::track::{Delays, CORRECTION_LIMIT};
use crate::within;

/// As many entries as a store has at most.
pub const MOST_ENTRIES: usize = 1000;
/// A set as C gets it: INT, CAB, REF and GD.
pub const SET_VALUES: usize = 4;

/// Bytes of version and count together, of a starting MJD, and of a delay.
const HEAD: usize = 4;
const START: usize = 4;
const DELAY: usize = 8;

/// The parts of a store that is accepted. `groups` has `in_group` delays an entry.
struct Store<'a> {
    version: u16,
    count: usize,
    starts: &'a [u8],
    groups: &'a [u8],
    in_group: usize,
}

fn start_in(bytes: &[u8]) -> u32 {
    u32::from_le_bytes(bytes.try_into().expect("four bytes"))
}

fn delay_in(bytes: &[u8]) -> i64 {
    i64::from_le_bytes(bytes.try_into().expect("eight bytes"))
}

impl Store<'_> {
    fn starts(&self) -> impl DoubleEndedIterator<Item = u32> + ExactSizeIterator + '_ {
        self.starts.chunks_exact(START).map(start_in)
    }

    /// Every start is later than the one before it.
    fn rises(&self) -> bool {
        self.starts().zip(self.starts().skip(1)).all(|(before, start)| before < start)
    }

    fn delays_fit(&self) -> bool {
        self.groups.chunks_exact(DELAY).all(|delay| within(delay_in(delay), CORRECTION_LIMIT))
    }

    /// The set of an entry, counted from 0.
    fn set(&self, entry: usize) -> Delays {
        let from = DELAY * self.in_group * entry;
        let delay = |place: usize| delay_in(&self.groups[from + DELAY * place..][..DELAY]);
        let gd = if self.version == 1 { 0 } else { delay(3) };
        Delays { int: delay(0), cab: delay(1), refdly: delay(2), gd }
    }
}

/// Bytes of a store with so many entries of so many delays each.
fn store_bytes(count: usize, in_group: usize) -> usize {
    HEAD + (START + DELAY * in_group) * count
}

/// The parts of a store, or 20.
fn judged(bytes: &[u8]) -> Result<Store<'_>, u32> {
    let &[low, high, count_low, count_high, ref entries @ ..] = bytes else {
        return Err(20);
    };
    let version = u16::from_le_bytes([low, high]);
    let count = usize::from(u16::from_le_bytes([count_low, count_high]));
    let in_group = match version {
        1 => 3,
        2 => 4,
        _ => return Err(20),
    };
    if count > MOST_ENTRIES || bytes.len() != store_bytes(count, in_group) {
        return Err(20);
    }
    let (starts, groups) = entries.split_at(START * count);
    let store = Store { version, count, starts, groups, in_group };
    if !store.rises() || !store.delays_fit() {
        return Err(20);
    }
    Ok(store)
}

/// The set in force on a date: that of the latest start not after it. 20 for the store, then 21 where there is none.
pub fn lookup(store: &[u8], mjd: u32) -> Result<Delays, u32> {
    let store = judged(store)?;
    let entry = store.starts().rposition(|start| start <= mjd).ok_or(21u32)?;
    Ok(store.set(entry))
}

/// The same as C calls it: 0 and the first four of the lent values written, or the refusal and none. 9, for fewer than
/// four, comes after every other refusal.
pub fn lookup_values(store: &[u8], mjd: u32, lent: &mut [i64]) -> u32 {
    let Delays { int, cab, refdly, gd } = match lookup(store, mjd) {
        Ok(set) => set,
        Err(refusal) => return refusal,
    };
    if lent.len() < SET_VALUES {
        return 9;
    }
    lent[..SET_VALUES].copy_from_slice(&[int, cab, refdly, gd]);
    0
}

/// The bytes of a store with one entry more, of the same version.
fn longer(store: &Store, mjd: u32, set: &Delays) -> Vec<u8> {
    let mut bytes = Vec::with_capacity(store_bytes(store.count + 1, store.in_group));
    bytes.extend(store.version.to_le_bytes());
    bytes.extend((store.count as u16 + 1).to_le_bytes());
    bytes.extend(store.starts);
    bytes.extend(mjd.to_le_bytes());
    bytes.extend(store.groups);
    let set = [set.int, set.cab, set.refdly, set.gd];
    set[..store.in_group].iter().for_each(|delay| bytes.extend(delay.to_le_bytes()));
    bytes
}

/// Writes the store with one entry more to the first bytes of the lent ones and says how many bytes it has, or gives the
/// refusal and writes nothing: 20 for the store or the new set, then 22, then 9 where what is lent is too short.
pub fn append(store: &[u8], mjd: u32, set: &Delays, lent: &mut [u8]) -> Result<usize, u32> {
    let store = judged(store)?;
    let fits = [set.int, set.cab, set.refdly, set.gd].iter().all(|delay| within(*delay, CORRECTION_LIMIT));
    if !fits || store.version == 1 && set.gd != 0 {
        return Err(20);
    }
    if store.starts().next_back().is_some_and(|last| mjd <= last) || store.count == MOST_ENTRIES {
        return Err(22);
    }
    let bytes = longer(&store, mjd, set);
    if lent.len() < bytes.len() {
        return Err(9);
    }
    lent[..bytes.len()].copy_from_slice(&bytes);
    Ok(bytes.len())
}
