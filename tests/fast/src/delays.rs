//! Delays by date: the tests run over whole rows without a branch for each number, and nothing is copied twice.

use crate::beyond;
use reference::{Delays, MOST_ENTRIES, SET_VALUES};

const DELAY_LIMIT: i64 = 10_000_000_000;

struct Store<'a> {
    version: u16,
    starts: &'a [[u8; 4]],
    delays: &'a [[u8; 8]],
    /// delays of an entry
    in_group: usize,
}

/// Every start is later than the one before it.
#[inline(always)]
fn rises(starts: &[[u8; 4]]) -> bool {
    let later = starts.get(1..).unwrap_or_default();
    let falls = |(before, start): (&[u8; 4], &[u8; 4])| u32::from_le_bytes(*before) >= u32::from_le_bytes(*start);
    !starts.iter().zip(later).fold(false, |found, pair| found | falls(pair))
}

#[inline(always)]
fn delays_fit(delays: &[[u8; 8]]) -> bool {
    !delays.iter().fold(false, |found, delay| found | beyond(i64::from_le_bytes(*delay), DELAY_LIMIT))
}

/// The parts of a store, or 20.
#[inline(always)]
fn judged(bytes: &[u8]) -> Result<Store<'_>, u32> {
    let (&[low, high, count_low, count_high], entries) = bytes.split_first_chunk().ok_or(20u32)?;
    let version = u16::from_le_bytes([low, high]);
    let count = usize::from(u16::from_le_bytes([count_low, count_high]));
    let in_group = match version {
        1 => 3,
        2 => 4,
        _ => return Err(20),
    };
    if count > MOST_ENTRIES || entries.len() != (4 + 8 * in_group) * count {
        return Err(20);
    }
    let (starts, delays) = entries.split_at(4 * count);
    let store = Store { version, starts: starts.as_chunks().0, delays: delays.as_chunks().0, in_group };
    if !rises(store.starts) || !delays_fit(store.delays) {
        return Err(20);
    }
    Ok(store)
}

/// INT, CAB, REF and GD in force on a date into the first four of the lent values and 0, or the refusal and none.
pub fn lookup_values(store: &[u8], mjd: u32, lent: &mut [i64]) -> u32 {
    let store = match judged(store) {
        Ok(store) => store,
        Err(refusal) => return refusal,
    };
    let behind = store.starts.partition_point(|start| u32::from_le_bytes(*start) <= mjd);
    let Some(entry) = behind.checked_sub(1) else {
        return 21;
    };
    let Some(place) = lent.first_chunk_mut::<SET_VALUES>() else {
        return 9;
    };
    let group = &store.delays[store.in_group * entry..][..store.in_group];
    let delay = |i: usize| group.get(i).map_or(0, |delay| i64::from_le_bytes(*delay));
    *place = [delay(0), delay(1), delay(2), delay(3)];
    0
}

/// Writes the store with one entry more and says how many bytes it has, or gives the refusal and writes nothing.
pub fn append(store: &[u8], mjd: u32, set: &Delays, lent: &mut [u8]) -> Result<usize, u32> {
    let Store { version, starts, delays, in_group } = judged(store)?;
    let set = [set.int, set.cab, set.refdly, set.gd];
    if set.iter().any(|delay| beyond(*delay, DELAY_LIMIT)) || version == 1 && set[3] != 0 {
        return Err(20);
    }
    if starts.last().is_some_and(|last| mjd <= u32::from_le_bytes(*last)) || starts.len() == MOST_ENTRIES {
        return Err(22);
    }
    let length = store.len() + 4 + 8 * in_group;
    let place = lent.get_mut(..length).ok_or(9u32)?;
    let (head, entries) = place.split_at_mut(4);
    head[..2].copy_from_slice(&version.to_le_bytes());
    head[2..].copy_from_slice(&(starts.len() as u16 + 1).to_le_bytes());
    let (dates, groups) = entries.split_at_mut(4 * (starts.len() + 1));
    let (old, new) = dates.split_at_mut(4 * starts.len());
    old.copy_from_slice(starts.as_flattened());
    new.copy_from_slice(&mjd.to_le_bytes());
    let (old, new) = groups.split_at_mut(8 * delays.len());
    old.copy_from_slice(delays.as_flattened());
    new.as_chunks_mut().0.iter_mut().zip(set).for_each(|(place, delay)| *place = delay.to_le_bytes());
    Ok(length)
}
