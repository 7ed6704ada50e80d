//! A date looked up in a store of delays, and an entry appended: the archive beside plain Rust.

use crate::library;
use crate::timing::Pair;
use reference::good_stores::{entries_from, store_of};
use reference::seeded::Seeded;
use reference::{Delays, MOST_ENTRIES, SET_VALUES};

/// Starts are 1 to 40 days apart from this date on, so that about half of 1000 are before the date that is looked up.
const FIRST: u32 = 50_722;
const ASKED: u32 = FIRST + 10_000;
const LATER: u32 = FIRST + 50_000;
const NEW: Delays = Delays { int: 38_600, cab: 181_200, refdly: 76_300, gd: 0 };
const STORES: usize = 100;
const LONGEST_STORE: usize = 36_004;

// Never inlined and with plain names, so that valgrind can count what is inside.
#[inline(never)]
#[no_mangle]
fn speed_proved_delays(store: &[u8], lent: &mut [i64]) -> u32 {
    library::delays(Some(store), ASKED, Some(lent))
}

#[inline(never)]
#[no_mangle]
fn speed_plain_delays(store: &[u8], lent: &mut [i64]) -> u32 {
    fast::lookup_values(store, ASKED, lent)
}

#[inline(never)]
#[no_mangle]
fn speed_proved_append(store: &[u8], lent: &mut [u8]) -> u32 {
    let mut written = 0;
    library::append(Some(store), LATER, &NEW, Some(lent), &mut written)
}

#[inline(never)]
#[no_mangle]
fn speed_plain_append(store: &[u8], lent: &mut [u8]) -> u32 {
    fast::append(store, LATER, &NEW, lent).err().unwrap_or(0)
}

fn stores(version: u16, entries: usize, seeded: &mut Seeded) -> Vec<Vec<u8>> {
    (0..STORES).map(|_| store_of(version, &entries_from(FIRST, entries, 40, version, seeded))).collect()
}

pub fn run(count: usize, seeded: &mut Seeded) {
    let (proved, plain) = (speed_proved_delays, speed_plain_delays);
    let lookup = Pair { function: "trackline_delays", proved, plain, lent: SET_VALUES };
    let (proved, plain) = (speed_proved_append, speed_plain_append);
    let append = Pair { function: "trackline_append", proved, plain, lent: LONGEST_STORE };
    for version in [1, 2] {
        for entries in [10, MOST_ENTRIES] {
            let asked = stores(version, entries, seeded);
            let answer = (entries == MOST_ENTRIES).then_some(0);
            lookup.whole(count, &format!("version {version}, {entries} entries"), 1, &asked, answer);
        }
    }
    for version in [1, 2] {
        let entries = MOST_ENTRIES - 1;
        append.whole(count, &format!("version {version}, {entries} entries"), 1, &stores(version, entries, seeded), Some(0));
    }
}
