//! Delays by date by hand: the bytes of a store, which set is in force, what an append writes, what is refused and in which
//! order.

use crate::{append, lookup, lookup_values, Delays};

const LIMIT: i64 = 10_000_000_000;

fn set(int: i64, cab: i64, refdly: i64, gd: i64) -> Delays {
    Delays { int, cab, refdly, gd }
}

/// Two entries of version 1, byte by byte: from 50722 (C622 hexadecimal) on 1, 2, 3, and from 61000 (EE48) on -1, 256, 0.
#[rustfmt::skip]
const FIRST: [u8; 60] = [
    1, 0, 2, 0,
    0x22, 0xC6, 0, 0, 0x48, 0xEE, 0, 0,
    1, 0, 0, 0, 0, 0, 0, 0, 2, 0, 0, 0, 0, 0, 0, 0, 3, 0, 0, 0, 0, 0, 0, 0,
    255, 255, 255, 255, 255, 255, 255, 255, 0, 1, 0, 0, 0, 0, 0, 0, 0, 0, 0, 0, 0, 0, 0, 0,
];
/// One entry of version 2: from 7 on -2, 10^10 (2540BE400), 5, 4.
#[rustfmt::skip]
const SECOND: [u8; 40] = [
    2, 0, 1, 0,
    7, 0, 0, 0,
    254, 255, 255, 255, 255, 255, 255, 255, 0x00, 0xE4, 0x0B, 0x54, 2, 0, 0, 0, 5, 0, 0, 0, 0, 0, 0, 0, 4, 0, 0, 0, 0, 0, 0, 0,
];
const NONE: [u8; 4] = [2, 0, 0, 0];

/// The same with other bytes from a place on.
fn with(store: &[u8], at: usize, bytes: &[u8]) -> Vec<u8> {
    let mut changed = store.to_vec();
    changed[at..at + bytes.len()].copy_from_slice(bytes);
    changed
}

/// So many entries of no delay, from 1 on a day each.
fn days(version: u8, count: u16) -> Vec<u8> {
    let mut store = vec![version, 0];
    store.extend(count.to_le_bytes());
    (1..=u32::from(count)).for_each(|day| store.extend(day.to_le_bytes()));
    store.resize(store.len() + usize::from(count) * if version == 1 { 24 } else { 32 }, 0);
    store
}

#[test]
fn sets_in_force() {
    for (mjd, wanted) in [
        (0, Err(21)),
        (50_721, Err(21)),
        (50_722, Ok(set(1, 2, 3, 0))),
        (60_999, Ok(set(1, 2, 3, 0))),
        (61_000, Ok(set(-1, 256, 0, 0))),
        (u32::MAX, Ok(set(-1, 256, 0, 0))),
    ] {
        assert_eq!(lookup(&FIRST, mjd), wanted, "{mjd}");
    }
    assert_eq!(lookup(&SECOND, 6), Err(21));
    assert_eq!(lookup(&SECOND, 7), Ok(set(-2, LIMIT, 5, 4)));
    assert_eq!(lookup(&NONE, u32::MAX), Err(21));
    assert_eq!(lookup(&[1, 0, 0, 0], 0), Err(21));
}

#[test]
fn stores_refused() {
    for store in [
        &[][..],
        &[2],
        &[2, 0, 0],
        &[0, 0, 0, 0],
        &[3, 0, 0, 0],
        &[0, 2, 0, 0],
        &[2, 1, 0, 0],
        &FIRST[..59],
        &FIRST[..4],
        &[&FIRST[..], &[0]].concat(),
        &with(&FIRST, 0, &[2]),
        &with(&FIRST, 2, &[1]),
        &with(&FIRST, 2, &[3]),
        &with(&FIRST, 8, &[0x22, 0xC6]),
        &with(&FIRST, 8, &[0x21, 0xC6]),
        &with(&SECOND, 16, &[1]),
        &with(&SECOND, 16, &[0xFF, 0x1B, 0xF4, 0xAB, 0xFD, 0xFF, 0xFF, 0xFF]),
        &with(&SECOND, 39, &[0x80]),
    ] {
        assert_eq!(lookup(store, 61_000), Err(20), "{store:?}");
        assert_eq!(lookup(store, 0), Err(20), "{store:?}");
        assert_eq!(append(store, 0, &set(0, 0, 0, 0), &mut []), Err(20), "{store:?}");
    }
    // minus 10^10 itself is a delay
    let lowest = with(&SECOND, 16, &[0x00, 0x1C, 0xF4, 0xAB, 0xFD, 0xFF, 0xFF, 0xFF]);
    assert_eq!(lookup(&lowest, 7), Ok(set(-2, -LIMIT, 5, 4)));
}

#[test]
fn a_thousand_and_one_more() {
    for version in [1, 2] {
        assert_eq!(lookup(&days(version, 1000), 1000), Ok(set(0, 0, 0, 0)));
        assert_eq!(lookup(&days(version, 1001), 1000), Err(20));
        let mut lent = vec![7; 40_000];
        assert_eq!(append(&days(version, 999), 1000, &set(0, 0, 0, 0), &mut lent), Ok(days(version, 1000).len()));
        assert_eq!(lent[..days(version, 1000).len()], days(version, 1000));
        assert_eq!(append(&days(version, 1000), 1001, &set(0, 0, 0, 0), &mut lent), Err(22));
        assert_eq!(append(&days(version, 1001), 1002, &set(0, 0, 0, 0), &mut lent), Err(20));
    }
}

#[test]
fn appended_by_hand() {
    let one = [&[1, 0, 1, 0], &FIRST[4..8], &FIRST[12..36]].concat();
    let mut lent = [7; 62];
    assert_eq!(append(&one, 61_000, &set(-1, 256, 0, 0), &mut lent), Ok(60));
    assert_eq!(lent[..60], FIRST);
    assert_eq!(lent[60..], [7, 7]);
    let mut exact = [7; 40];
    assert_eq!(append(&NONE, 7, &set(-2, LIMIT, 5, 4), &mut exact), Ok(40));
    assert_eq!(exact, SECOND);
    assert_eq!(append(&NONE, 0, &set(0, 0, 0, -LIMIT), &mut exact), Ok(40));
}

#[test]
fn appends_refused() {
    let mut short = [7; 39];
    assert_eq!(append(&NONE, 7, &set(1, 2, 3, 4), &mut short), Err(9));
    assert_eq!(short, [7; 39]);
    let mut lent = [7; 200];
    for (mjd, new, wanted) in [
        (61_000, set(0, 0, 0, 0), 22),
        (0, set(0, 0, 0, 0), 22),
        (61_001, set(LIMIT + 1, 0, 0, 0), 20),
        (61_001, set(0, -LIMIT - 1, 0, 0), 20),
        (61_001, set(0, 0, i64::MIN, 0), 20),
        (61_001, set(0, 0, 0, i64::MAX), 20),
        (61_001, set(0, 0, 0, 1), 20),
        (61_000, set(0, 0, 0, -1), 20),
    ] {
        assert_eq!(append(&FIRST, mjd, &new, &mut lent), Err(wanted), "{mjd} {new:?}");
        assert_eq!(append(&FIRST, mjd, &new, &mut []), Err(wanted), "{mjd} {new:?}");
        assert_eq!(lent, [7; 200]);
    }
    assert_eq!(append(&FIRST, 61_001, &set(0, 0, 0, 0), &mut []), Err(9));
}

#[test]
fn lent_values() {
    for lent in 0..4 {
        let mut values = vec![9; lent];
        assert_eq!(lookup_values(&FIRST, 60_000, &mut values), 9);
        assert_eq!(lookup_values(&FIRST, 50_721, &mut values), 21);
        assert_eq!(lookup_values(&FIRST[1..], 60_000, &mut values), 20);
        assert_eq!(values, vec![9; lent]);
    }
    let mut values = [9; 5];
    assert_eq!(lookup_values(&FIRST, 50_721, &mut values), 21);
    assert_eq!(values, [9; 5]);
    assert_eq!(lookup_values(&SECOND, 8, &mut values), 0);
    assert_eq!(values, [-2, LIMIT, 5, 4, 9]);
}
