//! Labels, numbers and comments that a line can hold, by a seed: the ends of their ranges come more often.

use crate::seeded::Seeded;
use crate::{Labels, Numbers, BLOCK_SECONDS, FIRST_MJD, LAST_MJD, LEAST_BLOCKS, MOST_BLOCKS};

/// The second of that day at which track i starts. There are 89: the place of a ninetieth stays empty.
pub fn track_start(mjd: u32, i: i64) -> u32 {
    let days_on = i64::from(mjd) - i64::from(FIRST_MJD);
    60 * (2 + 16 * (i - 1) - 4 * days_on).rem_euclid(1436) as u32
}

/// A second of that day at which one of the 89 tracks starts.
pub fn a_start(seeded: &mut Seeded, mjd: u32) -> u32 {
    track_start(mjd, seeded.range(1, 89))
}

fn issues(constellation: u8) -> (i64, i64) {
    match constellation {
        b'R' => (1, 96),
        b'C' => (0, 23),
        b'E' => (0, 999),
        _ => (0, 255),
    }
}

/// One of the two ends of a range, or a number in it.
fn in_range(seeded: &mut Seeded, low: i64, high: i64) -> i64 {
    match seeded.below(8) {
        0 => low,
        1 => high,
        _ => seeded.range(low, high),
    }
}

pub fn good_labels(seeded: &mut Seeded) -> Labels {
    const CODE: &[u8; 36] = b"ABCDEFGHIJKLMNOPQRSTUVWXYZ0123456789";
    let constellation = seeded.pick(b"GRECJ");
    let mjd = in_range(seeded, FIRST_MJD.into(), LAST_MJD.into()) as u32;
    let (low, high) = issues(constellation);
    Labels {
        constellation,
        satellite: in_range(seeded, 1, 99) as u8,
        cl: in_range(seeded, 0, 255) as u8,
        fr: if constellation == b'R' { in_range(seeded, 1, 24) as u8 } else { 0 },
        hc: in_range(seeded, 0, 99) as u8,
        frc: [seeded.pick(CODE), seeded.pick(CODE), seeded.pick(CODE)],
        mjd,
        start: a_start(seeded, mjd),
        elv: in_range(seeded, 0, 900) as u16,
        azth: in_range(seeded, 0, 3599) as u16,
        ioe: in_range(seeded, low, high) as u16,
    }
}

/// A number of blocks that a track may have.
pub fn good_blocks(seeded: &mut Seeded) -> usize {
    in_range(seeded, LEAST_BLOCKS as i64, MOST_BLOCKS as i64) as usize
}

pub fn good_numbers(seeded: &mut Seeded) -> Numbers {
    let trkl = (BLOCK_SECONDS * good_blocks(seeded)) as i64;
    let mut signed = |limit: i64| match seeded.below(8) {
        0 => limit,
        1 => -limit,
        2 => 0,
        _ => seeded.spread(limit),
    };
    let (refsv, refsys) = (signed(9_999_999_999), signed(9_999_999_999));
    let (srsv, srsys) = (signed(99_999), signed(99_999));
    let (smdt, smdi) = (signed(999), signed(999));
    let (mdtr, mdio, dsg) = (signed(9999).abs(), signed(9999).abs(), signed(9999).abs());
    Numbers { refsv, srsv, refsys, srsys, mdtr, smdt, mdio, smdi, dsg, trkl }
}

/// A comment of so many characters, the first and the last of those that are allowed more often.
pub fn good_comment(seeded: &mut Seeded, length: usize) -> Vec<u8> {
    (0..length).map(|_| in_range(seeded, 0x20, 0x7E) as u8).collect()
}
