//! Block: a hire block's bytes to a line.

use crate::fit::{blocks_fit, MOST_BLOCKS};
use crate::line::{line, Labels};
use crate::track::{track, Columns, Delays, Record, BLOCK_SECONDS, MOST_SECONDS};

/// Bytes of a hire block of n blocks of 15 seconds: sizes, labels and delays, the measurements, the corrections.
pub const fn block_bytes(n: usize) -> usize {
    corrections_at(n) + 40 * n
}

/// Where the corrections begin.
const fn corrections_at(n: usize) -> usize {
    58 + 8 * BLOCK_SECONDS * n
}

/// A part of the block, little-endian, of the width that is asked for.
fn part<const N: usize>(block: &[u8], at: usize) -> [u8; N] {
    block[at..at + N].try_into().expect("a slice of N bytes")
}

fn u16_at(block: &[u8], at: usize) -> u16 {
    u16::from_le_bytes(part(block, at))
}

fn u32_at(block: &[u8], at: usize) -> u32 {
    u32::from_le_bytes(part(block, at))
}

fn i64_at(block: &[u8], at: usize) -> i64 {
    i64::from_le_bytes(part(block, at))
}

pub(crate) fn labels(block: &[u8]) -> Labels {
    Labels {
        constellation: block[4],
        satellite: block[5],
        cl: block[6],
        fr: block[7],
        hc: block[8],
        frc: part(block, 9),
        mjd: u32_at(block, 12),
        start: u32_at(block, 16),
        elv: u16_at(block, 20),
        azth: u16_at(block, 22),
        ioe: u16_at(block, 24),
    }
}

fn delays(block: &[u8]) -> Delays {
    Delays { int: i64_at(block, 26), cab: i64_at(block, 34), refdly: i64_at(block, 42), gd: i64_at(block, 50) }
}

/// The measurements of n blocks.
#[inline(always)]
fn measurements(block: &[u8], n: usize) -> [i64; MOST_SECONDS] {
    let mut measurements = [0; MOST_SECONDS];
    let (numbers, _) = block[58..corrections_at(n)].as_chunks();
    measurements.iter_mut().zip(numbers).for_each(|(m, number)| *m = i64::from_le_bytes(*number));
    measurements
}

/// One of the five corrections of each of n groups.
#[inline(always)]
fn column(block: &[u8], n: usize, which: usize) -> [i64; MOST_BLOCKS] {
    let mut column = [0; MOST_BLOCKS];
    let (groups, _) = block[corrections_at(n)..].as_chunks::<40>();
    column.iter_mut().zip(groups).for_each(|(v, group)| *v = i64_at(group, 8 * which));
    column
}

/// 11 under 4 bytes, 1 for sizes that are not 15n and n; else n.
pub(crate) fn sizes(block: &[u8]) -> Result<usize, u32> {
    if block.len() < 4 {
        return Err(11);
    }
    let (seconds, n) = (usize::from(u16_at(block, 0)), usize::from(u16_at(block, 2)));
    if !blocks_fit(n) || seconds != BLOCK_SECONDS * n {
        return Err(1);
    }
    Ok(n)
}

/// What the sizes are refused for, then 11 for a length that is not theirs; else n.
fn admit(block: &[u8]) -> Result<usize, u32> {
    let n = sizes(block)?;
    if block.len() != block_bytes(n) {
        return Err(11);
    }
    Ok(n)
}

/// Track of the numbers of n blocks.
#[inline(always)]
fn track_of(block: &[u8], n: usize) -> Result<Record, u32> {
    let columns = Columns {
        geometry: &column(block, n, 0)[..n],
        relativity: &column(block, n, 1)[..n],
        ionosphere: &column(block, n, 2)[..n],
        troposphere: &column(block, n, 3)[..n],
        clock: &column(block, n, 4)[..n],
    };
    track(&measurements(block, n)[..BLOCK_SECONDS * n], &delays(block), &columns)
}

/// Block: the line of a hire block into the lent line and 0, or the refusal and nothing written.
pub fn block(block: &[u8], lent: &mut [u8]) -> u32 {
    // a full block's lengths and offsets are constants to the compiler
    let tracked = match admit(block) {
        Ok(MOST_BLOCKS) => track_of(block, MOST_BLOCKS),
        Ok(n) => track_of(block, n),
        Err(refusal) => return refusal,
    };
    match tracked {
        Ok(record) => line(&labels(block), &record.numbers, lent),
        Err(refusal) => refusal,
    }
}
