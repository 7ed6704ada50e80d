//! Block and Line.

use crate::labels::in_range;
use crate::start::is_start;
use crate::text::{ended_line, Ended};
use crate::track::{check_fits, track};
use reference::{block_bytes, Labels, Numbers, BLOCK_SECONDS, LEAST_BLOCKS, LINE_BYTES, MOST_BLOCKS};

const FULL: usize = block_bytes(MOST_BLOCKS);

/// 11 under 4 bytes, 1 for sizes that are not 15n and n with n from 4 to 52; else n.
#[inline(always)]
pub fn sizes(bytes: &[u8]) -> Result<usize, u32> {
    let Some(&[a, b, c, d]) = bytes.first_chunk() else {
        return Err(11);
    };
    let (seconds, n) = (usize::from(u16::from_le_bytes([a, b])), usize::from(u16::from_le_bytes([c, d])));
    if n.wrapping_sub(LEAST_BLOCKS) > MOST_BLOCKS - LEAST_BLOCKS || seconds != BLOCK_SECONDS * n {
        return Err(1);
    }
    Ok(n)
}

#[inline(always)]
fn labels(head: &[u8; 26]) -> Labels {
    let two = |at: usize| u16::from_le_bytes([head[at], head[at + 1]]);
    let four = |at: usize| u32::from_le_bytes([head[at], head[at + 1], head[at + 2], head[at + 3]]);
    Labels {
        constellation: head[4],
        satellite: head[5],
        cl: head[6],
        fr: head[7],
        hc: head[8],
        frc: [head[9], head[10], head[11]],
        mjd: four(12),
        start: four(16),
        elv: two(20),
        azth: two(22),
        ioe: two(24),
    }
}

/// Labels and ten numbers of a block of n that has as many bytes, or its refusal but 9. A full block's sizes and divisors are constants
/// to the compiler.
#[inline(always)]
pub fn accepted(block: &[u8], n: usize) -> Result<(Labels, Numbers), u32> {
    let numbers = match block.first_chunk::<FULL>() {
        Some(full) if n == MOST_BLOCKS => track(full, MOST_BLOCKS)?,
        _ => short(block, n)?,
    };
    let labels = labels(block.first_chunk().expect("longer than its labels"));
    if !in_range(&labels) {
        return Err(7);
    }
    if !is_start(labels.mjd, labels.start) {
        return Err(8);
    }
    Ok((labels, numbers))
}

#[inline(never)]
fn short(block: &[u8], n: usize) -> Result<Numbers, u32> {
    track(block, n)
}

/// The line that a block is, or its refusal but 9.
fn made(block: &[u8]) -> Result<Ended, u32> {
    let n = sizes(block)?;
    if block.len() != block_bytes(n) {
        return Err(11);
    }
    let (labels, numbers) = accepted(block, n)?;
    Ok(ended_line(&labels, &numbers))
}

/// Writes the line where there is room for it, and answers 0, or 9.
#[inline(always)]
fn put(line: &Ended, lent: &mut [u8]) -> u32 {
    let Some(place) = lent.first_chunk_mut::<LINE_BYTES>() else {
        return 9;
    };
    place.copy_from_slice(&line[..LINE_BYTES]);
    0
}

/// Block: the line of a hire block into the lent line and 0, or the refusal and nothing written.
pub fn block(block: &[u8], lent: &mut [u8]) -> u32 {
    made(block).map_or_else(|refusal| refusal, |line| put(&line, lent))
}

/// The track length is that of 4 to 52 blocks.
#[inline(always)]
pub fn length_fits(trkl: i64) -> bool {
    (trkl % 15 == 0) & ((60..=780).contains(&trkl))
}

/// Line: labels and ten numbers as a line.
pub fn line(labels: &Labels, numbers: &Numbers, lent: &mut [u8]) -> u32 {
    if !in_range(labels) | !length_fits(numbers.trkl) {
        return 7;
    }
    if !is_start(labels.mjd, labels.start) {
        return 8;
    }
    if let Err(refusal) = check_fits(numbers) {
        return refusal;
    }
    if numbers.dsg as u64 > 9999 {
        return 6;
    }
    if lent.len() < LINE_BYTES {
        return 9;
    }
    put(&ended_line(labels, numbers), lent)
}
