//! A day at once: one pass over the blocks, their lines in a Vec until all are accepted.

use crate::block::{accepted, sizes};
use crate::labels::keys;
use crate::text::ended_line;
use reference::{block_bytes, Offence, FILE_LINE_BYTES};

/// The first block with its sizes, and the bytes behind it; or what its sizes or its length are refused for.
#[inline(always)]
fn parted(rest: &[u8]) -> Result<(&[u8], usize, &[u8]), u32> {
    let n = sizes(rest)?;
    let (block, behind) = rest.split_at_checked(block_bytes(n)).ok_or(11u32)?;
    Ok((block, n, behind))
}

/// The lines of all blocks with their line ends, or the block that offends.
#[inline(always)]
fn lines(blocks: &[u8]) -> Result<Vec<u8>, Offence> {
    // as many lines as there are blocks of the first one's size, which is all where they are alike
    let likely = sizes(blocks).map_or(0, |n| blocks.len() / block_bytes(n));
    let mut lines = Vec::with_capacity(FILE_LINE_BYTES * likely);
    let (mut rest, mut last, mut count) = (blocks, 0, 0);
    while !rest.is_empty() {
        let offence = |number: u32| Offence { number, block: count };
        let (block, n, behind) = parted(rest).map_err(offence)?;
        let (labels, numbers) = accepted(block, n).map_err(offence)?;
        let next = keys(&labels);
        if next <= last {
            return Err(offence(16));
        }
        lines.extend_from_slice(&ended_line(&labels, &numbers));
        (rest, last, count) = (behind, next, count + 1);
    }
    Ok(lines)
}

/// Day: writes the lines of all blocks to the first bytes of the lent file and says how many bytes these are, or gives the first
/// block that offends and writes nothing.
pub fn day(blocks: &[u8], lent: &mut [u8]) -> Result<usize, Offence> {
    let lines = lines(blocks)?;
    let Some(place) = lent.get_mut(..lines.len()) else {
        return Err(Offence { number: 9, block: lines.len() / FILE_LINE_BYTES });
    };
    place.copy_from_slice(&lines);
    Ok(lines.len())
}
