//! A day at once: hire blocks back to back to a line file.

use crate::block::{block, block_bytes, labels, sizes};
use crate::files::{keys, Keys, FILE_LINE_BYTES};
use crate::line::LINE_BYTES;

/// The block that offends, counted from 0, and its number. Where what is lent is too short, it is the number of blocks.
#[derive(Clone, Copy, Debug, PartialEq, Eq)]
pub struct Offence {
    pub number: u32,
    pub block: usize,
}

/// How many of the bytes are the first block: as many as its own sizes say, or all where they say nothing or there are fewer.
fn own_length(bytes: &[u8]) -> usize {
    sizes(bytes).map_or(bytes.len(), |n| block_bytes(n).min(bytes.len()))
}

/// The line of a block with its line end behind those before it, and its keys; or what the block is refused for: its own
/// refusal, or else 16 where it does not follow its forerunner.
fn follow(bytes: &[u8], before: Option<Keys>, lines: &mut Vec<u8>) -> Result<Keys, u32> {
    let mut line = [0; FILE_LINE_BYTES];
    line[LINE_BYTES..].copy_from_slice(b"\r\n");
    let refusal = block(bytes, &mut line[..LINE_BYTES]);
    if refusal != 0 {
        return Err(refusal);
    }
    let keys = keys(&labels(bytes));
    if before.is_some_and(|before| before >= keys) {
        return Err(16);
    }
    lines.extend_from_slice(&line);
    Ok(keys)
}

/// Day: writes the lines of all blocks to the first bytes of the lent file and says how many bytes these are, or gives the
/// first block that offends and writes nothing. 9 comes last, where what is lent is too short, with the number of blocks.
pub fn day(blocks: &[u8], lent: &mut [u8]) -> Result<usize, Offence> {
    let (mut rest, mut before, mut count) = (blocks, None, 0);
    let mut lines = Vec::new();
    while !rest.is_empty() {
        let (first, behind) = rest.split_at(own_length(rest));
        let keys = follow(first, before, &mut lines).map_err(|number| Offence { number, block: count })?;
        (rest, before, count) = (behind, Some(keys), count + 1);
    }
    if lent.len() < lines.len() {
        return Err(Offence { number: 9, block: count });
    }
    lent[..lines.len()].copy_from_slice(&lines);
    Ok(lines.len())
}
