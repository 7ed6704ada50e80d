//! Version 01: a GPS line down to the GGTTS form of document 004, and such a line up again (document 02, Job 12).

use crate::line::Labels;
use crate::reader::{characters_fit, labels, numbers, read, starts, Columns};

/// Columns of a line of version 01, and the same with the longest comment.
pub const OLD_BYTES: usize = 103;
pub const LONGEST_OLD: usize = 128;

/// The last column before CK, up to which both forms have the same fields.
const SHARED: usize = 101;

/// Columns with CK behind them: their sum modulo 256, in two capital hexadecimal digits.
fn with_check(mut columns: Vec<u8>) -> Vec<u8> {
    let sum: u32 = columns.iter().map(|byte| u32::from(*byte)).sum();
    columns.extend(format!("{:02X}", sum % 256).bytes());
    columns
}

/// The line of version 01, or a refusal of the reader, or 25 where the letter is not G.
fn lowered(line: &[u8]) -> Result<Vec<u8>, u32> {
    let (labels, _) = read(line)?;
    if labels.constellation != b'G' {
        return Err(25);
    }
    Ok(with_check([b" ", &line[1..SHARED]].concat()))
}

/// The line of 113 columns, or 12, 14, 13, 7 or 8.
fn raised(old: &[u8], hc: u8, frc: [u8; 3]) -> Result<Vec<u8>, u32> {
    if !(OLD_BYTES..=LONGEST_OLD).contains(&old.len()) {
        return Err(12);
    }
    let (columns, comment) = old.split_at(OLD_BYTES);
    if with_check(columns[..SHARED].to_vec()) != columns {
        return Err(14);
    }
    // what the old line has not is put in as characters that stand in the way of nothing
    let shared = &columns[1..SHARED];
    let filled: Columns = [b"G", shared, b"00 00 000 00"].concat().try_into().expect("113 columns");
    if columns[0] != b' ' || !characters_fit(&filled, comment) {
        return Err(13);
    }
    let labels = Labels { hc, frc, ..labels(&filled) };
    if !labels.in_range() || !numbers(&filled).length_fits() {
        return Err(7);
    }
    if !starts(&filled, &labels) {
        return Err(8);
    }
    Ok(with_check([b"G", shared, format!("00 {hc:02} ").as_bytes(), &frc, b" "].concat()))
}

/// Writes a text to the first bytes of what is lent and answers 0, or answers the refusal and writes nothing. 9, for too few,
/// comes last.
fn put(text: Result<Vec<u8>, u32>, lent: &mut [u8]) -> u32 {
    let text = match text {
        Ok(text) => text,
        Err(refusal) => return refusal,
    };
    if lent.len() < text.len() {
        return 9;
    }
    lent[..text.len()].copy_from_slice(&text);
    0
}

/// Down: the first 103 bytes of what is lent, or the refusal: 12, 14, 13, 7, 8, 25, 9, in this order.
pub fn down(line: &[u8], lent: &mut [u8]) -> u32 {
    put(lowered(line), lent)
}

/// Up, with this HC and FRC: the first 113 bytes of what is lent, or the refusal: 12, 14, 13, 7, 8, 9, in this order.
pub fn up(old: &[u8], hc: u8, frc: [u8; 3], lent: &mut [u8]) -> u32 {
    put(raised(old, hc, frc), lent)
}
