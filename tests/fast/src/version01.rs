//! Version 01: a line down to it and up again. The columns that both forms have are copied as they are.

use crate::block::length_fits;
use crate::labels::in_range;
use crate::reader::{bounded, judged, labels, minus_zeros, parted, shared_between, starts, trkl, Columns};
use crate::text::{hexadecimal_digits, put2, Ended};
use reference::{Labels, LINE_BYTES, LONGEST_OLD, OLD_BYTES};

/// The last column before CK of the old form.
const SHARED: usize = 101;

#[inline(always)]
fn sum(columns: &[u8]) -> u8 {
    columns.iter().fold(0u8, |sum, byte| sum.wrapping_add(*byte))
}

/// Down: the first 103 bytes of what is lent and 0, or the refusal and none.
pub fn down(line: &[u8], lent: &mut [u8]) -> u32 {
    let (columns, labels) = match parted(line).and_then(|(columns, comment)| Ok((columns, judged(columns, comment)?))) {
        Ok(found) => found,
        Err(refusal) => return refusal,
    };
    if labels.constellation != b'G' {
        return 25;
    }
    let Some(place) = lent.first_chunk_mut::<OLD_BYTES>() else {
        return 9;
    };
    place[0] = b' ';
    place[1..SHARED].copy_from_slice(&columns[1..SHARED]);
    let check = hexadecimal_digits(sum(&place[..SHARED]));
    [place[SHARED], place[SHARED + 1]] = check;
    0
}

/// The columns of ours that an old line has, with a G and zeros in the others, and what the line is refused for, but 9.
#[inline(always)]
fn raised(old: &[u8], hc: u8, frc: [u8; 3]) -> Result<Columns, u32> {
    let (columns, comment) =
        old.split_first_chunk::<OLD_BYTES>().filter(|_| old.len() <= LONGEST_OLD).ok_or(12u32)?;
    if [columns[SHARED], columns[SHARED + 1]] != hexadecimal_digits(sum(&columns[..SHARED])) {
        return Err(14);
    }
    let mut ours = *b"G                                                                                                    00 00 000 00";
    ours[1..SHARED].copy_from_slice(&columns[1..SHARED]);
    let comment_fits = comment.iter().all(|byte| byte.wrapping_sub(0x20) <= 0x7E - 0x20);
    let fits = (columns[0] == b' ') & bounded(&ours) & !shared_between(&ours) & !minus_zeros(&ours) & comment_fits;
    if !fits {
        return Err(13);
    }
    let labels = Labels { hc, frc, ..labels(&ours) };
    if !in_range(&labels) | !length_fits(trkl(&ours)) {
        return Err(7);
    }
    if !starts(&ours, &labels) {
        return Err(8);
    }
    Ok(ours)
}

/// Up, with this HC and FRC: the first 113 bytes of what is lent and 0, or the refusal and none.
pub fn up(old: &[u8], hc: u8, frc: [u8; 3], lent: &mut [u8]) -> u32 {
    let ours = match raised(old, hc, frc) {
        Ok(ours) => ours,
        Err(refusal) => return refusal,
    };
    let Some(place) = lent.first_chunk_mut::<LINE_BYTES>() else {
        return 9;
    };
    let mut line: Ended = [b' '; 115];
    line[..LINE_BYTES].copy_from_slice(&ours);
    put2(&mut line, 104, hc.into());
    line[107..110].copy_from_slice(&frc);
    let check = hexadecimal_digits(sum(&line[..111]));
    [line[111], line[112]] = check;
    place.copy_from_slice(&line[..LINE_BYTES]);
    0
}
