//! Reader: the characters of all columns by a table of what each may hold, then the fields.

use crate::block::length_fits;
use crate::digits::{eight, four, three, two};
use crate::labels::in_range;
use crate::start::is_start;
use crate::text::hexadecimal_digits;
use reference::{Labels, Numbers, LINE_BYTES, LONGEST_LINE, VALUES};

pub type Columns = [u8; LINE_BYTES];

const CHECKED: usize = 111;

/// What may stand in columns 1 to 111: L a constellation's letter, d a digit, x a capital hexadecimal digit, s a sign, c a capital
/// letter or a digit. Any other character stands for itself.
const PICTURE: &[u8; CHECKED] = b"Ldd xx ddddd dddddd dddd ddd dddd sdddddddddd sddddd sdddddddddd sddddd dddd ddd \
                                  dddd sddd dddd sddd dd dd ccc ";

/// The least byte of each column, and how many more there are up to the greatest.
const LEAST: [u8; CHECKED] = bounds(false);
const MORE: [u8; CHECKED] = bounds(true);

const fn bounds(more: bool) -> [u8; CHECKED] {
    let mut row = [0; CHECKED];
    let mut i = 0;
    while i < CHECKED {
        let (least, most) = match PICTURE[i] {
            b'L' => (b'C', b'R'),
            b'd' => (b'0', b'9'),
            b'x' => (b'0', b'F'),
            b's' => (b'+', b'-'),
            b'c' => (b'0', b'Z'),
            kind => (kind, kind),
        };
        row[i] = if more { most - least } else { least };
        i += 1;
    }
    row
}

/// A field from a column on, counted from 0.
#[inline(always)]
fn field<const N: usize>(columns: &Columns, at: usize) -> &[u8; N] {
    columns[at..].first_chunk().expect("within the columns")
}

/// No byte is outside the bounds of its column: without a branch for each.
#[inline(always)]
pub fn bounded(columns: &Columns) -> bool {
    let mut outside = 0;
    for i in 0..CHECKED {
        outside |= u8::from(columns[i].wrapping_sub(LEAST[i]) > MORE[i]);
    }
    outside == 0
}

/// Between the digits and the letters.
#[inline(always)]
fn gap(byte: u8) -> bool {
    byte.wrapping_sub(b'9' + 1) < b'A' - b'9' - 1
}

/// Of bytes within their bounds in columns 2 to 101: one of CL that is neither digit nor letter, or one that is no sign.
#[inline(always)]
pub fn shared_between(columns: &Columns) -> bool {
    let commas = [34, 46, 53, 65, 86, 96].iter().fold(false, |found, at| found | (columns[*at] == b','));
    commas | gap(columns[4]) | gap(columns[5])
}

/// The same of all columns: a letter that is none of a constellation, and one of FRC that is neither digit nor letter.
#[inline(always)]
fn between(columns: &Columns) -> bool {
    let letter = !matches!(columns[0], b'C' | b'E' | b'G' | b'J' | b'R');
    letter | shared_between(columns) | gap(columns[107]) | gap(columns[108]) | gap(columns[109])
}

#[inline(always)]
pub fn minus_zeros(columns: &Columns) -> bool {
    (field(columns, 34) == b"-0000000000")
        | (field(columns, 46) == b"-00000")
        | (field(columns, 53) == b"-0000000000")
        | (field(columns, 65) == b"-00000")
        | (field(columns, 86) == b"-000")
        | (field(columns, 96) == b"-000")
}

/// CK is the two capital digits of the sum of columns 1 to 111.
#[inline(always)]
fn checked(columns: &Columns) -> bool {
    let sum = columns[..CHECKED].iter().fold(0u8, |sum, byte| sum.wrapping_add(*byte));
    [columns[111], columns[112]] == hexadecimal_digits(sum)
}

#[inline(always)]
fn hexadecimal(byte: u8) -> u8 {
    if byte <= b'9' {
        byte - b'0'
    } else {
        byte - b'A' + 10
    }
}

#[inline(always)]
pub fn labels(columns: &Columns) -> Labels {
    let clock = |at: usize| two(field(columns, at));
    Labels {
        constellation: columns[0],
        satellite: two(field(columns, 1)) as u8,
        cl: 16 * hexadecimal(columns[4]) + hexadecimal(columns[5]),
        fr: two(field(columns, 101)) as u8,
        hc: two(field(columns, 104)) as u8,
        frc: *field(columns, 107),
        mjd: 10_000 * u32::from(columns[7] - b'0') + four(field(columns, 8)),
        start: 3600 * clock(13) + 60 * clock(15) + clock(17),
        elv: three(field(columns, 25)) as u16,
        azth: four(field(columns, 29)) as u16,
        ioe: three(field(columns, 77)) as u16,
    }
}

/// The clock shows a time of day, whatever its parts would add up to, and a track of that day, which is one of the schedule, starts then.
#[inline(always)]
pub fn starts(columns: &Columns, labels: &Labels) -> bool {
    let clock = |at: usize| two(field(columns, at));
    (clock(13) <= 23) & (clock(15) <= 59) & (clock(17) <= 59) && is_start(labels.mjd, labels.start)
}

/// What a sign makes of a size.
#[inline(always)]
fn signed(sign: u8, size: i64) -> i64 {
    if sign == b'-' {
        -size
    } else {
        size
    }
}

#[inline(always)]
fn signed10(columns: &Columns, at: usize) -> i64 {
    let size = 100_000_000 * i64::from(two(field(columns, at + 1))) + i64::from(eight(field(columns, at + 3)));
    signed(columns[at], size)
}

#[inline(always)]
fn signed5(columns: &Columns, at: usize) -> i64 {
    let size = 10_000 * u32::from(columns[at + 1] - b'0') + four(field(columns, at + 2));
    signed(columns[at], size.into())
}

#[inline(always)]
fn signed3(columns: &Columns, at: usize) -> i64 {
    signed(columns[at], three(field(columns, at + 1)).into())
}

#[inline(always)]
pub fn trkl(columns: &Columns) -> i64 {
    four(field(columns, 20)).into()
}

#[inline(always)]
pub fn refsys(columns: &Columns) -> i64 {
    signed10(columns, 53)
}

#[inline(always)]
fn numbers(columns: &Columns) -> Numbers {
    Numbers {
        refsv: signed10(columns, 34),
        srsv: signed5(columns, 46),
        refsys: refsys(columns),
        srsys: signed5(columns, 65),
        mdtr: four(field(columns, 81)).into(),
        smdt: signed3(columns, 86),
        mdio: four(field(columns, 91)).into(),
        smdi: signed3(columns, 96),
        dsg: four(field(columns, 72)).into(),
        trkl: trkl(columns),
    }
}

/// The labels of a line, or 14, 13, 7 or 8.
#[inline(always)]
pub fn judged(columns: &Columns, comment: &[u8]) -> Result<Labels, u32> {
    if !checked(columns) {
        return Err(14);
    }
    let comment_fits = comment.iter().all(|byte| byte.wrapping_sub(0x20) <= 0x7E - 0x20);
    if !bounded(columns) | between(columns) | minus_zeros(columns) | !comment_fits {
        return Err(13);
    }
    let labels = labels(columns);
    if !in_range(&labels) | !length_fits(trkl(columns)) {
        return Err(7);
    }
    if !starts(columns, &labels) {
        return Err(8);
    }
    Ok(labels)
}

/// The columns of a line and its comment, or 12.
#[inline(always)]
pub fn parted(line: &[u8]) -> Result<(&Columns, &[u8]), u32> {
    line.split_first_chunk().filter(|_| line.len() <= LONGEST_LINE).ok_or(12)
}

/// 0 and the first 23 of the lent values written, or the refusal and none. 9, for fewer than 23, comes last.
pub fn read_values(line: &[u8], lent: &mut [i64]) -> u32 {
    let (columns, labels) = match parted(line).and_then(|(columns, comment)| Ok((columns, judged(columns, comment)?))) {
        Ok(found) => found,
        Err(refusal) => return refusal,
    };
    let Some(lent) = lent.first_chunk_mut::<VALUES>() else {
        return 9;
    };
    let Labels { constellation, satellite, cl, fr, hc, frc, mjd, start, elv, azth, ioe } = labels;
    let Numbers { refsv, srsv, refsys, srsys, mdtr, smdt, mdio, smdi, dsg, trkl } = numbers(columns);
    #[rustfmt::skip]
    let values = [
        constellation.into(), satellite.into(), cl.into(), fr.into(), hc.into(), frc[0].into(), frc[1].into(), frc[2].into(),
        mjd.into(), start.into(), elv.into(), azth.into(), ioe.into(),
        refsv, srsv, refsys, srsys, mdtr, smdt, mdio, smdi, dsg, trkl,
    ];
    *lent = values;
    0
}

/// Where the comment begins: behind the columns, or at the end of a line that is refused.
pub fn comment_from(line: &[u8]) -> usize {
    let judged = parted(line).and_then(|(columns, comment)| judged(columns, comment));
    judged.map_or(line.len(), |_| LINE_BYTES)
}
