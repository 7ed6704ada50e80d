//! Reader: one line of 113 to 140 bytes back to its labels, its ten numbers and its comment.

use crate::line::{Labels, LINE_BYTES};
use crate::schedule::start;
use crate::track::Numbers;

/// Columns of a line with the longest comment.
pub const LONGEST_LINE: usize = 140;
/// Labels and numbers as C gets them.
pub const VALUES: usize = 23;

pub(crate) type Columns = [u8; LINE_BYTES];

/// What may stand in columns 1 to 111: L a constellation's letter, d a digit, x a capital hexadecimal digit, s a sign,
/// c a capital letter or a digit. Any other character stands for itself.
const PICTURE: &[u8; 111] = b"Ldd xx ddddd dddddd dddd ddd dddd sdddddddddd sddddd sdddddddddd sddddd dddd ddd \
                              dddd sddd dddd sddd dd dd ccc ";

/// The fields that carry a sign: REFSV, SRSV, REFSYS, SRSYS, SMDT, SMDI.
const SIGNED: [(usize, usize); 6] = [(35, 45), (47, 52), (54, 64), (66, 71), (87, 90), (97, 100)];

/// A field by its first and last column, counted from 1.
fn field(columns: &Columns, (first, last): (usize, usize)) -> &[u8] {
    &columns[first - 1..last]
}

fn allowed(kind: u8, byte: u8) -> bool {
    match kind {
        b'L' => b"GRECJ".contains(&byte),
        b'd' => byte.is_ascii_digit(),
        b'x' => matches!(byte, b'0'..=b'9' | b'A'..=b'F'),
        b's' => matches!(byte, b'+' | b'-'),
        b'c' => byte.is_ascii_digit() || byte.is_ascii_uppercase(),
        _ => byte == kind,
    }
}

/// CK is the two capital digits of the sum of columns 1 to 111.
fn checked(columns: &Columns) -> bool {
    const DIGITS: &[u8; 16] = b"0123456789ABCDEF";
    let sum = columns[..111].iter().fold(0u8, |sum, byte| sum.wrapping_add(*byte));
    field(columns, (112, 113)) == [DIGITS[usize::from(sum >> 4)], DIGITS[usize::from(sum & 15)]]
}

fn is_minus_zero(field: &[u8]) -> bool {
    field[0] == b'-' && field[1..].iter().all(|digit| *digit == b'0')
}

/// Every character is one that its column may hold.
pub(crate) fn characters_fit(columns: &Columns, comment: &[u8]) -> bool {
    PICTURE.iter().zip(columns).all(|(kind, byte)| allowed(*kind, *byte))
        && !SIGNED.iter().any(|place| is_minus_zero(field(columns, *place)))
        && comment.iter().all(|byte| (0x20..=0x7E).contains(byte))
}

/// A field of decimal digits.
fn decimal(digits: &[u8]) -> u64 {
    digits.iter().fold(0, |value, digit| 10 * value + u64::from(digit - b'0'))
}

/// A field of a sign and decimal digits.
fn signed(field: &[u8]) -> i64 {
    let size = decimal(&field[1..]) as i64;
    if field[0] == b'-' {
        -size
    } else {
        size
    }
}

fn hexadecimal(digits: &[u8]) -> u8 {
    let value = |digit: u8| if digit.is_ascii_digit() { digit - b'0' } else { digit - b'A' + 10 };
    16 * value(digits[0]) + value(digits[1])
}

/// Hour, minute and second.
fn clock(columns: &Columns) -> (u32, u32, u32) {
    let part = |first: usize| decimal(field(columns, (first, first + 1))) as u32;
    (part(14), part(16), part(18))
}

pub(crate) fn labels(columns: &Columns) -> Labels {
    let number = |first: usize, last: usize| decimal(field(columns, (first, last)));
    let (hour, minute, second) = clock(columns);
    Labels {
        constellation: columns[0],
        satellite: number(2, 3) as u8,
        cl: hexadecimal(field(columns, (5, 6))),
        fr: number(102, 103) as u8,
        hc: number(105, 106) as u8,
        frc: [columns[107], columns[108], columns[109]],
        mjd: number(8, 12) as u32,
        start: 3600 * hour + 60 * minute + second,
        elv: number(26, 28) as u16,
        azth: number(30, 33) as u16,
        ioe: number(78, 80) as u16,
    }
}

pub(crate) fn numbers(columns: &Columns) -> Numbers {
    let unsigned = |first: usize, last: usize| decimal(field(columns, (first, last))) as i64;
    let [refsv, srsv, refsys, srsys, smdt, smdi] = SIGNED.map(|place| signed(field(columns, place)));
    Numbers {
        refsv,
        srsv,
        refsys,
        srsys,
        mdtr: unsigned(82, 85),
        smdt,
        mdio: unsigned(92, 95),
        smdi,
        dsg: unsigned(73, 76),
        trkl: unsigned(21, 24),
    }
}

/// The clock shows a time of day, whatever its parts would add up to, and a track of that day starts then.
pub(crate) fn starts(columns: &Columns, labels: &Labels) -> bool {
    let (hour, minute, second) = clock(columns);
    hour <= 23 && minute <= 59 && second <= 59 && start(labels.mjd, labels.start) == 0
}

/// Reader: what stands in a line, or the refusal: 12, 14, 13, 7, 8, in this order.
pub fn read(line: &[u8]) -> Result<(Labels, Numbers), u32> {
    let Some((columns, comment)) = line.split_first_chunk().filter(|_| line.len() <= LONGEST_LINE) else {
        return Err(12);
    };
    if !checked(columns) {
        return Err(14);
    }
    if !characters_fit(columns, comment) {
        return Err(13);
    }
    let (labels, numbers) = (labels(columns), numbers(columns));
    if !labels.in_range() || !numbers.length_fits() {
        return Err(7);
    }
    if !starts(columns, &labels) {
        return Err(8);
    }
    Ok((labels, numbers))
}

/// The comment: the part of the line from column 114 on, or the empty part at the end of a line that is refused.
pub fn comment(line: &[u8]) -> &[u8] {
    let from = if read(line).is_ok() { LINE_BYTES } else { line.len() };
    &line[from..]
}

/// Labels and numbers in the order in which C gets them.
pub fn values(labels: &Labels, numbers: &Numbers) -> [i64; VALUES] {
    let Labels { constellation, satellite, cl, fr, hc, frc, mjd, start, elv, azth, ioe } = *labels;
    let [frc1, frc2, frc3] = frc;
    let bytes = [constellation, satellite, cl, fr, hc, frc1, frc2, frc3].map(i64::from);
    let words = [mjd, start, elv.into(), azth.into(), ioe.into()].map(i64::from);
    let Numbers { refsv, srsv, refsys, srsys, mdtr, smdt, mdio, smdi, dsg, trkl } = *numbers;
    let numbers = [refsv, srsv, refsys, srsys, mdtr, smdt, mdio, smdi, dsg, trkl];
    let mut values = [0; VALUES];
    values[..8].copy_from_slice(&bytes);
    values[8..13].copy_from_slice(&words);
    values[13..].copy_from_slice(&numbers);
    values
}

/// The reader as C calls it: 0 and the first 23 of the lent values written, or the refusal and none. 9, for fewer than
/// 23, comes after every other refusal.
pub fn read_values(line: &[u8], lent: &mut [i64]) -> u32 {
    let (labels, numbers) = match read(line) {
        Ok(read) => read,
        Err(refusal) => return refusal,
    };
    if lent.len() < VALUES {
        return 9;
    }
    lent[..VALUES].copy_from_slice(&values(&labels, &numbers));
    0
}
