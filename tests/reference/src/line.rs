//! Line: labels and ten numbers as the 113 columns of a data line.

use crate::schedule::{start, FIRST_MJD, LAST_MJD};
use crate::track::Numbers;

/// Columns of a line.
pub const LINE_BYTES: usize = 113;

/// What a line says of its track beside the ten numbers, in the order of the hire block.
#[derive(Clone, Copy, Debug, PartialEq, Eq)]
pub struct Labels {
    pub constellation: u8,
    pub satellite: u8,
    pub cl: u8,
    pub fr: u8,
    pub hc: u8,
    pub frc: [u8; 3],
    pub mjd: u32,
    pub start: u32,
    pub elv: u16,
    pub azth: u16,
    pub ioe: u16,
}

impl Labels {
    /// The issue of ephemeris and the GLONASS channel that the constellation allows; false for an unknown letter.
    fn constellation_fits(&self) -> bool {
        let issue = match self.constellation {
            b'R' => 1..=96,
            b'C' => 0..=23,
            b'G' | b'J' => 0..=255,
            b'E' => 0..=999,
            _ => return false,
        };
        let channel = if self.constellation == b'R' { 1..=24 } else { 0..=0 };
        issue.contains(&self.ioe) && channel.contains(&self.fr)
    }

    /// Every label is in its range; CL has none, and the start is judged after the labels.
    pub(crate) fn in_range(&self) -> bool {
        self.constellation_fits()
            && (1..=99).contains(&self.satellite)
            && self.hc <= 99
            && self.frc.iter().all(|c| c.is_ascii_uppercase() || c.is_ascii_digit())
            && (FIRST_MJD..=LAST_MJD).contains(&self.mjd)
            && self.elv <= 900
            && self.azth <= 3599
    }
}

/// A line that is being written from the left.
struct Text {
    bytes: [u8; LINE_BYTES],
    len: usize,
}

impl Text {
    fn put(&mut self, byte: u8) {
        self.bytes[self.len] = byte;
        self.len += 1;
    }

    fn space(&mut self) {
        self.put(b' ');
    }

    /// So many decimal digits, zeros on the left.
    fn decimal(&mut self, width: usize, value: u64) {
        let mut rest = value;
        for i in (self.len..self.len + width).rev() {
            self.bytes[i] = b'0' + (rest % 10) as u8;
            rest /= 10;
        }
        self.len += width;
    }

    /// A sign, which is + for zero, and so many digits.
    fn signed(&mut self, width: usize, value: i64) {
        self.put(if value < 0 { b'-' } else { b'+' });
        self.decimal(width, value.unsigned_abs());
    }

    /// A byte as two capital hexadecimal digits.
    fn hexadecimal(&mut self, value: u8) {
        const DIGITS: &[u8; 16] = b"0123456789ABCDEF";
        self.put(DIGITS[usize::from(value >> 4)]);
        self.put(DIGITS[usize::from(value & 15)]);
    }

    fn sum(&self) -> u8 {
        self.bytes[..self.len].iter().fold(0, |sum, b| sum.wrapping_add(*b))
    }
}

/// Columns 1 to 33: the satellite, the date, the track length and where it stood.
fn write_labels(text: &mut Text, labels: &Labels, numbers: &Numbers) {
    text.put(labels.constellation);
    text.decimal(2, labels.satellite.into());
    text.space();
    text.hexadecimal(labels.cl);
    text.space();
    text.decimal(5, labels.mjd.into());
    text.space();
    let (hour, minute, second) = (labels.start / 3600, labels.start / 60 % 60, labels.start % 60);
    text.decimal(2, hour.into());
    text.decimal(2, minute.into());
    text.decimal(2, second.into());
    text.space();
    text.decimal(4, numbers.trkl as u64);
    text.space();
    text.decimal(3, labels.elv.into());
    text.space();
    text.decimal(4, labels.azth.into());
}

/// Columns 34 to 100: the numbers, with the issue of ephemeris among them.
fn write_numbers(text: &mut Text, labels: &Labels, numbers: &Numbers) {
    text.space();
    text.signed(10, numbers.refsv);
    text.space();
    text.signed(5, numbers.srsv);
    text.space();
    text.signed(10, numbers.refsys);
    text.space();
    text.signed(5, numbers.srsys);
    text.space();
    text.decimal(4, numbers.dsg as u64);
    text.space();
    text.decimal(3, labels.ioe.into());
    text.space();
    text.decimal(4, numbers.mdtr as u64);
    text.space();
    text.signed(3, numbers.smdt);
    text.space();
    text.decimal(4, numbers.mdio as u64);
    text.space();
    text.signed(3, numbers.smdi);
}

/// The whole line of labels and numbers that were accepted.
fn line_text(labels: &Labels, numbers: &Numbers) -> [u8; LINE_BYTES] {
    let mut text = Text { bytes: [0; LINE_BYTES], len: 0 };
    write_labels(&mut text, labels, numbers);
    write_numbers(&mut text, labels, numbers);
    text.space();
    text.decimal(2, labels.fr.into());
    text.space();
    text.decimal(2, labels.hc.into());
    text.space();
    labels.frc.iter().for_each(|c| text.put(*c));
    text.space();
    let check = text.sum();
    text.hexadecimal(check);
    text.bytes
}

/// Line's refusals in their order: 7, 8, 3, 4, 5, 6, 9.
fn judge(labels: &Labels, numbers: &Numbers, lent: usize) -> Result<(), u32> {
    if !labels.in_range() || !numbers.length_fits() {
        return Err(7);
    }
    if start(labels.mjd, labels.start) != 0 {
        return Err(8);
    }
    numbers.check_fits()?;
    numbers.check_dsg()?;
    if lent < LINE_BYTES {
        return Err(9);
    }
    Ok(())
}

/// Line: writes the first 113 bytes of the lent line and answers 0, or answers the refusal and writes nothing.
pub fn line(labels: &Labels, numbers: &Numbers, lent: &mut [u8]) -> u32 {
    if let Err(refusal) = judge(labels, numbers, lent.len()) {
        return refusal;
    }
    lent[..LINE_BYTES].copy_from_slice(&line_text(labels, numbers));
    0
}
