//! The text of a line, written into a picture of it two digits at a time.

use reference::{Labels, Numbers, FILE_LINE_BYTES};

/// A line with its line end.
pub type Ended = [u8; FILE_LINE_BYTES];

const PICTURE: &Ended = b"L00 00 00000 000000 0000 000 0000 +0000000000 +00000 +0000000000 +00000 0000 000 \
                          0000 +000 0000 +000 00 00 ccc 00\r\n";

/// 00 to 99.
const PAIRS: [[u8; 2]; 100] = {
    let mut pairs = [[b'0'; 2]; 100];
    let mut i = 0;
    while i < 100 {
        pairs[i] = [b'0' + i as u8 / 10, b'0' + i as u8 % 10];
        i += 1;
    }
    pairs
};

const HEXADECIMAL: &[u8; 16] = b"0123456789ABCDEF";

/// Two, three, four and eight digits from a column on, counted from 0. The value has no more.
#[inline(always)]
pub fn put2(line: &mut Ended, at: usize, value: u32) {
    [line[at], line[at + 1]] = PAIRS[value as usize % 100];
}

#[inline(always)]
fn put3(line: &mut Ended, at: usize, value: u32) {
    put2(line, at, value / 10);
    line[at + 2] = b'0' + (value % 10) as u8;
}

#[inline(always)]
fn put4(line: &mut Ended, at: usize, value: u32) {
    put2(line, at, value / 100);
    put2(line, at + 2, value % 100);
}

#[inline(always)]
fn put8(line: &mut Ended, at: usize, value: u32) {
    put4(line, at, value / 10_000);
    put4(line, at + 4, value % 10_000);
}

/// The sign, and the size.
#[inline(always)]
fn sign(line: &mut Ended, at: usize, value: i64) -> u64 {
    line[at] = b'+' + 2 * u8::from(value < 0);
    value.unsigned_abs()
}

/// A sign and three, five or ten digits.
#[inline(always)]
fn signed3(line: &mut Ended, at: usize, value: i64) {
    let size = sign(line, at, value) as u32;
    put3(line, at + 1, size);
}

#[inline(always)]
fn signed5(line: &mut Ended, at: usize, value: i64) {
    let size = sign(line, at, value) as u32;
    line[at + 1] = b'0' + (size / 10_000) as u8;
    put4(line, at + 2, size % 10_000);
}

#[inline(always)]
fn signed10(line: &mut Ended, at: usize, value: i64) {
    let size = sign(line, at, value);
    put2(line, at + 1, (size / 100_000_000) as u32);
    put8(line, at + 3, (size % 100_000_000) as u32);
}

#[inline(always)]
pub fn hexadecimal_digits(value: u8) -> [u8; 2] {
    [HEXADECIMAL[usize::from(value >> 4)], HEXADECIMAL[usize::from(value & 15)]]
}

#[inline(always)]
fn hexadecimal(line: &mut Ended, at: usize, value: u8) {
    [line[at], line[at + 1]] = hexadecimal_digits(value);
}

/// Columns 1 to 33, then FR, HC and FRC.
#[inline(always)]
fn put_labels(line: &mut Ended, labels: &Labels) {
    line[0] = labels.constellation;
    put2(line, 1, labels.satellite.into());
    hexadecimal(line, 4, labels.cl);
    line[7] = b'0' + (labels.mjd / 10_000) as u8;
    put4(line, 8, labels.mjd % 10_000);
    put2(line, 13, labels.start / 3600);
    put2(line, 15, labels.start / 60 % 60);
    put2(line, 17, labels.start % 60);
    put3(line, 25, labels.elv.into());
    put4(line, 29, labels.azth.into());
    put3(line, 77, labels.ioe.into());
    put2(line, 101, labels.fr.into());
    put2(line, 104, labels.hc.into());
    line[107..110].copy_from_slice(&labels.frc);
}

/// The line of labels and numbers that were accepted, with its line end.
#[inline(always)]
pub fn ended_line(labels: &Labels, numbers: &Numbers) -> Ended {
    let mut line = *PICTURE;
    put_labels(&mut line, labels);
    put4(&mut line, 20, numbers.trkl as u32);
    signed10(&mut line, 34, numbers.refsv);
    signed5(&mut line, 46, numbers.srsv);
    signed10(&mut line, 53, numbers.refsys);
    signed5(&mut line, 65, numbers.srsys);
    put4(&mut line, 72, numbers.dsg as u32);
    put4(&mut line, 81, numbers.mdtr as u32);
    signed3(&mut line, 86, numbers.smdt);
    put4(&mut line, 91, numbers.mdio as u32);
    signed3(&mut line, 96, numbers.smdi);
    let sum = line[..111].iter().fold(0u8, |sum, byte| sum.wrapping_add(*byte));
    hexadecimal(&mut line, 111, sum);
    line
}
