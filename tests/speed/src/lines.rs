//! A line written, a start tested, a line read back, and where its comment begins: the archive beside plain Rust.

use crate::library;
use crate::read_stages::READ_STAGES;
use crate::timing::Pair;
use reference::good::{good_comment, good_labels, good_numbers};
use reference::seeded::Seeded;
use reference::{Labels, Numbers, FIRST_MJD, LAST_MJD, LINE_BYTES, VALUES};

/// Labels and numbers in bytes: 13 labels, then ten numbers, eight bytes each.
fn values(given: &[u8]) -> [i64; VALUES] {
    std::array::from_fn(|i| i64::from_le_bytes(given[8 * i..8 * i + 8].try_into().expect("eight bytes")))
}

/// The labels and the numbers out of such values. What takes them apart takes as long on both sides.
#[inline(always)]
fn given(bytes: &[u8]) -> (Labels, Numbers) {
    let v = values(bytes);
    let frc = [v[5] as u8, v[6] as u8, v[7] as u8];
    let labels = Labels {
        constellation: v[0] as u8,
        satellite: v[1] as u8,
        cl: v[2] as u8,
        fr: v[3] as u8,
        hc: v[4] as u8,
        frc,
        mjd: v[8] as u32,
        start: v[9] as u32,
        elv: v[10] as u16,
        azth: v[11] as u16,
        ioe: v[12] as u16,
    };
    let [refsv, srsv, refsys, srsys, mdtr, smdt, mdio, smdi, dsg, trkl] = *v.last_chunk().expect("ten numbers");
    (labels, Numbers { refsv, srsv, refsys, srsys, mdtr, smdt, mdio, smdi, dsg, trkl })
}

// Never inlined and with plain names, so that valgrind can count what is inside.
#[inline(never)]
#[no_mangle]
fn speed_proved_line(bytes: &[u8], lent: &mut [u8]) -> u32 {
    let (labels, numbers) = given(bytes);
    library::line(&labels, &numbers, Some(lent))
}

#[inline(never)]
#[no_mangle]
fn speed_plain_line(bytes: &[u8], lent: &mut [u8]) -> u32 {
    let (labels, numbers) = given(bytes);
    fast::line(&labels, &numbers, lent)
}

/// Date and second, four bytes each.
fn date(bytes: &[u8]) -> (u32, u32) {
    let four = |at: usize| u32::from_le_bytes(bytes[at..at + 4].try_into().expect("four bytes"));
    (four(0), four(4))
}

#[inline(never)]
#[no_mangle]
fn speed_proved_start(bytes: &[u8], _: &mut [u8]) -> u32 {
    let (mjd, second) = date(bytes);
    library::start(mjd, second)
}

#[inline(never)]
#[no_mangle]
fn speed_plain_start(bytes: &[u8], _: &mut [u8]) -> u32 {
    let (mjd, second) = date(bytes);
    fast::start(mjd, second)
}

#[inline(never)]
#[no_mangle]
fn speed_proved_read(line: &[u8], lent: &mut [i64]) -> u32 {
    library::read(Some(line), Some(lent))
}

#[inline(never)]
#[no_mangle]
fn speed_plain_read(line: &[u8], lent: &mut [i64]) -> u32 {
    fast::read_values(line, lent)
}

/// Where the comment begins.
#[inline(never)]
#[no_mangle]
fn speed_proved_comment(line: &[u8], _: &mut [i64]) -> u32 {
    library::comment(Some(line)) as u32
}

#[inline(never)]
#[no_mangle]
fn speed_plain_comment(line: &[u8], _: &mut [i64]) -> u32 {
    fast::comment_from(line) as u32
}

pub const LINE: Pair<u8> =
    Pair { function: "trackline_line", proved: speed_proved_line, plain: speed_plain_line, lent: LINE_BYTES };
const START: Pair<u8> =
    Pair { function: "trackline_start", proved: speed_proved_start, plain: speed_plain_start, lent: 0 };
pub const READ: Pair<i64> =
    Pair { function: "trackline_read", proved: speed_proved_read, plain: speed_plain_read, lent: VALUES };
const COMMENT: Pair<i64> =
    Pair { function: "trackline_comment", proved: speed_proved_comment, plain: speed_plain_comment, lent: 0 };

/// Labels and numbers that Line accepts.
pub fn a_given(seeded: &mut Seeded) -> Vec<u8> {
    let values = reference::values(&good_labels(seeded), &good_numbers(seeded));
    values.iter().flat_map(|value| value.to_le_bytes()).collect()
}

/// A line that the plain Rust implementation writes, with a comment of 0 to 27 characters.
pub fn a_line(seeded: &mut Seeded) -> Vec<u8> {
    let mut line = vec![0; LINE_BYTES];
    assert_eq!(reference::line(&good_labels(seeded), &good_numbers(seeded), &mut line), 0);
    let length = seeded.below(28) as usize;
    line.extend(good_comment(seeded, length));
    line
}

/// A second of some date, a start or not.
fn a_second(seeded: &mut Seeded) -> Vec<u8> {
    let labels = good_labels(seeded);
    let any = (seeded.range(FIRST_MJD.into(), LAST_MJD.into()) as u32, 60 * seeded.below(1440) as u32);
    let (mjd, second) = if seeded.below(2) == 0 { any } else { (labels.mjd, labels.start) };
    [mjd.to_le_bytes(), second.to_le_bytes()].concat()
}

pub fn run(count: usize, number: usize, seeded: &mut Seeded) {
    let rows: Vec<Vec<u8>> = (0..number).map(|_| a_given(seeded)).collect();
    LINE.whole(count, "labels and numbers", 1, &rows, Some(0));
    drop(rows);
    let seconds: Vec<Vec<u8>> = (0..number).map(|_| a_second(seeded)).collect();
    START.whole(count, "a date and a second", 1, &seconds, None);
    drop(seconds);
    let lines: Vec<Vec<u8>> = (0..number).map(|_| a_line(seeded)).collect();
    READ.whole(count, "a line", 1, &lines, Some(0));
    COMMENT.whole(count, "a line", 1, &lines, Some(LINE_BYTES as u32));
}

pub fn parts(count: usize, seeded: &mut Seeded) {
    let lines: Vec<Vec<u8>> = (0..1000).map(|_| a_line(seeded)).collect();
    READ.split(count, "line read", &lines, &READ_STAGES);
}
