//! Lines for line files, by a seed: few dates, starts and satellites, so that two lines often share some of their keys.

use crate::files::{keys, Keys, FILE_LINE_BYTES};
use crate::good::{good_labels, good_numbers, track_start};
use crate::line::{line, LINE_BYTES};
use crate::seeded::Seeded;
use crate::{Labels, FIRST_MJD};
use std::collections::BTreeMap;

/// A line as it stands in a file.
pub type Ended = [u8; FILE_LINE_BYTES];

/// Dates, tracks and satellites from which lines are drawn.
#[derive(Clone, Copy, Debug)]
pub struct Span {
    pub first_mjd: u32,
    pub days: i64,
    pub tracks: i64,
    pub satellites: i64,
}

impl Span {
    /// A few of each, anywhere in the schedule.
    pub fn narrow(seeded: &mut Seeded) -> Span {
        let first_mjd = seeded.range(FIRST_MJD.into(), 99_990) as u32;
        Span { first_mjd, days: seeded.range(1, 3), tracks: seeded.range(1, 4), satellites: seeded.range(1, 3) }
    }
}

/// Labels of any track in the span.
pub fn labels_in(span: Span, seeded: &mut Seeded) -> Labels {
    let mjd = span.first_mjd + seeded.below(span.days as u64) as u32;
    // tracks from anywhere in the day: of two dates the later one's start is often the earlier
    let track = 1 + seeded.below(span.tracks as u64) as i64 * 89 / span.tracks;
    let satellite = 1 + seeded.below(span.satellites as u64) as i64 * 99 / span.satellites;
    Labels { mjd, start: track_start(mjd, track), satellite: satellite as u8, ..good_labels(seeded) }
}

/// The line of these labels and of numbers by the seed, with its line end.
pub fn ended_line(labels: &Labels, seeded: &mut Seeded) -> Ended {
    let mut ended = [0; FILE_LINE_BYTES];
    assert_eq!(line(labels, &good_numbers(seeded), &mut ended[..LINE_BYTES]), 0);
    ended[LINE_BYTES..].copy_from_slice(b"\r\n");
    ended
}

/// Other characters from a column on, counted from 1; CK is left as it is.
pub fn put(line: &mut [u8], column: usize, text: &[u8]) {
    line[column - 1..column - 1 + text.len()].copy_from_slice(text);
}

/// Puts CK right.
pub fn repair(line: &mut [u8]) {
    let sum = line[..LINE_BYTES - 2].iter().fold(0u8, |sum, byte| sum.wrapping_add(*byte));
    put(line, LINE_BYTES - 1, format!("{sum:02X}").as_bytes());
}

/// Another REFSYS, of at most ten digits.
pub fn put_refsys(line: &mut [u8], refsys: i64) {
    put(line, 54, format!("{refsys:+011}").as_bytes());
    repair(line);
}

/// Another track length, of at most four digits.
pub fn put_trkl(line: &mut [u8], trkl: i64) {
    put(line, 21, format!("{trkl:04}").as_bytes());
    repair(line);
}

/// What stands in the columns of REFSYS.
pub fn refsys_in(line: &[u8]) -> i64 {
    std::str::from_utf8(&line[53..64]).expect("ASCII").parse().expect("a number")
}

/// The track of a line as another receiver saw it: the same keys and track length, and other numbers.
pub fn seen_again(labels: &Labels, line: &Ended, seeded: &mut Seeded) -> Ended {
    let Labels { constellation, satellite, fr, mjd, start, ioe, .. } = *labels;
    let others = Labels { constellation, satellite, fr, mjd, start, ioe, ..good_labels(seeded) };
    let mut again = ended_line(&others, seeded);
    put(&mut again, 21, &line[20..24]);
    repair(&mut again);
    again
}

/// Up to so many lines, with different keys; a narrow span may have fewer.
pub fn lines_in(span: Span, most: usize, seeded: &mut Seeded) -> BTreeMap<Keys, (Labels, Ended)> {
    let mut lines = BTreeMap::new();
    for _ in 0..most {
        let labels = labels_in(span, seeded);
        let ended = ended_line(&labels, seeded);
        lines.insert(keys(&labels), (labels, ended));
    }
    lines
}

/// A file of exactly so many lines in a row: all tracks of all days from a date on, each with several satellites.
pub fn long_file(first_mjd: u32, count: usize, seeded: &mut Seeded) -> Vec<u8> {
    let mut file = Vec::with_capacity(FILE_LINE_BYTES * count);
    let span = Span { first_mjd, days: 1, tracks: 89, satellites: 99 };
    let mut day = 0;
    while file.len() < FILE_LINE_BYTES * count {
        let lines = lines_in(Span { first_mjd: span.first_mjd + day, ..span }, 1500, seeded);
        let wanted = count - file.len() / FILE_LINE_BYTES;
        lines.values().take(wanted).for_each(|(_, ended)| file.extend(ended));
        day += 1;
    }
    file
}

/// A file with another REFSYS in each line, by the line's place.
pub fn with_refsys(file: &[u8], mut refsys: impl FnMut(usize) -> i64) -> Vec<u8> {
    let mut file = file.to_vec();
    file.chunks_exact_mut(FILE_LINE_BYTES).enumerate().for_each(|(i, line)| put_refsys(line, refsys(i)));
    file
}
