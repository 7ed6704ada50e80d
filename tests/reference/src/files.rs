//! Line files: what one is, what it is refused for, and two of them made into one.

use crate::line::{Labels, LINE_BYTES};
use crate::reader::read;
use crate::track::Numbers;

/// Bytes of a line in a file: 113 columns, carriage return, line feed.
pub const FILE_LINE_BYTES: usize = 115;

/// What the lines of a file ascend by: MJD, start, constellation letter, satellite number.
pub type Keys = (u32, u32, u8, u8);

/// A line of a file: its keys and its 115 bytes.
pub type FileLine<'a> = (Keys, &'a [u8]);

pub fn keys(labels: &Labels) -> Keys {
    (labels.mjd, labels.start, labels.constellation, labels.satellite)
}

/// What stands in one line of a file, or what it is refused for, whatever stands before it: 12 for a tail that is too
/// short, then what the reader says of its columns, then 13 for another line end.
fn judged(line: &[u8]) -> Result<(Labels, Numbers), u32> {
    if line.len() < FILE_LINE_BYTES {
        return Err(12);
    }
    let content = read(&line[..LINE_BYTES])?;
    if line[LINE_BYTES..] != *b"\r\n" {
        return Err(13);
    }
    Ok(content)
}

/// What is kept of the lines of a file, each behind its keys, or the refusal of the earliest that has one: its own, or
/// else 16 where it does not follow the line before it.
pub(crate) fn kept<'a, T>(file: &'a [u8], keep: impl Fn(&'a [u8], &Numbers) -> T) -> Result<Vec<(Keys, T)>, u32> {
    let mut lines: Vec<(Keys, T)> = Vec::with_capacity(file.len() / FILE_LINE_BYTES);
    for line in file.chunks(FILE_LINE_BYTES) {
        let (labels, numbers) = judged(line)?;
        let keys = keys(&labels);
        if lines.last().is_some_and(|(before, _)| *before >= keys) {
            return Err(16);
        }
        lines.push((keys, keep(line, &numbers)));
    }
    Ok(lines)
}

/// The lines of a file, or its refusal.
pub fn file_lines(file: &[u8]) -> Result<Vec<FileLine<'_>>, u32> {
    kept(file, |line, _| line)
}

/// The lines of both files in their order, those that are in both once. 15: two lines have the same keys and differ.
fn merged<'a>(first: &[FileLine<'a>], second: &[FileLine<'a>]) -> Result<Vec<&'a [u8]>, u32> {
    let mut lines = Vec::with_capacity(first.len() + second.len());
    let (mut m, mut n) = (0, 0);
    while m < first.len() && n < second.len() {
        let ((first_keys, line), (second_keys, other)) = (first[m], second[n]);
        if first_keys == second_keys && line != other {
            return Err(15);
        }
        lines.push(if first_keys <= second_keys { line } else { other });
        m += usize::from(first_keys <= second_keys);
        n += usize::from(second_keys <= first_keys);
    }
    lines.extend(first[m..].iter().chain(&second[n..]).map(|(_, line)| *line));
    Ok(lines)
}

/// Merge: writes the lines of both files to the first bytes of the lent one and says how many bytes these are, or gives
/// the refusal and writes nothing: the first file's, then the second's, then 15, then 17 if what is lent is too short.
pub fn merge(first: &[u8], second: &[u8], lent: &mut [u8]) -> Result<usize, u32> {
    let first = file_lines(first)?;
    let second = file_lines(second)?;
    let lines = merged(&first, &second)?;
    let length = FILE_LINE_BYTES * lines.len();
    if lent.len() < length {
        return Err(17);
    }
    for (place, line) in lent.chunks_exact_mut(FILE_LINE_BYTES).zip(lines) {
        place.copy_from_slice(line);
    }
    Ok(length)
}
