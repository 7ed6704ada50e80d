//! Two line files merged, and their common view: each line is read once, and what is needed of it kept.

use crate::labels::keys;
use crate::reader::{judged, refsys, trkl, Columns};
use reference::{FILE_LINE_BYTES, LONGEST_FILE, REPORT_VALUES};

/// What is kept of the lines of a file, each behind its keys, or the refusal of the earliest line that has one.
#[inline(always)]
fn kept<T>(file: &[u8], keep: impl Fn(&Columns) -> T) -> Result<Vec<(u64, T)>, u32> {
    let (lines, tail) = file.as_chunks::<FILE_LINE_BYTES>();
    let mut all = Vec::with_capacity(lines.len());
    let mut last = 0;
    for line in lines {
        let (columns, end) = line.split_first_chunk().expect("longer than its columns");
        let next = keys(&judged(columns, &[])?);
        if end != b"\r\n" {
            return Err(13);
        }
        if next <= last {
            return Err(16);
        }
        all.push((next, keep(columns)));
        last = next;
    }
    if tail.is_empty() {
        Ok(all)
    } else {
        Err(12)
    }
}

type Key = (u64, ());

/// How many lines the two files make together, or 15.
fn together(first: (&[Key], &[u8]), second: (&[Key], &[u8])) -> Result<usize, u32> {
    let line = |file: &[u8], i: usize| -> [u8; FILE_LINE_BYTES] { file.as_chunks().0[i] };
    let (mut m, mut n, mut both) = (0, 0, 0);
    while m < first.0.len() && n < second.0.len() {
        let (key, other) = (first.0[m].0, second.0[n].0);
        if key == other {
            if line(first.1, m) != line(second.1, n) {
                return Err(15);
            }
            both += 1;
        }
        m += usize::from(key <= other);
        n += usize::from(other <= key);
    }
    Ok(first.0.len() + second.0.len() - both)
}

/// Writes the lines of both to a place that has as many bytes.
fn write(first: (&[Key], &[u8]), second: (&[Key], &[u8]), place: &mut [u8]) {
    let (ours, theirs) = (first.1.as_chunks::<FILE_LINE_BYTES>().0, second.1.as_chunks::<FILE_LINE_BYTES>().0);
    let (mut m, mut n) = (0, 0);
    let (lines, _) = place.as_chunks_mut::<FILE_LINE_BYTES>();
    let mut lines = lines.iter_mut();
    while m < ours.len() && n < theirs.len() {
        let (key, other) = (first.0[m].0, second.0[n].0);
        let Some(line) = lines.next() else { return };
        *line = if key <= other { ours[m] } else { theirs[n] };
        m += usize::from(key <= other);
        n += usize::from(other <= key);
    }
    let rest = lines.into_slice().as_flattened_mut();
    let tail = if m < ours.len() { ours[m..].as_flattened() } else { theirs[n..].as_flattened() };
    rest.copy_from_slice(tail);
}

/// Merge: writes the lines of both files and says how many bytes these are, or gives the refusal and writes nothing.
pub fn merge(first: &[u8], second: &[u8], lent: &mut [u8]) -> Result<usize, u32> {
    let keys = (kept(first, |_| ())?, kept(second, |_| ())?);
    let (first, second) = ((&keys.0[..], first), (&keys.1[..], second));
    let length = FILE_LINE_BYTES * together(first, second)?;
    let place = lent.get_mut(..length).ok_or(17u32)?;
    write(first, second, place);
    Ok(length)
}

/// Common view as C calls it: 0 and the first four of the lent values written, or the refusal and none.
pub fn view_values(first: &[u8], second: &[u8], lent: &mut [i64]) -> u32 {
    match viewed(first, second) {
        Err(refusal) => refusal,
        Ok(report) => match lent.first_chunk_mut() {
            None => 9,
            Some(place) => {
                *place = report;
                0
            }
        },
    }
}

fn viewed(first: &[u8], second: &[u8]) -> Result<[i64; REPORT_VALUES], u32> {
    if first.len() > LONGEST_FILE || second.len() > LONGEST_FILE {
        return Err(19);
    }
    let sight = |columns: &Columns| (trkl(columns), refsys(columns));
    let (first, second) = (kept(first, sight)?, kept(second, sight)?);
    let (mut pairs, mut sum, mut smallest, mut largest) = (0, 0, i64::MAX, i64::MIN);
    let (mut m, mut n) = (0, 0);
    while m < first.len() && n < second.len() {
        let ((key, ours), (other, theirs)) = (first[m], second[n]);
        if key == other && ours.0 == theirs.0 {
            let difference = ours.1 - theirs.1;
            (pairs, sum) = (pairs + 1, sum + difference);
            (smallest, largest) = (difference.min(smallest), difference.max(largest));
        }
        m += usize::from(key <= other);
        n += usize::from(other <= key);
    }
    if pairs == 0 {
        return Err(18);
    }
    Ok([pairs, sum, smallest, largest])
}
