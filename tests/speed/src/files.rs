//! Two line files merged, and their common view: the archive beside plain Rust, and twice the lines beside the lines.

use crate::library;
use crate::timing::Pair;
use reference::good_files::{long_file, with_refsys};
use reference::seeded::Seeded;
use reference::{FILE_LINE_BYTES, LONGEST_FILE, REPORT_VALUES};
use std::fmt::Debug;

// Never inlined and with plain names, so that valgrind can count what is inside.
/// Both files have as many bytes, and stand one behind the other.
#[inline(never)]
#[no_mangle]
fn speed_proved_merge(files: &[u8], lent: &mut [u8]) -> u32 {
    let (first, second) = files.split_at(files.len() / 2);
    let mut written = 0;
    library::merge(Some(first), Some(second), Some(lent), &mut written)
}

#[inline(never)]
#[no_mangle]
fn speed_plain_merge(files: &[u8], lent: &mut [u8]) -> u32 {
    let (first, second) = files.split_at(files.len() / 2);
    fast::merge(first, second, lent).err().unwrap_or(0)
}

#[inline(never)]
#[no_mangle]
fn speed_proved_view(files: &[u8], lent: &mut [i64]) -> u32 {
    let (first, second) = files.split_at(files.len() / 2);
    library::view(Some(first), Some(second), Some(lent))
}

#[inline(never)]
#[no_mangle]
fn speed_plain_view(files: &[u8], lent: &mut [i64]) -> u32 {
    let (first, second) = files.split_at(files.len() / 2);
    fast::view_values(first, second, lent)
}

/// One file behind the other.
fn joined(first: Vec<u8>, second: Vec<u8>, lines: usize) -> Vec<u8> {
    assert_eq!((first.len(), second.len()), (FILE_LINE_BYTES * lines, FILE_LINE_BYTES * lines));
    [first, second].concat()
}

/// Two files of so many lines, line by line in turns, a fifth of each also in the other.
fn two_files(lines: usize, seeded: &mut Seeded) -> Vec<u8> {
    let (mut first, mut second): (Vec<u8>, Vec<u8>) = (Vec::new(), Vec::new());
    for (i, line) in long_file(60_000, lines / 5 * 9, seeded).chunks(FILE_LINE_BYTES).enumerate() {
        if i % 9 == 0 || i % 2 == 0 {
            first.extend(line);
        }
        if i % 9 == 0 || i % 2 == 1 {
            second.extend(line);
        }
    }
    joined(first, second, lines)
}

/// Two files of so many lines, of two receivers: four fifths of the tracks of each are also in the other, with another
/// REFSYS.
fn two_receivers(lines: usize, seeded: &mut Seeded) -> Vec<u8> {
    let all = long_file(60_000, lines / 5 * 6, seeded);
    let others = with_refsys(&all, |_| seeded.spread(9_999_999_999));
    let (mut first, mut second): (Vec<u8>, Vec<u8>) = (Vec::new(), Vec::new());
    for (i, (line, other)) in all.chunks(FILE_LINE_BYTES).zip(others.chunks(FILE_LINE_BYTES)).enumerate() {
        if i % 6 != 0 {
            first.extend(line);
        }
        if i % 6 != 3 {
            second.extend(other);
        }
    }
    joined(first, second, lines)
}

/// The time of a line of either file, in ten pairs of files.
fn timed<T: Clone + Default + PartialEq + Debug>(count: usize, lines: usize, pair: Pair<T>, mut files: impl FnMut() -> Vec<u8>) {
    let pairs: Vec<Vec<u8>> = (0..10).map(|_| files()).collect();
    pair.whole(count, &format!("a line, {lines} in each file"), 2 * lines, &pairs, Some(0));
}

/// Files of so many lines and of twice as many merged; the common view of files of half as many lines and of so many, which
/// are at most the 10,000 that it takes.
pub fn run(count: usize, lines: usize, seeded: &mut Seeded) {
    let lines = lines.div_ceil(10) * 10;
    for lines in [lines, 2 * lines] {
        let lent = FILE_LINE_BYTES * 2 * lines;
        let merge = Pair { function: "trackline_merge", proved: speed_proved_merge, plain: speed_plain_merge, lent };
        timed(count, lines, merge, || two_files(lines, seeded));
    }
    let viewed = lines.min(LONGEST_FILE / FILE_LINE_BYTES);
    for lines in [viewed / 2, viewed] {
        let lent = REPORT_VALUES;
        let view = Pair { function: "trackline_view", proved: speed_proved_view, plain: speed_plain_view, lent };
        timed(count, lines, view, || two_receivers(lines, seeded));
    }
}
