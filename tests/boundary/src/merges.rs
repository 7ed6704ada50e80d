//! Pairs of line files: shared in every way, faulty at every place, damaged, of every length, with every room.

use crate::answers;
use crate::compare::{Compare, Lent};
use crate::file_faults::{decided, each_few, together, Pairs};
use crate::file_pairs::{allot, damaged_files, junk_files, keyed_lines, three_lines, Share, SHARES};
use crate::merge_faults::{faulty_files, of_merges};
use reference::good_files::{lines_in, long_file, repair, Ended, Span};
use reference::seeded::Seeded;
use reference::{keys, FILE_LINE_BYTES};

/// The numbers that merge answers.
pub const MERGE_NUMBERS: [u32; 8] = [12, 14, 13, 7, 8, 16, 15, 17];

pub fn run(compare: &mut Compare, seeded: &mut Seeded, scale: usize) -> Pairs {
    let mut pairs = Pairs::new();
    for _ in 0..40 * scale {
        faulty(compare, seeded, &mut pairs);
    }
    for _ in 0..6_000 * scale {
        SHARES.iter().for_each(|share| shared(compare, seeded, *share));
        differing(compare, seeded);
        damaged(compare, seeded);
        junk(compare, seeded);
    }
    for _ in 0..4 * scale {
        lengths(compare, seeded);
        rooms(compare, seeded);
        line_ends(compare, seeded);
    }
    all_keys(compare, seeded);
    nothing(compare);
    for count in [1, 10, 100, 1000, 10_000] {
        long(compare, seeded, count);
    }
    pairs
}

/// Prints the counts; gives what should have been seen and was not.
pub fn report(compare: &Compare, pairs: &Pairs) -> Vec<String> {
    let mut missing = Vec::new();
    answers(compare, "merge", &MERGE_NUMBERS, &mut missing);
    missing.extend(together("merge", &of_merges(), pairs));
    missing
}

/// Faulty files, one for each fault and each few.
fn faulty(compare: &mut Compare, seeded: &mut Seeded, pairs: &mut Pairs) {
    each_few(&of_merges(), seeded, |faults, seeded| {
        let (first, second, lent) = faulty_files(faults, seeded);
        compare.merge_known("faulty files", (&first, &second), lent, decided(faults, pairs));
    });
}

/// Two good files, the one or the other first, with any room.
fn shared(compare: &mut Compare, seeded: &mut Seeded, share: Share) {
    let any = seeded.below(30) as usize;
    let most = seeded.pick(&[1, 2, 3, any]);
    let lines = lines_in(Span::narrow(seeded), most, seeded);
    let (mut files, mut count) = ([Vec::new(), Vec::new()], 0);
    for (i, (_, line)) in lines.values().enumerate() {
        let (first, second) = allot(share, i, lines.len(), seeded);
        files[0].extend(first.then_some(line).into_iter().flatten());
        files[1].extend(second.then_some(line).into_iter().flatten());
        count += 1;
    }
    if seeded.below(2) == 0 {
        files.swap(0, 1);
    }
    let length = FILE_LINE_BYTES * count;
    let any = seeded.below(2 * length as u64 + 2) as usize;
    let room = seeded.pick(&[length, length, length + 1, length.saturating_sub(1), length + 115, any, 0]);
    let expected = if room < length { 17 } else { 0 };
    compare.merge_known("shared lines", (&files[0], &files[1]), Lent::Of(room), expected);
}

/// Two files that share lines; in one of these a digit is another, in columns that hold any digit, and CK fits it.
fn differing(compare: &mut Compare, seeded: &mut Seeded) {
    const COLUMNS: [usize; 10] = [5, 6, 73, 76, 82, 92, 95, 105, 106, 110];
    let any = 1 + seeded.below(12) as usize;
    let lines: Vec<Ended> = lines_in(Span::narrow(seeded), any, seeded).values().map(|(_, line)| *line).collect();
    let (mut first, mut second) = (Vec::new(), Vec::new());
    let other = seeded.below(lines.len() as u64) as usize;
    for (i, line) in lines.iter().enumerate() {
        let whose = if i == other { 2 } else { seeded.below(3) };
        first.extend((whose != 1).then_some(*line));
        second.extend((whose != 0).then_some(*line));
    }
    let k = second.iter().position(|line| *line == lines[other]).expect("a shared line");
    let at = seeded.pick(&COLUMNS) - 1;
    second[k][at] = if second[k][at] == b'7' { b'8' } else { b'7' };
    repair(&mut second[k]);
    let mut files = [first.concat(), second.concat()];
    if seeded.below(2) == 0 {
        files.swap(0, 1);
    }
    let room = Lent::Of(seeded.below(115 * 2 * lines.len() as u64) as usize);
    compare.merge_known("lines that differ", (&files[0], &files[1]), room, 15);
}

fn damaged(compare: &mut Compare, seeded: &mut Seeded) {
    let (first, second) = damaged_files(seeded);
    let room = seeded.below((first.len() + second.len()) as u64 + 200) as usize;
    compare.merge("damaged files", Some(&first), Some(&second), Lent::Of(room));
}

fn junk(compare: &mut Compare, seeded: &mut Seeded) {
    let (first, second) = junk_files(seeded);
    let room = Lent::Of(seeded.below(500) as usize);
    compare.merge("junk files", Some(&first), Some(&second), room);
}

/// Every length of a file of three lines, as the first file and as the second.
fn lengths(compare: &mut Compare, seeded: &mut Seeded) {
    let (file, other) = (three_lines(seeded), three_lines(seeded));
    for length in 0..=file.len() {
        for room in [Lent::Null, Lent::Of(0), Lent::Of(345), Lent::Of(690)] {
            compare.merge("files by their length", Some(&file[..length]), Some(&other), room);
            compare.merge("files by their length", Some(&other), Some(&file[..length]), room);
            compare.merge("files by their length", Some(&file[..length]), Some(&file), room);
            compare.merge("files by their length", Some(&file[..length]), None, room);
            compare.merge("files by their length", None, Some(&file[..length]), room);
        }
    }
}

/// Every room from none to more than both files take.
fn rooms(compare: &mut Compare, seeded: &mut Seeded) {
    let file = three_lines(seeded);
    for room in 0..=file.len() + 120 {
        let expected = if room < file.len() { 17 } else { 0 };
        let lent = Lent::Of(room);
        compare.merge_known("files by the room", (&file[..230], &file[230..]), lent, expected);
        compare.merge_known("files by the room", (&file[115..], &file[..230]), lent, expected);
        compare.merge_known("files by the room", (&file, &file), lent, expected);
    }
}

/// Every byte in each place of a line end, at each line of either file.
fn line_ends(compare: &mut Compare, seeded: &mut Seeded) {
    let file = three_lines(seeded);
    for (line, at) in [(0, 113), (0, 114), (1, 113), (1, 114), (2, 113), (2, 114)] {
        for byte in 0..=u8::MAX {
            let mut changed = file.clone();
            changed[115 * line + at] = byte;
            let expected = if changed == file { 0 } else { 13 };
            compare.merge_known("files by a line end", (&changed, &file), Lent::Of(345), expected);
            compare.merge_known("files by a line end", (&file, &changed), Lent::Of(345), expected);
        }
    }
}

/// Every two of 180 keys, in one file and in two.
fn all_keys(compare: &mut Compare, seeded: &mut Seeded) {
    let lines = keyed_lines(seeded);
    for (labels, line) in &lines {
        for (other_labels, other) in &lines {
            let follows = keys(labels) < keys(other_labels);
            let both = [*line, *other].concat();
            compare.merge_known("two keys", (&both, &[]), Lent::Of(230), if follows { 0 } else { 16 });
            compare.merge_known("two keys", (line, other), Lent::Of(230), 0);
        }
    }
}

/// Empty files, NULL or not, with any room.
fn nothing(compare: &mut Compare) {
    for lent in [Lent::Null, Lent::Of(0), Lent::Of(1), Lent::Of(115)] {
        for first in [None, Some(&[][..])] {
            for second in [None, Some(&[][..])] {
                assert_eq!(compare.merge("empty files", first, second, lent), 0);
            }
        }
    }
}

/// Long files, with each line in one of them or in both, whole and with a fault far behind.
fn long(compare: &mut Compare, seeded: &mut Seeded, count: usize) {
    let file = long_file(60_000, count, seeded);
    let (mut first, mut second) = (Vec::new(), Vec::new());
    for line in file.chunks(FILE_LINE_BYTES) {
        let whose = seeded.below(3);
        first.extend((whose != 1).then_some(line).into_iter().flatten());
        second.extend((whose != 0).then_some(line).into_iter().flatten());
    }
    compare.merge_known("long files", (&first, &second), Lent::Of(file.len()), 0);
    compare.merge_known("long files", (&second, &first), Lent::Of(file.len() + 1), 0);
    compare.merge_known("long files", (&file, &second), Lent::Of(file.len() - 1), 17);
    let mut changed = file.clone();
    changed[FILE_LINE_BYTES * count - 3] ^= 1;
    compare.merge_known("long files", (&file, &changed), Lent::Of(2 * file.len()), 14);
    let falling = [&file[..], &file[..FILE_LINE_BYTES]].concat();
    compare.merge_known("long files", (&file, &falling), Lent::Of(2 * file.len()), 16);
}
