//! Pairs of line files for a common view: shared in every way, faulty at every place, damaged, short and the longest, with
//! differences of every size.

use crate::compare::{Compare, Lent, Report};
use crate::file_faults::{decided, each_few, together, Fault, Pairs};
use crate::file_pairs::{allot, damaged_files, junk_files, keyed_lines, other_trkl, three_lines, Share, SHARES};
use crate::view_faults::{faulty_views, of_views, FAR_LINES, FAR_MJD};
use crate::{answers, lents};
use reference::good_files::{
    lines_in, long_file, put_refsys, put_trkl, refsys_in, repair, seen_again, with_refsys, Ended, Span,
};
use reference::seeded::Seeded;
use reference::{keys, Labels, FILE_LINE_BYTES, LONGEST_FILE, REPORT_VALUES};

/// The numbers that a common view answers.
const VIEW_NUMBERS: [u32; 9] = [19, 12, 14, 13, 7, 8, 16, 18, 9];
const REPORTS: [Lent; 5] = [Lent::Null, Lent::Of(0), Lent::Of(3), Lent::Of(4), Lent::Of(5)];
/// Those in which both files have a line of the same keys.
const MEETING: [Share; 3] = [Share::Any, Share::Equal, Share::Inside];
/// The largest REFSYS.
const MOST: i64 = 9_999_999_999;

pub fn run(compare: &mut Compare, seeded: &mut Seeded, scale: usize) -> Pairs {
    let mut pairs = Pairs::new();
    let far = long_file(FAR_MJD, FAR_LINES, seeded);
    for round in 0..24 * scale {
        faulty(compare, seeded, round % 6 == 0, &far, &mut pairs);
    }
    for _ in 0..8_000 * scale {
        SHARES.iter().chain(&MEETING).for_each(|share| shared(compare, seeded, *share));
        let (first, second) = damaged_files(seeded);
        compare.view("damaged files", Some(&first), Some(&second), seeded.pick(&REPORTS)).ok();
    }
    for _ in 0..2_000 * scale {
        let (first, second) = junk_files(seeded);
        compare.view("junk files", Some(&first), Some(&second), seeded.pick(&REPORTS)).ok();
    }
    lengths(compare, seeded);
    all_keys(compare, seeded);
    track_lengths(compare, seeded);
    refsys_values(compare, seeded);
    nothing(compare);
    long(compare, seeded);
    long_faults(compare, seeded);
    longest(compare, seeded);
    pairs
}

/// Prints the counts; gives what should have been seen and was not.
pub fn report(compare: &Compare, pairs: &Pairs) -> Vec<String> {
    let mut missing = Vec::new();
    answers(compare, "view", &VIEW_NUMBERS, &mut missing);
    lents(compare, "view", &VIEW_NUMBERS, (&REPORTS, REPORT_VALUES), &mut missing);
    missing.extend(together("view", &of_views(), pairs));
    missing
}

/// Faulty files, one for each fault and each few; those that are too long only where asked for, as each costs much.
fn faulty(compare: &mut Compare, seeded: &mut Seeded, with_long: bool, far: &[u8], pairs: &mut Pairs) {
    let mut all = of_views();
    all.retain(|fault| with_long || !matches!(fault, Fault::Long(_)));
    each_few(&all, seeded, |faults, seeded| {
        let (first, second, lent) = faulty_views(faults, far, seeded);
        compare.view_known("faulty files", (&first, &second), lent, Err(decided(faults, pairs)));
    });
}

/// What is reported of these differences.
pub fn report_of(differences: &[i64]) -> Report {
    let (Some(smallest), Some(largest)) = (differences.iter().min(), differences.iter().max()) else {
        return Err(18);
    };
    Ok([differences.len() as i64, differences.iter().sum(), *smallest, *largest])
}

/// How a line of the second file is like that of the first.
#[derive(Clone, Copy, Debug)]
enum Like {
    /// byte by byte
    Same,
    /// in keys and track length
    Again,
    /// in its keys alone
    OtherLength,
}

const LIKES: [&[Like]; 5] = [
    &[Like::Same],
    &[Like::Again],
    &[Like::Again, Like::OtherLength],
    &[Like::Same, Like::Again, Like::OtherLength],
    &[Like::OtherLength],
];

fn partner(like: Like, labels: &Labels, line: &Ended, seeded: &mut Seeded) -> Ended {
    let mut again = seen_again(labels, line, seeded);
    match like {
        Like::Same => return *line,
        Like::Again => {}
        Like::OtherLength => other_trkl(&mut again),
    }
    again
}

/// Two good files, the one or the other first, with any report lent.
fn shared(compare: &mut Compare, seeded: &mut Seeded, share: Share) {
    let any = seeded.below(20) as usize;
    let most = seeded.pick(&[1, 2, 3, any]);
    let lines = lines_in(Span::narrow(seeded), most, seeded);
    let likes = seeded.pick(&LIKES);
    let (mut files, mut differences) = ([Vec::new(), Vec::new()], Vec::new());
    let turned = seeded.below(2) as usize;
    for (i, (labels, line)) in lines.values().enumerate() {
        let (first, second) = allot(share, i, lines.len(), seeded);
        let like = seeded.pick(likes);
        let other = partner(like, labels, line, seeded);
        files[turned].extend(first.then_some(line).into_iter().flatten());
        files[1 - turned].extend(second.then_some(other).into_iter().flatten());
        if first && second && !matches!(like, Like::OtherLength) {
            let difference = refsys_in(line) - refsys_in(&other);
            differences.push(if turned == 1 { -difference } else { difference });
        }
    }
    let any = seeded.pick(&REPORTS);
    let lent = seeded.pick(&[Lent::Of(4), Lent::Of(5), any]);
    compare.view_known("shared tracks", (&files[0], &files[1]), lent, report_of(&differences));
}

/// Every length of a file of three lines, as the first file and as the second.
fn lengths(compare: &mut Compare, seeded: &mut Seeded) {
    let (file, other) = (three_lines(seeded), three_lines(seeded));
    for length in 0..=file.len() {
        let pairs = (length / FILE_LINE_BYTES) as i64;
        let cut = length % FILE_LINE_BYTES > 0;
        let part = &file[..length];
        let itself = if cut { Err(12) } else { report_of(&vec![0; pairs as usize]) };
        let nothing = Err(if cut { 12 } else { 18 });
        for lent in REPORTS {
            compare.view_known("files by their length", (part, &file), lent, itself);
            compare.view_known("files by their length", (&file, part), lent, itself);
            compare.view_known("files by their length", (part, &[]), lent, nothing);
            compare.view_known("files by their length", (&[], part), lent, nothing);
            compare.view("files by their length", Some(part), Some(&other), lent).ok();
        }
    }
}

/// Every two of 180 keys.
fn all_keys(compare: &mut Compare, seeded: &mut Seeded) {
    let mut lines = keyed_lines(seeded);
    lines.iter_mut().for_each(|(_, line)| put_trkl(line, 780));
    for (labels, line) in &lines {
        for (other_labels, other) in &lines {
            let pair = keys(labels) == keys(other_labels);
            let report = if pair { Ok([1, 0, 0, 0]) } else { Err(18) };
            compare.view_known("two keys", (line, other), Lent::Of(4), report);
        }
    }
}

/// Every two of the 49 track lengths.
fn track_lengths(compare: &mut Compare, seeded: &mut Seeded) {
    let line = three_lines(seeded)[..FILE_LINE_BYTES].to_vec();
    let [mut first, mut second] = [line.clone(), line];
    for n in 4..=52 {
        put_trkl(&mut first, 15 * n);
        for other in 4..=52 {
            put_trkl(&mut second, 15 * other);
            let report = if n == other { Ok([1, 0, 0, 0]) } else { Err(18) };
            compare.view_known("two track lengths", (&first, &second), Lent::Of(4), report);
        }
    }
}

/// Every two of the values of REFSYS at which a digit or the sign changes; alone, and in a file before and behind a
/// pair without a difference.
fn refsys_values(compare: &mut Compare, seeded: &mut Seeded) {
    let mut values: Vec<i64> = (0..10).flat_map(|digits| [10i64.pow(digits), 10i64.pow(digits) - 1]).collect();
    values.extend([MOST, 5 * 10i64.pow(9), (1 << 31) - 1, 1 << 31, 1 << 32, 1 << 33, 1_234_567_890]);
    values.extend(values.clone().iter().map(|value| -value));
    let file = three_lines(seeded);
    let (mut first, mut second) = (file.clone(), file);
    for value in &values {
        for other in &values {
            let line = FILE_LINE_BYTES..2 * FILE_LINE_BYTES;
            put_refsys(&mut first[line.clone()], *value);
            put_refsys(&mut second[line.clone()], *other);
            let d = value - other;
            compare.view_known("values", (&first[line.clone()], &second[line]), Lent::Of(5), Ok([1, d, d, d]));
            compare.view_known("values", (&first, &second), Lent::Of(5), Ok([3, d, d.min(0), d.max(0)]));
        }
    }
}

/// Empty files, NULL or not, with any report.
fn nothing(compare: &mut Compare) {
    for lent in REPORTS {
        for first in [None, Some(&[][..])] {
            for second in [None, Some(&[][..])] {
                assert_eq!(compare.view("empty files", first, second, lent), Err(18));
            }
        }
    }
}

/// Files of 10,000 lines: the largest differences, differences of both signs, pairs at the ends alone.
fn long(compare: &mut Compare, seeded: &mut Seeded) {
    let file = long_file(60_000, LONGEST_FILE / FILE_LINE_BYTES, seeded);
    let [high, low] = [MOST, -MOST].map(|refsys| with_refsys(&file, |_| refsys));
    let mut known = |first: &[u8], second: &[u8], report: [i64; 4]| {
        compare.view_known("long files", (first, second), Lent::Of(5), Ok(report));
    };
    known(&high, &low, [10_000, 199_999_999_980_000, 19_999_999_998, 19_999_999_998]);
    known(&low, &high, [10_000, -199_999_999_980_000, -19_999_999_998, -19_999_999_998]);
    known(&file, &file, [10_000, 0, 0, 0]);
    let [even, odd] = [0, 1].map(|turn| with_refsys(&file, |i| if i % 2 == turn { MOST } else { -MOST }));
    known(&even, &odd, [10_000, 0, -19_999_999_998, 19_999_999_998]);
    let rising = with_refsys(&file, |i| i as i64 + 1);
    let none = with_refsys(&file, |_| 0);
    known(&rising, &none, [10_000, 50_005_000, 1, 10_000]);
    known(&none, &rising, [10_000, -50_005_000, -10_000, -1]);
    known(&rising, &none[..115], [1, 1, 1, 1]);
    known(&rising, &none[115 * 9_999..], [1, 10_000, 10_000, 10_000]);
    known(&none[115 * 9_999..], &rising, [1, -10_000, -10_000, -10_000]);
    known(&rising[..115 * 5_001], &none[115 * 5_000..], [1, 5_001, 5_001, 5_001]);
    // all but the first and the last have another track length
    let mut others = none.clone();
    others[115..115 * 9_999].chunks_exact_mut(115).for_each(other_trkl);
    known(&rising, &others, [2, 10_001, 1, 10_000]);
}

/// A fault in the last line of 10,000.
fn long_faults(compare: &mut Compare, seeded: &mut Seeded) {
    let file = long_file(60_000, LONGEST_FILE / FILE_LINE_BYTES, seeded);
    let at = LONGEST_FILE - FILE_LINE_BYTES;
    let spoilt = |column: usize, text: &[u8], check: bool| {
        let mut file = file.clone();
        file[at + column - 1..at + column - 1 + text.len()].copy_from_slice(text);
        if check {
            repair(&mut file[at..]);
        }
        file
    };
    let mut equal = file.clone();
    equal.copy_within(at - FILE_LINE_BYTES..at, at);
    for (number, faulty) in [
        (14, spoilt(112, b"  ", false)),
        (13, spoilt(1, b"S", true)),
        (7, spoilt(2, b"00", true)),
        (8, spoilt(18, b"01", true)),
        (13, spoilt(114, b"\n", false)),
        (16, equal),
    ] {
        let line = &file[..FILE_LINE_BYTES];
        compare.view_known("long files", (&faulty, line), seeded.pick(&REPORTS), Err(number));
        compare.view_known("long files", (line, &faulty), seeded.pick(&REPORTS), Err(number));
    }
}

/// Files of 1,150,000 bytes, one fewer and one more, the first, the second or both; and longer ones, whatever the other
/// is.
fn longest(compare: &mut Compare, seeded: &mut Seeded) {
    let long = [long_file(60_000, LONGEST_FILE / FILE_LINE_BYTES, seeded), long_file(70_000, 1, seeded)].concat();
    let sizes = [LONGEST_FILE - 1, LONGEST_FILE, LONGEST_FILE + 1, LONGEST_FILE + FILE_LINE_BYTES];
    for first in sizes {
        for second in sizes {
            let report = if first.max(second) > LONGEST_FILE {
                Err(19)
            } else if first.min(second) < LONGEST_FILE {
                Err(12)
            } else {
                Ok([10_000, 0, 0, 0])
            };
            let lent = seeded.pick(&REPORTS);
            compare.view_known("the longest files", (&long[..first], &long[..second]), lent, report);
        }
    }
    let huge = vec![b'\n'; 4 * LONGEST_FILE];
    for lent in REPORTS {
        for other in [&[][..], b"no line", &long[..115], &long[..114], &long, &huge] {
            compare.view_known("the longest files", (&huge, other), lent, Err(19));
            compare.view_known("the longest files", (other, &huge), lent, Err(19));
        }
    }
}
