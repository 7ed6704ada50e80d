//! Tracks with the same whole multiple of 100 ps added to every measurement: in a line REFSV and REFSYS move by so many units and
//! nothing else does, and the common view of two files of such lines stays, its refusals too.

use crate::case::{good_of, Case};
use crate::compare::{Compare, Lent};
use crate::edges::edged;
use crate::library;
use crate::views::report_of;
use reference::good::{good_blocks, good_labels};
use reference::good_files::{lines_in, put, refsys_in, repair, Span};
use reference::seeded::Seeded;
use reference::{Labels, LEAST_BLOCKS, LINE_BYTES, MOST_BLOCKS};
use std::collections::BTreeMap;

const FAMILY: &str = "shared offsets";
/// Pairs of tracks that are to be tried at least.
const LEAST_PAIRS: u64 = 10_000;
/// Units that bring REFSV to the end of its columns.
const MOST: i64 = 9_999_999_999;

type Line = [u8; LINE_BYTES];
/// The line of a track before the shift and after it.
type Lines = (Line, Line);

/// What was tried.
#[derive(Default)]
pub struct Tried {
    /// pairs of tracks that are accepted before and after, by their number of blocks
    pairs: BTreeMap<usize, u64>,
    /// tracks that are accepted before the shift and not after it, by the refusal
    refused: BTreeMap<u32, u64>,
    /// pairs of files, by the answer of their common view
    views: BTreeMap<u32, u64>,
}

/// The line files of two receivers, in lines, and what the tracks of both differ by.
#[derive(Default)]
struct Files {
    receivers: [Vec<Lines>; 2],
    differences: Vec<i64>,
}

pub fn run(compare: &mut Compare, seeded: &mut Seeded, scale: usize) -> Tried {
    let mut tried = Tried::default();
    for _ in 0..5_000 * scale {
        two_receivers(compare, seeded, &mut tried);
    }
    tried
}

/// Prints the counts; gives what should have been seen and was not.
pub fn report(tried: &Tried) -> Vec<String> {
    let Tried { pairs, refused, views } = tried;
    let total: u64 = pairs.values().sum();
    println!("shared offsets: {total} pairs of tracks; refused after the shift: {refused:?}; common views: {views:?}");
    let mut missing = Vec::new();
    if total < LEAST_PAIRS {
        missing.push(format!("{LEAST_PAIRS} pairs of tracks with a shared offset"));
    }
    let lengths = (LEAST_BLOCKS..=MOST_BLOCKS).filter(|n| !pairs.contains_key(n));
    missing.extend(lengths.map(|n| format!("a pair of tracks of {n} blocks with a shared offset")));
    let answers = [0, 16, 18].iter().filter(|answer| !views.contains_key(answer));
    missing.extend(answers.map(|answer| format!("a common view of shifted tracks that is {answer}")));
    let refusals = [2, 3].iter().filter(|refusal| !refused.contains_key(refusal));
    missing.extend(refusals.map(|refusal| format!("a shifted track that is refused with {refusal}")));
    missing
}

/// A few tracks as two receivers saw them, and a number of units by which all are shifted.
fn two_receivers(compare: &mut Compare, seeded: &mut Seeded, tried: &mut Tried) {
    let most = seeded.range(1, 12) as usize;
    let lines = lines_in(Span::narrow(seeded), most, seeded);
    let tracks: Vec<[Case; 2]> = lines.values().map(|(labels, _)| seen_by_two(labels, seeded)).collect();
    let k = any_units(&tracks[0][0], seeded);
    let mut files = Files::default();
    for track in &tracks {
        let whose = seeded.below(8) as usize;
        let [first, second] =
            [0, 1].map(|i| if whose == i { None } else { shifted_lines(compare, &track[i], k, tried) });
        if let (Some(one), Some(two)) = (first, second) {
            *tried.pairs.entry(track[0].blocks()).or_default() += 1;
            let same_length = track[0].blocks() == track[1].blocks();
            files.differences.extend(same_length.then(|| refsys_in(&one.0) - refsys_in(&two.0)));
        }
        files.receivers[0].extend(first);
        files.receivers[1].extend(second);
    }
    viewed(compare, files, seeded, tried);
}

/// One track in the blocks of two receivers: the same keys, and mostly the same number of blocks.
fn seen_by_two(labels: &Labels, seeded: &mut Seeded) -> [Case; 2] {
    let Labels { constellation, satellite, fr, mjd, start, ioe, .. } = *labels;
    let n = good_blocks(seeded);
    let other = if seeded.below(8) == 0 { good_blocks(seeded) } else { n };
    [n, other].map(|n| {
        let case = good_of(n, seeded);
        let mut case = if seeded.below(2) == 0 { case } else { edged(case, false, seeded) };
        case.labels = Labels { constellation, satellite, fr, mjd, start, ioe, ..good_labels(seeded) };
        case
    })
}

/// Few units, units of any size, so many that REFSV comes next to 0, or about as many as a line can hold.
fn any_units(case: &Case, seeded: &mut Seeded) -> i64 {
    match seeded.below(5) {
        0 => seeded.range(-5, 5),
        1 => -case.mean_a() / 100 + seeded.range(-3, 3),
        2 => seeded.pick(&[MOST, -MOST]) - case.mean_a() / 100 + seeded.range(-3, 3),
        _ => seeded.spread(MOST),
    }
}

/// The archive's line of a track before the shift and after it, if it is accepted both times.
fn shifted_lines(compare: &mut Compare, case: &Case, k: i64, tried: &mut Tried) -> Option<Lines> {
    let before = line_of(compare, case).ok()?;
    let mut shifted = case.clone();
    shifted.measurements.iter_mut().for_each(|m| *m += 100 * k);
    let after = match line_of(compare, &shifted) {
        Ok(after) => after,
        Err(refusal) => {
            *tried.refused.entry(refusal).or_default() += 1;
            // nothing else of a track that was accepted moves
            compare.expect(matches!(refusal, 2 | 3), || format!("a shift by {k} units is refused with {refusal}"));
            return None;
        }
    };
    let wanted = moved(&before, k);
    compare.expect(after == wanted, || {
        let [before, wanted, after] = [before, wanted, after].map(|line| String::from_utf8_lossy(&line).into_owned());
        format!("a shift by {k} units\n  before    {before}\n  should be {wanted}\n  was       {after}")
    });
    Some((before, after))
}

fn line_of(compare: &mut Compare, case: &Case) -> Result<Line, u32> {
    let bytes = case.bytes();
    compare.block(FAMILY, Some(&bytes), Lent::Of(LINE_BYTES));
    let mut line = [0; LINE_BYTES];
    match library::block(Some(&bytes), Some(&mut line)) {
        0 => Ok(line),
        refusal => Err(refusal),
    }
}

/// The line with REFSV and REFSYS more by k, and its CK put right.
fn moved(before: &Line, k: i64) -> Line {
    let mut line = *before;
    let refsv: i64 = std::str::from_utf8(&before[34..45]).expect("ASCII").parse().expect("a number");
    put(&mut line, 35, format!("{:+011}", refsv + k).as_bytes());
    put(&mut line, 54, format!("{:+011}", refsys_in(before) + k).as_bytes());
    repair(&mut line);
    line
}

/// The common view of the files before the shift and after it; at times one of them does not ascend.
fn viewed(compare: &mut Compare, mut files: Files, seeded: &mut Seeded, tried: &mut Tried) {
    let turned = seeded.below(16) as usize;
    let mut falls = false;
    if let Some(lines) = files.receivers.get_mut(turned) {
        lines.reverse();
        falls = lines.len() > 1;
    }
    let report = if falls { Err(16) } else { report_of(&files.differences) };
    *tried.views.entry(report.err().unwrap_or(0)).or_default() += 1;
    let file = |lines: &[Lines], of: fn(&Lines) -> Line| -> Vec<u8> {
        lines.iter().flat_map(|lines| [&of(lines)[..], b"\r\n"].concat()).collect()
    };
    for of in [|lines: &Lines| lines.0, |lines: &Lines| lines.1] {
        let [first, second] = files.receivers.each_ref().map(|lines| file(lines, of));
        compare.view_known(FAMILY, (&first, &second), Lent::Of(4), report);
    }
}
