//! Compares the archive's C functions with the plain Rust implementation on seeded blocks, lines, readings, starts,
//! pairs of line files, stores of delays, sets of blocks and lines of version 01, and tries that what is added to all
//! measurements alike drops out.
//!
//!     [FIRST_SUBJECT=NAME] boundary [SEED [SCALE]]
//!
//! All subjects are compared, in the order of SUBJECTS; the one that FIRST_SUBJECT names comes before the others. Each has
//! a seed of its own, so that the order changes no case.
//!
//! Prints how many cases each answer, each pair of faults and each lent line or row of values had. Fails where the two
//! differ in an answer or in a byte, and where a refusal or a pair of faults that can be reached was not.
//! Lengths of paths are compared by their bits.

mod blocks;
mod case;
mod compare;
mod day_faults;
mod days;
mod edges;
mod faults;
mod file_faults;
mod file_pairs;
mod largest;
mod library;
mod lines;
mod merge_faults;
mod merges;
mod offsets;
mod paths;
mod reading_faults;
mod readings;
mod squares;
mod starts;
mod store_faults;
mod stores;
mod version01;
mod view_faults;
mod views;

use compare::{Compare, Lent};
use reference::seeded::Seeded;
use reference::{LINE_BYTES, VALUES};
use std::process::ExitCode;

const LINES: [Lent; 6] = [Lent::Null, Lent::Of(0), Lent::Of(112), Lent::Of(113), Lent::Of(114), Lent::Of(4096)];
const ROWS: [Lent; 5] = [Lent::Null, Lent::Of(0), Lent::Of(22), Lent::Of(23), Lent::Of(24)];

/// What is compared, in the usual order: what takes longest comes last.
const SUBJECTS: [&str; 12] = [
    "stores",
    "version01",
    "days",
    "lines",
    "blocks",
    "readings",
    "merges",
    "views",
    "paths",
    "offsets",
    "starts",
    "dates",
];

/// What the subjects with reports of their own have met.
#[derive(Default)]
struct Met {
    stored: stores::Met,
    days: days::Met,
    merged: file_faults::Pairs,
    viewed: file_faults::Pairs,
    shifted: offsets::Tried,
}

fn main() -> ExitCode {
    let arguments: Vec<u64> = std::env::args().skip(1).map(|a| a.parse().expect("a number")).collect();
    let seed = arguments.first().copied().unwrap_or(1);
    let scale = arguments.get(1).copied().unwrap_or(1) as usize;
    let (mut compare, mut met) = (Compare::new(seed), Met::default());
    in_order().iter().for_each(|subject| run(subject, &mut compare, &mut met, seed, scale));
    let mut missing = report(&compare);
    missing.extend(merges::report(&compare, &met.merged));
    missing.extend(views::report(&compare, &met.viewed));
    missing.extend(paths::report(&compare));
    missing.extend(offsets::report(&met.shifted));
    missing.extend(stores::report(&compare, &met.stored));
    missing.extend(days::report(&compare, &met.days));
    missing.extend(version01::report(&compare));
    missing.iter().for_each(|what| eprintln!("MISSING: {what}"));
    if compare.agreed() && missing.is_empty() {
        println!("boundary: no difference");
        return ExitCode::SUCCESS;
    }
    println!("boundary: FAILED");
    ExitCode::FAILURE
}

/// All subjects, that of FIRST_SUBJECT before the others; the usual order where it names none.
fn in_order() -> [&'static str; 12] {
    let first = std::env::var("FIRST_SUBJECT").unwrap_or_default();
    let mut subjects = SUBJECTS;
    subjects.sort_by_key(|subject| *subject != first);
    subjects
}

/// Compares one subject, with its own seed.
fn run(subject: &str, compare: &mut Compare, met: &mut Met, seed: u64, scale: usize) {
    let seeded = |own: u64| Seeded::new(seed + own);
    match subject {
        "lines" => lines::run(compare, &mut seeded(1), scale),
        "blocks" => blocks::run(compare, &mut seeded(2), scale),
        "starts" => starts::run(compare, &mut seeded(3), scale),
        "readings" => readings::run(compare, &mut seeded(4), scale),
        "dates" => readings::dates(compare, &mut seeded(5)),
        "merges" => met.merged = merges::run(compare, &mut seeded(6), scale),
        "views" => met.viewed = views::run(compare, &mut seeded(7), scale),
        "offsets" => met.shifted = offsets::run(compare, &mut seeded(8), scale),
        "stores" => met.stored = stores::run(compare, &mut seeded(9), scale),
        "days" => met.days = days::run(compare, &mut seeded(10), scale),
        "paths" => paths::run(compare, &mut seeded(11), scale),
        "version01" => version01::run(compare, &mut seeded(12), scale),
        _ => unreachable!("no subject of SUBJECTS: {subject}"),
    }
}

/// Prints the counts; gives what should have been seen and was not, or should not and was.
fn report(compare: &Compare) -> Vec<String> {
    let mut missing = Vec::new();
    for (of, order) in [
        ("block", &faults::BLOCK_ORDER[..]),
        ("line", &faults::LINE_ORDER),
        ("read", &reading_faults::READ_ORDER),
        ("comment", &reading_faults::READ_ORDER[..5]),
        ("start", &[7, 8]),
    ] {
        answers(compare, of, order, &mut missing);
        if of != "comment" {
            pairs(compare, of, order, &mut missing);
        }
        match of {
            "block" | "line" => lents(compare, of, order, (&LINES, LINE_BYTES), &mut missing),
            "read" => lents(compare, of, order, (&ROWS, VALUES), &mut missing),
            _ => {}
        }
    }
    missing
}

/// 0 and the numbers of an order, each once.
fn numbers(order: &[u32]) -> Vec<u32> {
    let mut numbers = vec![0];
    for number in order {
        if !numbers.contains(number) {
            numbers.push(*number);
        }
    }
    numbers
}

/// How often each answer came, and that no other number did; for the comment, the answer to the line that it was asked of.
fn answers(compare: &Compare, of: &'static str, order: &[u32], missing: &mut Vec<String>) {
    let seen = |answer: u32| compare.answers.get(&(of, answer)).copied().unwrap_or(0);
    let total: u64 = compare.answers.iter().filter(|(key, _)| key.0 == of).map(|(_, count)| count).sum();
    println!("trackline_{of}: {total} cases");
    for answer in numbers(order) {
        println!("  answer {answer:2}: {:9}", seen(answer));
        if seen(answer) == 0 {
            missing.push(format!("trackline_{of} never answered {answer}"));
        }
    }
    for (_, other) in compare.answers.keys().filter(|key| key.0 == of && !numbers(order).contains(&key.1)) {
        missing.push(format!("trackline_{of} answered {other}, which is none of its numbers"));
    }
}

/// A row for each deciding fault, a column for each other.
fn pairs(compare: &Compare, of: &'static str, order: &[u32], missing: &mut Vec<String>) {
    println!("  cases with two faults, the row's decides:");
    for (i, first) in order.iter().enumerate() {
        let mut row = format!("    {first:2}:");
        for (k, second) in order.iter().enumerate().skip(i + 1) {
            let count = compare.pairs.get(&(of, i, k)).copied().unwrap_or(0);
            row += &format!(" {second}:{count}");
            if count == 0 {
                missing.push(format!("trackline_{of} never met faults {first} and {second} together"));
            }
        }
        println!("{row}");
    }
}

/// Each answer with each length of what is lent that it can go with, where so much is enough.
fn lents(compare: &Compare, of: &'static str, order: &[u32], lengths: (&[Lent], usize), missing: &mut Vec<String>) {
    println!("  lent, all answers:");
    for lent in lengths.0 {
        let seen = |answer: u32| compare.lents.get(&(of, answer, *lent)).copied().unwrap_or(0);
        let answers = numbers(order);
        println!("    {lent:?}: {}", answers.iter().map(|answer| seen(*answer)).sum::<u64>());
        let enough = lent.len() >= lengths.1;
        for answer in answers.into_iter().filter(|answer| !(*answer == 0 && !enough || *answer == 9 && enough)) {
            if seen(answer) == 0 {
                missing.push(format!("trackline_{of} never answered {answer} to {lent:?} lent"));
            }
        }
    }
}
