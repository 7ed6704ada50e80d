//! Lines read back: good, faulty, damaged in every column, of every length, with each label and each clock there is.

use crate::compare::{Compare, Lent};
use crate::library;
use crate::reading_faults::*;
use reference::good::{good_comment, good_labels, good_numbers, track_start};
use reference::published::published;
use reference::seeded::Seeded;
use reference::{FIRST_MJD, LAST_MJD, LINE_BYTES, LONGEST_LINE, VALUES};

pub fn run(compare: &mut Compare, seeded: &mut Seeded, scale: usize) {
    faulty(compare, seeded, 60 * scale);
    for _ in 0..50_000 * scale {
        good(compare, seeded);
        likely(compare, seeded);
        junk(compare, seeded);
    }
    for _ in 0..100 * scale {
        (0..=28).for_each(|length| written(compare, seeded, length));
    }
    (0..4 * scale).for_each(|_| damaged_columns(compare, seeded));
    (0..20 * scale).for_each(|_| lengths(compare, seeded));
    printed(compare);
    clocks(compare, seeded);
    sweep_labels(compare, seeded);
    signed_fields(compare, seeded);
}

/// Every fault, every pair of faults, and nearly as many triples as pairs.
fn faulty(compare: &mut Compare, seeded: &mut Seeded, rounds: usize) {
    let all = of_readings();
    for _ in 0..rounds {
        for (i, first) in all.iter().enumerate() {
            one_faulty(compare, seeded, &[*first]);
            for second in &all[i + 1..] {
                one_faulty(compare, seeded, &[*first, *second]);
                let third = seeded.pick(&all);
                if third != *first && third != *second {
                    one_faulty(compare, seeded, &[*first, *second, third]);
                }
            }
        }
    }
}

fn one_faulty(compare: &mut Compare, seeded: &mut Seeded, faults: &[Fault]) {
    let (line, lent) = faulty_reading(faults, seeded);
    let answer = compare.read("faulty readings", Some(&line), lent);
    let numbers: Vec<u32> = faults.iter().map(|fault| fault.number()).collect();
    compare.faults("read", &READ_ORDER, &numbers, answer);
}

fn good(compare: &mut Compare, seeded: &mut Seeded) {
    let (line, lent) = faulty_reading(&[], seeded);
    let answer = compare.read("good readings", Some(&line), lent);
    compare.faults("read", &READ_ORDER, &[], answer);
}

/// Up to six digits changed for others, so that any label and any clock comes; CK put right more often than not.
fn likely(compare: &mut Compare, seeded: &mut Seeded) {
    let mut line = good_line(seeded);
    for _ in 0..seeded.range(1, 6) {
        let column = a_digit(OURS, seeded);
        line[column - 1] = seeded.pick(b"0123456789");
    }
    if seeded.below(4) > 0 {
        repair(&mut line);
    }
    let lent = any_room(seeded);
    compare.read("likely readings", Some(&line), lent);
}

/// Nothing but seeded bytes, all there are or those of a text; CK put right more often than not.
fn junk(compare: &mut Compare, seeded: &mut Seeded) {
    let length = if seeded.below(2) == 0 { seeded.range(113, 140) } else { seeded.range(0, 200) };
    let mut line = vec![0; length as usize];
    seeded.fill(&mut line);
    if seeded.below(2) == 0 {
        line.iter_mut().for_each(|byte| *byte = seeded.pick(b"0123456789 +-GRECJABDF"));
    }
    if seeded.below(4) > 0 {
        repair(&mut line);
    }
    let lent = any_room(seeded);
    compare.read("junk readings", Some(&line), lent);
}

/// A line that the archive wrote, with a comment of so many characters: what was given to Line is read, up to 27.
fn written(compare: &mut Compare, seeded: &mut Seeded, length: usize) {
    let (labels, numbers) = (good_labels(seeded), good_numbers(seeded));
    let mut line = vec![0; LINE_BYTES];
    assert_eq!(library::line(&labels, &numbers, Some(&mut line)), 0);
    line.extend(good_comment(seeded, length));
    let faults: &[u32] = if length > LONGEST_LINE - LINE_BYTES { &[12] } else { &[] };
    let answer = compare.read("written lines", Some(&line), Lent::Of(VALUES));
    compare.faults("read", &READ_ORDER, faults, answer);
    let mut values = [0; VALUES];
    if library::read(Some(&line), Some(&mut values)) == 0 && values != reference::values(&labels, &numbers) {
        panic!("{} was not read as it was written: {values:?}", String::from_utf8_lossy(&line));
    }
}

/// Every column with every byte, CK put right and left as it was.
fn damaged_columns(compare: &mut Compare, seeded: &mut Seeded) {
    let mut line = good_columns(seeded);
    line.extend(good_comment(seeded, LONGEST_LINE - LINE_BYTES));
    for at in 0..LONGEST_LINE {
        for byte in 0..=u8::MAX {
            let mut damaged = line.clone();
            damaged[at] = byte;
            let lent = any_room(seeded);
            compare.read("damaged lines", Some(&damaged), lent);
            repair(&mut damaged);
            compare.read("damaged lines with CK put right", Some(&damaged), lent);
        }
    }
}

/// Every length up to 200, with and without the faults of another number behind it.
fn lengths(compare: &mut Compare, seeded: &mut Seeded) {
    let mut line = good_columns(seeded);
    line.extend(good_comment(seeded, 200 - LINE_BYTES));
    let mut wrong = line.clone();
    put(&mut wrong, 2, "00");
    put(&mut wrong, 14, "240000");
    repair(&mut wrong);
    for length in 0..=line.len() {
        for given in [&line, &wrong] {
            for lent in [Lent::Null, Lent::Of(0), Lent::Of(VALUES - 1), Lent::Of(VALUES), Lent::Of(VALUES + 1)] {
                compare.read("lines by their length", Some(&given[..length]), lent);
                compare.read("no line", None, lent);
            }
        }
    }
    line.resize(1 << 20, b' ');
    compare.read("a long line", Some(&line), Lent::Of(VALUES));
}

/// The lines printed in the format documents, against what the script beside them expects.
fn printed(compare: &mut Compare) {
    for case in published() {
        for form in case.forms() {
            for lent in [Lent::Null, Lent::Of(VALUES - 1), Lent::Of(VALUES), Lent::Of(VALUES + 1)] {
                let answer = compare.read(case.name, Some(form.columns.as_bytes()), lent);
                let short = if lent.len() < VALUES { 9 } else { 0 };
                let expected = if form.read_answer == 0 { short } else { form.read_answer };
                let faults: &[u32] = if expected == 0 { &[] } else { &[expected] };
                compare.faults("read", &READ_ORDER, faults, answer);
            }
        }
    }
}

fn try_text(compare: &mut Compare, family: &str, line: &mut [u8], column: usize, text: &str) -> u32 {
    put(line, column, text);
    repair(line);
    compare.read(family, Some(line), Lent::Of(VALUES))
}

/// Every clock of six digits on one day, and every hour and minute with some seconds on others.
fn clocks(compare: &mut Compare, seeded: &mut Seeded) {
    let mut line = good_columns(seeded);
    for clock in 0..1_000_000 {
        try_text(compare, "lines by their clock", &mut line, 14, &format!("{clock:06}"));
    }
    for mjd in [50722, 50723, 50724, 50725, 99999] {
        put(&mut line, 8, &mjd.to_string());
        for (minutes, second) in (0..10_000).flat_map(|m| ["00", "01", "59", "60"].map(|second| (m, second))) {
            try_text(compare, "lines by their clock", &mut line, 14, &format!("{minutes:04}{second}"));
        }
    }
}

/// Every date of the schedule with all its starts and the place where a ninetieth would be, and about one of them the clocks
/// beside it.
pub fn dates(compare: &mut Compare, seeded: &mut Seeded) {
    let mut line = good_columns(seeded);
    for mjd in FIRST_MJD..=LAST_MJD {
        put(&mut line, 8, &mjd.to_string());
        let near = i64::from(track_start(mjd, seeded.range(1, 89)));
        let beside = [-240, -60, -1, 1, 60, 240].map(|off| (near + off).rem_euclid(86400) as u32);
        for second in (1..=90).map(|i| track_start(mjd, i)).chain(beside) {
            let clock = format!("{:02}{:02}{:02}", second / 3600, second / 60 % 60, second % 60);
            try_text(compare, "lines by their date and start", &mut line, 14, &clock);
        }
    }
}

/// Each label through all that its columns can hold, with every constellation; dates with a start of theirs.
fn sweep_labels(compare: &mut Compare, seeded: &mut Seeded) {
    const WIDTHS: [(usize, usize); 7] = [(2, 2), (26, 3), (30, 4), (78, 3), (102, 2), (105, 2), (21, 4)];
    for letter in ["G", "R", "E", "C", "J"] {
        for (column, width) in WIDTHS {
            let mut line = good_columns(seeded);
            put(&mut line, 1, letter);
            put(&mut line, 78, "001");
            put(&mut line, 102, if letter == "R" { "01" } else { "00" });
            for value in 0..10u32.pow(width as u32) {
                let answer = try_text(compare, "lines by a label", &mut line, column, &format!("{value:0width$}"));
                if column == 21 {
                    let fits = (4..=52).any(|n| value == 15 * n);
                    compare.faults("read", &READ_ORDER, if fits { &[] } else { &[7] }, answer);
                }
            }
        }
    }
    let mut line = good_columns(seeded);
    for class in 0..=u8::MAX {
        try_text(compare, "lines by their class", &mut line, 5, &format!("{class:02X}"));
        try_text(compare, "lines by their class", &mut line, 5, &format!("{class:02x}"));
    }
    for mjd in 0..100_000 {
        let start = reference::good::a_start(seeded, mjd);
        let (hour, minute) = (start / 3600, start / 60 % 60);
        try_text(compare, "lines by their date", &mut line, 8, &format!("{mjd:05} {hour:02}{minute:02}00"));
    }
}

/// Each signed field with both signs before each power of ten, all nines and zero.
fn signed_fields(compare: &mut Compare, seeded: &mut Seeded) {
    for (first, last) in SIGNED {
        let digits = last - first;
        for value in (0..digits as u32).map(|power| 10u64.pow(power)).chain([0, 10u64.pow(digits as u32) - 1]) {
            for sign in ["+", "-", " ", "0"] {
                let mut line = good_columns(seeded);
                try_text(compare, "lines by a number", &mut line, first, &format!("{sign}{value:0digits$}"));
            }
        }
    }
}
