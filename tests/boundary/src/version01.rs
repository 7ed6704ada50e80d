//! Lines down to version 01 and up again: good ones both ways, faulty ones, damaged in every column, of every length, with every HC
//! and every byte of FRC, with each label and many clocks.

use crate::compare::{Compare, Lent, Supplied, Written};
use crate::faults::{long_lent, short_lent};
use crate::library;
use crate::reading_faults::*;
use crate::{answers, lents, pairs, LINES};
use reference::good::{a_start, good_comment, good_labels, good_numbers};
use reference::published::published;
use reference::seeded::Seeded;
use reference::{Labels, LINE_BYTES, OLD_BYTES, VALUES};

const DOWN_ORDER: [u32; 7] = [12, 14, 13, 7, 8, 25, 9];
const UP_ORDER: [u32; 6] = [12, 14, 13, 7, 8, 9];
const OLD_LINES: [Lent; 6] = [Lent::Null, Lent::Of(0), Lent::Of(102), Lent::Of(103), Lent::Of(104), Lent::Of(4096)];
const SAMPLE: Supplied = (0, *b"L1C");

pub fn run(compare: &mut Compare, seeded: &mut Seeded, scale: usize) {
    faulty(compare, seeded, 30 * scale);
    for _ in 0..100_000 * scale {
        both_ways(compare, seeded);
        likely(compare, seeded);
        junk(compare, seeded);
    }
    (0..20_000 * scale).for_each(|_| other_letter(compare, seeded));
    (0..4 * scale).for_each(|_| damaged_columns(compare, seeded));
    (0..20 * scale).for_each(|_| lengths(compare, seeded));
    (0..20 * scale).for_each(|_| supplied(compare, seeded));
    printed(compare);
    sweep_labels(compare, seeded);
    clocks(compare, seeded);
    signed_fields(compare, seeded);
}

/// Prints the counts; gives what should have been seen and was not.
pub fn report(compare: &Compare) -> Vec<String> {
    let mut missing = Vec::new();
    answers(compare, "down", &DOWN_ORDER, &mut missing);
    pairs(compare, "down", &DOWN_ORDER, &mut missing);
    lents(compare, "down", &DOWN_ORDER, (&OLD_LINES, OLD_BYTES), &mut missing);
    answers(compare, "up", &UP_ORDER, &mut missing);
    pairs(compare, "up", &UP_ORDER, &mut missing);
    lents(compare, "up", &UP_ORDER, (&LINES, LINE_BYTES), &mut missing);
    missing
}

/// What Line writes for good labels of GPS and good numbers.
fn gps_columns(seeded: &mut Seeded) -> (Labels, Vec<u8>) {
    let labels = good_labels(seeded);
    let labels = Labels { constellation: b'G', fr: 0, ioe: labels.ioe % 256, ..labels };
    let mut line = vec![0; LINE_BYTES];
    assert_eq!(reference::line(&labels, &good_numbers(seeded), &mut line), 0);
    (labels, line)
}

/// What Line writes for good labels of another letter.
fn other_columns(seeded: &mut Seeded) -> Vec<u8> {
    loop {
        let line = good_columns(seeded);
        if line[0] != b'G' {
            return line;
        }
    }
}

/// The same columns in the old form, by what document 02 says of them.
fn old_of(line: &[u8]) -> Vec<u8> {
    let mut old = [b" ", &line[1..101], b"??"].concat();
    OLD.repair(&mut old);
    old
}

/// A line with a comment that its form has room for, of any length there is.
fn commented(form: Form, mut line: Vec<u8>, seeded: &mut Seeded) -> Vec<u8> {
    let most = form.longest - form.columns;
    let any = seeded.below(most as u64 + 1) as usize;
    let length = seeded.pick(&[0, 0, 1, most - 1, most, any]);
    line.extend(good_comment(seeded, length));
    line
}

/// A lent old line that is long enough, or too short; the lengths that are asked for by name come most often.
fn old_lent(few: bool, seeded: &mut Seeded) -> Lent {
    let (any, less) = (seeded.range(104, 300) as usize, seeded.range(1, 101) as usize);
    if few {
        seeded.pick(&[Lent::Null, Lent::Of(0), Lent::Of(102), Lent::Of(102), Lent::Of(less)])
    } else {
        Lent::Of(seeded.pick(&[103, 103, 104, 104, 4096, any]))
    }
}

fn new_lent(few: bool, seeded: &mut Seeded) -> Lent {
    if few {
        short_lent(seeded)
    } else {
        long_lent(seeded)
    }
}

/// What is supplied, with these faults in it.
fn supplied_with(faults: &[Fault], seeded: &mut Seeded) -> Supplied {
    let Labels { mut hc, mut frc, .. } = good_labels(seeded);
    for fault in faults {
        match fault {
            Fault::Supplied(0) => hc = seeded.pick(&[100, 101, 128, 199, 200, 255]),
            Fault::Supplied(place) => frc[place - 1] = seeded.pick(b"/:@[`az{ \0\x80\xFF"),
            _ => {}
        }
    }
    (hc, frc)
}

/// What the test knows of an answer: the number of the fault that decides, or acceptance.
fn note(compare: &mut Compare, of: &'static str, order: &[u32], faults: &[Fault], written: &Written) {
    let numbers: Vec<u32> = faults.iter().map(|fault| fault.number()).collect();
    compare.faults(of, order, &numbers, *written.as_ref().err().unwrap_or(&0));
}

fn faulty_down(compare: &mut Compare, seeded: &mut Seeded, faults: &[Fault]) {
    let other = faults.contains(&Fault::OtherSystem);
    let columns = if other { other_columns(seeded) } else { gps_columns(seeded).1 };
    let line = commented(OURS, columns, seeded);
    let line = spoilt(OURS, line, faults, seeded);
    let lent = old_lent(faults.contains(&Fault::Few), seeded);
    let written = compare.down("faulty lines down", Some(&line), lent);
    note(compare, "down", &DOWN_ORDER, faults, &written);
}

fn faulty_up(compare: &mut Compare, seeded: &mut Seeded, faults: &[Fault]) {
    let old = old_of(&gps_columns(seeded).1);
    let old = commented(OLD, old, seeded);
    let old = spoilt(OLD, old, faults, seeded);
    let given = supplied_with(faults, seeded);
    let lent = new_lent(faults.contains(&Fault::Few), seeded);
    let written = compare.up("faulty lines up", Some(&old), given, lent);
    note(compare, "up", &UP_ORDER, faults, &written);
}

/// Every fault, every pair of faults, and nearly as many triples as pairs, each way.
fn faulty(compare: &mut Compare, seeded: &mut Seeded, rounds: usize) {
    let mut downs = of_readings();
    downs.push(Fault::OtherSystem);
    let mut ups: Vec<Fault> =
        of_readings().into_iter().filter(|f| !matches!(f, Fault::Code | Fault::Channel)).collect();
    ups.extend((0..4).map(Fault::Supplied));
    for (all, one) in [(downs, faulty_down as fn(&mut Compare, &mut Seeded, &[Fault])), (ups, faulty_up)] {
        for (i, first) in (0..rounds).flat_map(|_| all.iter().enumerate()) {
            one(compare, seeded, &[*first]);
            for second in &all[i + 1..] {
                one(compare, seeded, &[*first, *second]);
                let third = seeded.pick(&all);
                if third != *first && third != *second {
                    one(compare, seeded, &[*first, *second, third]);
                }
            }
        }
    }
}

/// A GPS line down and up again, and what is had with another HC and FRC down again; each is known by its columns. The line that
/// goes up reads as the one that came down.
fn both_ways(compare: &mut Compare, seeded: &mut Seeded) {
    let (labels, line) = gps_columns(seeded);
    let old = old_of(&line);
    let given = commented(OURS, line.clone(), seeded);
    let lent = old_lent(false, seeded);
    let lowered = compare.down("good lines down", Some(&given), lent);
    compare.faults("down", &DOWN_ORDER, &[], *lowered.as_ref().err().unwrap_or(&0));
    compare.expect(lowered.as_ref() == Ok(&old), || {
        format!("{} came down as {lowered:?}", String::from_utf8_lossy(&line))
    });
    let given = commented(OLD, old.clone(), seeded);
    let lent = new_lent(false, seeded);
    let raised = compare.up("good lines up", Some(&given), (labels.hc, labels.frc), lent);
    compare.faults("up", &UP_ORDER, &[], *raised.as_ref().err().unwrap_or(&0));
    compare.expect(raised.as_ref() == Ok(&line), || format!("{} came up as {raised:?}", String::from_utf8_lossy(&old)));
    let other = supplied_with(&[], seeded);
    let Ok(raised) = compare.up("good lines up", Some(&given), other, Lent::Of(LINE_BYTES)) else { return };
    let lowered = compare.down("raised lines down", Some(&raised), Lent::Of(OLD_BYTES));
    compare.expect(lowered.as_ref() == Ok(&old), || {
        format!("{} came down as {lowered:?}", String::from_utf8_lossy(&raised))
    });
    same_values(compare, &line, &raised, other);
}

/// A good line of another letter, with any room.
fn other_letter(compare: &mut Compare, seeded: &mut Seeded) {
    let line = other_columns(seeded);
    let line = commented(OURS, line, seeded);
    let few = seeded.below(4) == 0;
    let lent = old_lent(few, seeded);
    let written = compare.down("lines of other letters", Some(&line), lent);
    compare.known("down", 25, written.err().unwrap_or(0));
}

/// Two lines read alike but for what was supplied.
fn same_values(compare: &mut Compare, line: &[u8], raised: &[u8], (hc, frc): Supplied) {
    let (mut first, mut second) = ([0; VALUES], [0; VALUES]);
    let answers = (library::read(Some(line), Some(&mut first)), library::read(Some(raised), Some(&mut second)));
    first[4..8].copy_from_slice(&[hc, frc[0], frc[1], frc[2]].map(i64::from));
    let read = || format!("{} does not read as what went up", String::from_utf8_lossy(raised));
    compare.expect(answers == (0, 0) && first == second, read);
}

/// Up to six digits changed for others, so that any label and any clock comes; CK put right more often than not.
fn likely(compare: &mut Compare, seeded: &mut Seeded) {
    let line = gps_columns(seeded).1;
    for form in [OURS, OLD] {
        let mut given = commented(form, if form == OLD { old_of(&line) } else { line.clone() }, seeded);
        for _ in 0..seeded.range(1, 6) {
            let column = a_digit(form, seeded);
            given[column - 1] = seeded.pick(b"0123456789");
        }
        if seeded.below(4) > 0 {
            form.repair(&mut given);
        }
        one_way(compare, seeded, "likely lines", form, &given);
    }
}

/// Nothing but seeded bytes, all there are or those of a text; CK put right more often than not.
fn junk(compare: &mut Compare, seeded: &mut Seeded) {
    let form = seeded.pick(&[OURS, OLD]);
    let (least, most) = (form.columns as i64, form.longest as i64);
    let length = if seeded.below(2) == 0 { seeded.range(least, most) } else { seeded.range(0, 200) };
    let mut line = vec![0; length as usize];
    seeded.fill(&mut line);
    if seeded.below(2) == 0 {
        line.iter_mut().for_each(|byte| *byte = seeded.pick(b"0123456789 +-GRECJABDF"));
    }
    if seeded.below(4) > 0 {
        form.repair(&mut line);
    }
    one_way(compare, seeded, "junk lines", form, &line);
}

/// The way that goes from this form, with any room; what is supplied is mostly good.
fn one_way(compare: &mut Compare, seeded: &mut Seeded, family: &str, form: Form, line: &[u8]) {
    let few = seeded.below(4) == 0;
    if form == OLD {
        let fault = Fault::Supplied(seeded.below(4) as usize);
        let given = if seeded.below(8) == 0 { supplied_with(&[fault], seeded) } else { supplied_with(&[], seeded) };
        let lent = new_lent(few, seeded);
        compare.up(family, Some(line), given, lent).ok();
    } else {
        let lent = old_lent(few, seeded);
        compare.down(family, Some(line), lent).ok();
    }
}

/// Every column of either form with every byte, CK put right and left as it was.
fn damaged_columns(compare: &mut Compare, seeded: &mut Seeded) {
    let line = gps_columns(seeded).1;
    for form in [OURS, OLD] {
        let mut whole = if form == OLD { old_of(&line) } else { line.clone() };
        whole.extend(good_comment(seeded, form.longest - form.columns));
        for (at, byte) in (0..form.longest).flat_map(|at| (0..=u8::MAX).map(move |byte| (at, byte))) {
            let mut damaged = whole.clone();
            damaged[at] = byte;
            one_way(compare, seeded, "damaged lines", form, &damaged);
            form.repair(&mut damaged);
            one_way(compare, seeded, "damaged lines with CK put right", form, &damaged);
        }
    }
}

/// Every length up to 200 with every room about what is written, with and without the faults of other numbers behind it.
fn lengths(compare: &mut Compare, seeded: &mut Seeded) {
    let line = gps_columns(seeded).1;
    for form in [OURS, OLD] {
        let mut right = if form == OLD { old_of(&line) } else { line.clone() };
        right.extend(good_comment(seeded, 200 - form.columns));
        let mut wrong = right.clone();
        put(&mut wrong, 2, "00");
        put(&mut wrong, 14, "240000");
        form.repair(&mut wrong);
        for (length, given) in (0..=200).flat_map(|length| [(length, &right), (length, &wrong)]) {
            let expected =
                if !(form.columns..=form.longest).contains(&length) { 12 } else { 7 * u32::from(given == &wrong) };
            for lent in if form == OLD { LINES } else { OLD_LINES } {
                one_length(compare, form, &given[..length], lent, expected);
            }
        }
        right.resize(1 << 20, b' ');
        one_length(compare, form, &right, Lent::Of(LINE_BYTES), 12);
    }
    compare.down("no line", None, Lent::Of(OLD_BYTES)).ok();
    compare.up("no line", None, SAMPLE, Lent::Of(LINE_BYTES)).ok();
}

/// One way whose refusal is known but for what is lent.
fn one_length(compare: &mut Compare, form: Form, line: &[u8], lent: Lent, expected: u32) {
    let (written, enough, of) = if form == OLD {
        (compare.up("lines by their length", Some(line), SAMPLE, lent), LINE_BYTES, "up")
    } else {
        (compare.down("lines by their length", Some(line), lent), OLD_BYTES, "down")
    };
    let expected = if expected == 0 && lent.len() < enough { 9 } else { expected };
    compare.known(of, expected, written.err().unwrap_or(0));
}

/// Every HC, and every byte at each place of FRC; each answer is known.
fn supplied(compare: &mut Compare, seeded: &mut Seeded) {
    let (labels, line) = gps_columns(seeded);
    let old = old_of(&line);
    let mut one = |hc: u8, frc: [u8; 3]| {
        let code = frc.iter().all(|byte| byte.is_ascii_uppercase() || byte.is_ascii_digit());
        let raised = compare.up("lines by what is supplied", Some(&old), (hc, frc), Lent::Of(LINE_BYTES));
        let mut wanted = [&line[..101], format!("00 {hc:02} ").as_bytes(), &frc, b" ??"].concat();
        OURS.repair(&mut wanted);
        let wanted = if hc <= 99 && code { Ok(wanted) } else { Err(7) };
        compare.expect(raised == wanted, || format!("HC {hc} and FRC {frc:?} made {raised:?}"));
    };
    (0..=u8::MAX).for_each(|hc| one(hc, labels.frc));
    for (place, byte) in (0..3).flat_map(|place| (0..=u8::MAX).map(move |byte| (place, byte))) {
        let mut frc = labels.frc;
        frc[place] = byte;
        one(labels.hc, frc);
    }
}

/// The lines printed in documents 003 and 004 in our form, 004's with a date of the schedule put in, down and up again; 000's by their
/// letter. As they are printed, 003's are filled with blanks, and 13.
fn printed(compare: &mut Compare) {
    for case in published() {
        let form = case.put_in.as_ref().unwrap_or(&case.printed);
        let line = form.columns.as_bytes();
        let lowered = compare.down(case.name, Some(line), Lent::Of(OLD_BYTES));
        let expected = if form.read_answer != 0 {
            Err(form.read_answer)
        } else if line[0] == b'G' {
            Ok(old_of(line))
        } else {
            Err(25)
        };
        compare.expect(lowered == expected, || format!("{} came down as {lowered:?}", case.name));
        let Ok(old) = lowered else { continue };
        let raised = compare.up(case.name, Some(&old), (form.labels.hc, form.labels.frc), Lent::Of(LINE_BYTES));
        compare.expect(raised.as_deref() == Ok(line), || format!("{} came up as {raised:?}", case.name));
        let mut blanks = String::from_utf8_lossy(&old).replace(" 0", "  ").into_bytes();
        OLD.repair(&mut blanks);
        let refused = compare.up(case.name, Some(&blanks), SAMPLE, Lent::Of(LINE_BYTES));
        compare.known("up", 13, refused.err().unwrap_or(0));
    }
}

/// An old line with this text from a column on goes up, or is refused with this number.
fn try_old(compare: &mut Compare, old: &mut [u8], column: usize, text: &str, expected: Option<u32>) {
    put(old, column, text);
    OLD.repair(old);
    let raised = compare.up("old lines by a field", Some(old), SAMPLE, Lent::Of(LINE_BYTES));
    if let Some(expected) = expected {
        compare.known("up", expected, raised.err().unwrap_or(0));
    }
}

/// Each label through all that its columns can hold; dates with a start of theirs.
fn sweep_labels(compare: &mut Compare, seeded: &mut Seeded) {
    const LABELS: [(usize, usize, u32, u32); 4] = [(2, 2, 1, 99), (26, 3, 0, 900), (30, 4, 0, 3599), (78, 3, 0, 255)];
    for (column, width, low, high) in LABELS {
        let mut old = old_of(&gps_columns(seeded).1);
        for value in 0..10u32.pow(width as u32) {
            let expected = if (low..=high).contains(&value) { 0 } else { 7 };
            try_old(compare, &mut old, column, &format!("{value:0width$}"), Some(expected));
        }
    }
    let mut old = old_of(&gps_columns(seeded).1);
    for seconds in 0..10_000 {
        let expected = if (4..=52).any(|n| seconds == 15 * n) { 0 } else { 7 };
        try_old(compare, &mut old, 21, &format!("{seconds:04}"), Some(expected));
    }
    put(&mut old, 21, "0780");
    for class in 0..=u8::MAX {
        try_old(compare, &mut old, 5, &format!("{class:02x}"), None);
        try_old(compare, &mut old, 5, &format!("{class:02X}"), Some(0));
    }
    for mjd in 0..100_000 {
        let start = a_start(seeded, mjd);
        let (hour, minute) = (start / 3600, start / 60 % 60);
        let expected = if mjd < 50722 { 7 } else { 0 };
        try_old(compare, &mut old, 8, &format!("{mjd:05} {hour:02}{minute:02}00"), Some(expected));
    }
}

/// Every hour and minute of two digits each, with some seconds, on some days.
fn clocks(compare: &mut Compare, seeded: &mut Seeded) {
    let mut old = old_of(&gps_columns(seeded).1);
    for mjd in [50722, 50723, 99999] {
        put(&mut old, 8, &mjd.to_string());
        for (minutes, second) in (0..10_000).flat_map(|m| ["00", "01", "59", "60"].map(|second| (m, second))) {
            try_old(compare, &mut old, 14, &format!("{minutes:04}{second}"), None);
        }
    }
}

/// Each signed field with both signs before each power of ten, all nines and zero.
fn signed_fields(compare: &mut Compare, seeded: &mut Seeded) {
    for (first, last) in SIGNED {
        let digits = last - first;
        for value in (0..digits as u32).map(|power| 10u64.pow(power)).chain([0, 10u64.pow(digits as u32) - 1]) {
            for sign in ["+", "-", " ", "0"] {
                let mut old = old_of(&gps_columns(seeded).1);
                let expected = if sign == "+" || sign == "-" && value > 0 { 0 } else { 13 };
                try_old(compare, &mut old, first, &format!("{sign}{value:0digits$}"), Some(expected));
            }
        }
    }
}
