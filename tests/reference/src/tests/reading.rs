//! Reader by hand: what each column may hold, each refusal, the order; and that it undoes Line.

use super::*;
use crate::good::{good_comment, good_labels, good_numbers};
use crate::seeded::Seeded;
use crate::{comment, line, read, read_values, values, Numbers};

/// A line in which no field is 0, and none becomes 0 where one of its digits does.
const BUSY_LINE: &str = "R24 8D 50723 001400 0780 899 3598 -9876543210 -98765 +8999912392 +78799 \
                         9889 095 9819 -899 8699 +898 23 98 Z9Z DA";

/// A line with other characters from a column on, counted from 1, and its checksum put right.
fn with(line: &str, column: usize, text: &str) -> Vec<u8> {
    let mut bytes = line.as_bytes().to_vec();
    bytes[column - 1..column - 1 + text.len()].copy_from_slice(text.as_bytes());
    repaired(bytes)
}

fn repaired(mut line: Vec<u8>) -> Vec<u8> {
    let sum = line.iter().take(111).map(|byte| u32::from(*byte)).sum::<u32>() % 256;
    line[111..113].copy_from_slice(format!("{sum:02X}").as_bytes());
    line
}

/// A line with a comment behind its 113 columns.
fn commented(line: &str, comment: &[u8]) -> Vec<u8> {
    [line.as_bytes(), comment].concat()
}

fn answer(line: &[u8]) -> u32 {
    read(line).err().unwrap_or(0)
}

fn check(expected: u32, line: &str, column: usize, text: &str) {
    assert_eq!(answer(&with(line, column, text)), expected, "{text:?} at column {column}");
}

#[test]
fn lines_read_by_hand() {
    let (labels, numbers) = read(SAMPLE_LINE.as_bytes()).expect("accepted");
    assert_eq!(labels, SAMPLE_LABELS);
    assert_eq!(numbers, Numbers { refsv: 10, refsys: 10, trkl: 780, ..Numbers::default() });
    let mut row = [-1; 24];
    assert_eq!(read_values(BUSY_LINE.as_bytes(), &mut row), 0);
    assert_eq!(row[..8], [82, 24, 141, 23, 98, 90, 57, 90]);
    assert_eq!(row[8..13], [50723, 840, 899, 3598, 95]);
    assert_eq!(row[13..17], [-9_876_543_210, -98765, 8_999_912_392, 78799]);
    assert_eq!(row[17..], [9819, -899, 8699, 898, 9889, 780, -1]);
}

#[test]
fn lent_values() {
    for length in 0..23 {
        let mut row = vec![-1; length];
        assert_eq!(read_values(SAMPLE_LINE.as_bytes(), &mut row), 9);
        assert_eq!(read_values(&with(SAMPLE_LINE, 18, "01"), &mut row), 8);
        assert_eq!(read_values(&[], &mut row), 12);
        assert_eq!(row, vec![-1; length]);
    }
    let mut row = [-1; 40];
    assert_eq!(read_values(&with(SAMPLE_LINE, 2, "00"), &mut row), 7);
    assert_eq!(row, [-1; 40]);
    assert_eq!(read_values(SAMPLE_LINE.as_bytes(), &mut row), 0);
    assert_eq!((row[22], &row[23..]), (780, &[-1; 17][..]));
}

#[test]
fn lengths_are_12() {
    let long = commented(SAMPLE_LINE, &[b'x'; 87]);
    for length in 0..=200 {
        let accepted = (113..=140).contains(&length);
        assert_eq!(answer(&long[..length]), if accepted { 0 } else { 12 }, "{length} bytes");
    }
}

#[test]
fn wrong_checksums_are_14() {
    // of all pairs of bytes one alone is right
    for (line, right) in [(SAMPLE_LINE, *b"26"), (BUSY_LINE, *b"DA")] {
        let mut bytes = line.as_bytes().to_vec();
        for pair in 0..=u16::MAX {
            bytes[111..].copy_from_slice(&pair.to_be_bytes());
            assert_eq!(answer(&bytes), if pair.to_be_bytes() == right { 0 } else { 14 });
        }
    }
    for wrong in ["da", "dA", "Da", "AD", "DB", "D ", "  "] {
        assert_eq!(answer(BUSY_LINE.replace("DA", wrong).as_bytes()), 14, "{wrong}");
    }
    // the comment is no part of the sum
    assert_eq!(answer(&commented(BUSY_LINE, b"DA")), 0);
}

/// The bytes that a column may hold, by the paper's list of the fields.
fn may_hold(column: usize) -> Vec<u8> {
    match column {
        1 => b"GRECJ".to_vec(),
        4 | 7 | 13 | 20 | 25 | 29 | 34 | 46 | 53 | 65 | 72 | 77 | 81 | 86 | 91 | 96 | 101 | 104 | 107 | 111 => {
            b" ".to_vec()
        }
        5 | 6 => b"0123456789ABCDEF".to_vec(),
        35 | 47 | 54 | 66 | 87 | 97 => b"+-".to_vec(),
        108..=110 => b"ABCDEFGHIJKLMNOPQRSTUVWXYZ0123456789".to_vec(),
        114.. => (b' '..=b'~').collect(),
        _ => b"0123456789".to_vec(),
    }
}

#[test]
fn wrong_characters_are_13() {
    let line = commented(BUSY_LINE, b"a comment of 27 characters.");
    for column in (1..=111).chain(114..=140) {
        let allowed = may_hold(column);
        for byte in 0..=255 {
            let mut bytes = line.clone();
            bytes[column - 1] = byte;
            let answer = answer(&repaired(bytes));
            assert_eq!(answer != 13, allowed.contains(&byte), "byte {byte} at column {column}: {answer}");
        }
    }
    // the twenty columns of a single space, and no digit filled with a blank
    assert_eq!((1..=111).filter(|column| may_hold(*column) == b" ").count(), 20);
    for (column, text) in
        [(2, " 5"), (21, " 780"), (26, " 45"), (35, "+         1"), (73, "   0"), (78, "  7"), (102, " 0")]
    {
        check(13, SAMPLE_LINE, column, text);
    }
    for (column, text) in
        [(5, "fF"), (5, "Ff"), (1, "g"), (1, "S"), (1, " "), (108, "B1i"), (108, " E1"), (35, " 0000000010")]
    {
        check(13, SAMPLE_LINE, column, text);
    }
}

#[test]
fn minus_before_zero_is_13() {
    for (column, zero, one) in [
        (35, "-0000000000", "-0000000001"),
        (47, "-00000", "-00001"),
        (54, "-0000000000", "-1000000000"),
        (66, "-00000", "-10000"),
        (87, "-000", "-010"),
        (97, "-000", "-001"),
    ] {
        check(13, SAMPLE_LINE, column, zero);
        check(13, BUSY_LINE, column, zero);
        check(0, SAMPLE_LINE, column, one);
        check(0, BUSY_LINE, column, &zero.replace('-', "+"));
    }
}

#[test]
fn wrong_comments_are_13() {
    for length in 1..=27 {
        for (byte, expected) in
            [(0x1F, 13), (0x20, 0), (0x7E, 0), (0x7F, 13), (0x80, 13), (0xFF, 13), (0, 13), (13, 13), (10, 13)]
        {
            for at in 0..length {
                let mut text = vec![b'.'; length];
                text[at] = byte;
                let line = commented(SAMPLE_LINE, &text);
                assert_eq!(answer(&line), expected, "byte {byte} at {at} of {length}");
                assert_eq!(comment(&line), if expected == 0 { &text[..] } else { &[] });
            }
        }
    }
    assert_eq!(answer(&commented(SAMPLE_LINE, b"\r\n")), 13);
}

#[test]
fn other_track_lengths_are_7() {
    let lengths: Vec<u32> = (4..=52).map(|n| 15 * n).collect();
    for length in 0..=9999 {
        check(if lengths.contains(&length) { 0 } else { 7 }, SAMPLE_LINE, 21, &format!("{length:04}"));
    }
    let (_, numbers) = read(&with(SAMPLE_LINE, 21, "0765")).expect("accepted");
    assert_eq!(numbers.trkl, 765);
    // what is no digit is a wrong character, and comes before
    for text in [" 780", "  60", "+780", "-060", "07.0", "7 80", "O780"] {
        check(13, SAMPLE_LINE, 21, text);
    }
    // a wrong length comes before a wrong start, and no other number comes between
    check(7, SAMPLE_LINE, 14, "240000 0045");
    check(8, SAMPLE_LINE, 14, "240000 0060");
}

#[test]
fn labels_beyond_their_range_are_7() {
    check(7, SAMPLE_LINE, 2, "00");
    check(0, SAMPLE_LINE, 2, "99");
    check(7, SAMPLE_LINE, 8, "50721");
    check(7, SAMPLE_LINE, 8, "00000");
    for (column, good, bad) in [(26, "900", "901"), (26, "000", "999"), (30, "3599", "3600"), (30, "0000", "9999")] {
        check(0, SAMPLE_LINE, column, good);
        check(7, SAMPLE_LINE, column, bad);
    }
    for (letter, fr, low, high) in
        [('R', "01", 1, 96), ('C', "00", 0, 23), ('G', "00", 0, 255), ('J', "00", 0, 255), ('E', "00", 0, 999)]
    {
        let line = with(SAMPLE_LINE, 1, &letter.to_string());
        let line = String::from_utf8(with(std::str::from_utf8(&line).expect("ASCII"), 102, fr)).expect("ASCII");
        for ioe in 0..=999 {
            check(if (low..=high).contains(&ioe) { 0 } else { 7 }, &line, 78, &format!("{ioe:03}"));
        }
        for fr in 0..=99 {
            let good = if letter == 'R' { (1..=24).contains(&fr) } else { fr == 0 };
            check(if good { 0 } else { 7 }, &line, 102, &format!("{fr:02}"));
        }
        (0..=99).for_each(|hc| check(0, &line, 105, &format!("{hc:02}")));
        (0..=255).for_each(|cl| check(0, &line, 5, &format!("{cl:02X}")));
    }
}

#[test]
fn times_that_are_no_start_are_8() {
    // MJD 50722: starts at 00:02, 00:18 .. 23:30; MJD 50723 at 00:14 .. and, for 00:02, at 23:54
    for (time, expected) in [("000200", 0), ("233000", 0), ("234600", 8), ("000201", 8), ("000300", 8), ("000000", 8)] {
        check(expected, SAMPLE_LINE, 14, time);
    }
    // the same second of the day, or the same one a day later, by a clock that shows no time
    for time in ["000160", "007800", "240000", "240200", "246000", "999999"] {
        check(8, SAMPLE_LINE, 14, time);
    }
    check(0, SAMPLE_LINE, 8, "50723 010200");
    check(8, SAMPLE_LINE, 8, "50723 006200");
    check(8, SAMPLE_LINE, 8, "50723 010160");
    check(0, SAMPLE_LINE, 8, "50723 235400");
    check(8, SAMPLE_LINE, 8, "50723 235360");
    check(8, SAMPLE_LINE, 8, "50723 235800");
    check(0, SAMPLE_LINE, 8, "56842 001400");
    check(8, SAMPLE_LINE, 8, "56842 000200");
    // every clock of six digits on one day: 89 are starts
    let starts = (0..1_000_000).filter(|time| answer(&with(SAMPLE_LINE, 14, &format!("{time:06}"))) == 0);
    assert_eq!(starts.count(), 89);
}

/// The sample with these faults in it, each in columns of its own.
fn faulty(faults: &[u32]) -> Vec<u8> {
    let mut line = SAMPLE_LINE.as_bytes().to_vec();
    let mut put = |fault: u32, column: usize, text: &[u8]| {
        if faults.contains(&fault) {
            line[column - 1..column - 1 + text.len()].copy_from_slice(text);
        }
    };
    put(7, 2, b"00");
    put(8, 14, b"240000");
    put(13, 110, b"c");
    let mut line = repaired(line);
    if faults.contains(&14) {
        line[111] ^= 1;
    }
    if faults.contains(&12) {
        line.extend([b' '; 28]);
    }
    line
}

#[test]
fn order_of_two_reading_faults() {
    let order = [12, 14, 13, 7, 8];
    for (i, first) in order.iter().enumerate() {
        for second in &order[i..] {
            let line = faulty(&[*first, *second]);
            assert_eq!(answer(&line), *first, "{first} and {second}");
            // a row that is too short comes last
            assert_eq!(read_values(&line, &mut []), *first);
        }
    }
    // a label, a date out of range too, before the start and the clock
    for (column, text) in [(8, "50721 000200"), (8, "50721 000201"), (8, "00000 240000"), (8, "50721 006200")] {
        check(7, SAMPLE_LINE, column, text);
    }
    // a cut line is 12 whatever stands in it
    (0..113).for_each(|length| assert_eq!(answer(&[0xFF; 113][..length]), 12));
    assert_eq!((answer(&[0xFF; 113]), answer(&[0xFF; 140]), answer(&[0xFF; 141])), (14, 14, 12));
}

/// Which part of the line the comment is: its place and not its bytes alone.
fn place(line: &[u8]) -> (usize, usize) {
    let part = comment(line);
    (part.as_ptr() as usize - line.as_ptr() as usize, part.len())
}

#[test]
fn comment_is_a_part_of_the_line() {
    let long = commented(SAMPLE_LINE, &[b'~'; 87]);
    for length in 0..=200 {
        let accepted = (113..=140).contains(&length);
        let expected = if accepted { (113, length - 113) } else { (length, 0) };
        assert_eq!(place(&long[..length]), expected);
        // one wrong digit: the empty part at the end
        let mut wrong = long[..length].to_vec();
        wrong.iter_mut().take(10).for_each(|byte| *byte ^= 1);
        assert_eq!(place(&wrong), (length, 0));
    }
}

#[test]
fn what_line_wrote_reads_back() {
    let mut seeded = Seeded::new(3);
    for round in 0..20_000 {
        let (labels, numbers) = (good_labels(&mut seeded), good_numbers(&mut seeded));
        let mut text = [0; 113];
        assert_eq!(line(&labels, &numbers, &mut text), 0);
        let added = good_comment(&mut seeded, round % 28);
        let whole = [&text[..], &added].concat();
        assert_eq!(read(&whole), Ok((labels, numbers)));
        assert_eq!(comment(&whole), added);
        let mut row = [0; 23];
        assert_eq!(read_values(&whole, &mut row), 0);
        assert_eq!(row, values(&labels, &numbers));
        assert_eq!(read(&[&text[..], &good_comment(&mut seeded, 28)].concat()), Err(12));
    }
}

/// An accepted line is what Line writes for what was read.
fn rewrites(bytes: &[u8]) -> bool {
    let Ok((labels, numbers)) = read(bytes) else { return false };
    let mut text = [0; 113];
    assert_eq!(line(&labels, &numbers, &mut text), 0);
    assert_eq!(text, bytes[..113]);
    true
}

#[test]
fn accepted_lines_are_what_line_would_write() {
    let mut seeded = Seeded::new(4);
    let mut accepted = 0;
    for _ in 0..20_000 {
        let mut text = [0; 113];
        line(&good_labels(&mut seeded), &good_numbers(&mut seeded), &mut text);
        let added = seeded.below(28) as usize;
        let mut bytes = [&text[..], &good_comment(&mut seeded, added)].concat();
        for _ in 0..seeded.below(4) {
            let column = seeded.range(1, 111) as usize;
            bytes[column - 1] = seeded.pick(&may_hold(column));
        }
        accepted += u32::from(rewrites(&repaired(bytes)));
    }
    assert!((10_000..20_000).contains(&accepted), "{accepted} accepted");
}
