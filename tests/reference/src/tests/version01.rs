//! Version 01 by hand: what each way writes, each refusal, the order; and that each way undoes the other.

use super::*;
use crate::good::{good_comment, good_labels, good_numbers};
use crate::published::published;
use crate::seeded::Seeded;
use crate::{down, line, read, up};

/// The sample in the old form: its CK is 26 less G and what stands behind column 101, and a blank more.
const OLD_SAMPLE: &str = " 05 FF 50722 000200 0780 450 1800 +0000000010 +00000 +0000000010 +00000 \
                          0000 007 0000 +000 0000 +000 1F";

/// A line in which no field is 0, in both forms.
const BUSY_LINE: &str = "G24 8D 50723 001400 0780 899 3598 -9876543210 -98765 +8999912392 +78799 \
                         9889 195 9819 -899 8699 +898 00 98 Z9Z CB";
const OLD_BUSY: &str = " 24 8D 50723 001400 0780 899 3598 -9876543210 -98765 +8999912392 +78799 \
                        9889 195 9819 -899 8699 +898 86";

/// A way with as much lent: what it writes, or its refusal. What it does not write must stay.
fn lent(room: usize, written: usize, way: impl FnOnce(&mut [u8]) -> u32) -> Result<String, u32> {
    let mut bytes = vec![0xA5; room];
    let answer = way(&mut bytes);
    let kept = if answer == 0 { written } else { 0 };
    assert!(bytes[kept..].iter().all(|byte| *byte == 0xA5));
    bytes.truncate(kept);
    if answer == 0 {
        Ok(String::from_utf8(bytes).expect("a line is ASCII"))
    } else {
        Err(answer)
    }
}

fn go_down(given: &[u8]) -> Result<String, u32> {
    lent(104, 103, |bytes| down(given, bytes))
}

fn go_up(old: &[u8], hc: u8, frc: &[u8; 3]) -> Result<String, u32> {
    lent(114, 113, |bytes| up(old, hc, *frc, bytes))
}

/// The answer to an old line, with an HC and FRC that are in their ranges.
fn answer(old: &[u8]) -> u32 {
    go_up(old, 0, b"L1C").err().unwrap_or(0)
}

/// An old line with other characters from a column on, counted from 1, and its CK put right.
fn with(old: &str, column: usize, text: &str) -> Vec<u8> {
    let mut bytes = old.as_bytes().to_vec();
    bytes[column - 1..column - 1 + text.len()].copy_from_slice(text.as_bytes());
    let sum = bytes[..101].iter().map(|byte| u32::from(*byte)).sum::<u32>() % 256;
    bytes[101..103].copy_from_slice(format!("{sum:02X}").as_bytes());
    bytes
}

fn check(expected: u32, column: usize, text: &str) {
    assert_eq!(answer(&with(OLD_SAMPLE, column, text)), expected, "{text:?} at column {column}");
}

#[test]
fn lines_by_hand() {
    assert_eq!(go_down(SAMPLE_LINE.as_bytes()).as_deref(), Ok(OLD_SAMPLE));
    assert_eq!(go_down(BUSY_LINE.as_bytes()).as_deref(), Ok(OLD_BUSY));
    assert_eq!(go_up(OLD_SAMPLE.as_bytes(), 0, b"L1C").as_deref(), Ok(SAMPLE_LINE));
    assert_eq!(go_up(OLD_BUSY.as_bytes(), 98, b"Z9Z").as_deref(), Ok(BUSY_LINE));
    for (hc, frc, behind) in [(98, b"Z9Z", "00 98 Z9Z 64"), (7, b"A0B", "00 07 A0B 20"), (99, b"000", "00 99 000 08")] {
        let expected = format!("{}{behind}", &SAMPLE_LINE[..101]);
        assert_eq!(go_up(OLD_SAMPLE.as_bytes(), hc, frc), Ok(expected));
    }
}

#[test]
fn comments_are_dropped() {
    for length in 1..=27 {
        let commented = [SAMPLE_LINE.as_bytes(), &[b'~'; 27][..length]].concat();
        assert_eq!(go_down(&commented).as_deref(), Ok(OLD_SAMPLE));
    }
    for length in 1..=25 {
        let commented = [OLD_SAMPLE.as_bytes(), &[b' '; 25][..length]].concat();
        assert_eq!(go_up(&commented, 0, b"L1C").as_deref(), Ok(SAMPLE_LINE));
    }
}

#[test]
fn lengths_are_12() {
    let long = [OLD_SAMPLE.as_bytes(), &[b'x'; 97]].concat();
    for length in 0..=200 {
        let accepted = (103..=128).contains(&length);
        assert_eq!(answer(&long[..length]), if accepted { 0 } else { 12 }, "{length} bytes");
    }
    let long = [SAMPLE_LINE.as_bytes(), &[b'x'; 87]].concat();
    for length in 0..=200 {
        let accepted = (113..=140).contains(&length);
        assert_eq!(go_down(&long[..length]).err(), if accepted { None } else { Some(12) }, "{length} bytes");
    }
}

#[test]
fn wrong_checksums_are_14() {
    // of all pairs of bytes one alone is right
    for (old, right) in [(OLD_SAMPLE, *b"1F"), (OLD_BUSY, *b"86")] {
        let mut bytes = old.as_bytes().to_vec();
        for pair in 0..=u16::MAX {
            bytes[101..].copy_from_slice(&pair.to_be_bytes());
            assert_eq!(answer(&bytes) == 0, pair.to_be_bytes() == right);
            assert_eq!(answer(&bytes) == 14, pair.to_be_bytes() != right);
        }
    }
    // 26 is that of the whole line, and 46 that of these columns behind a G
    for other in ["26", "46", "1f", "1E", "F1"] {
        assert_eq!(answer(format!("{}{other}", &OLD_SAMPLE[..101]).as_bytes()), 14, "{other}");
    }
}

#[test]
fn characters_are_13() {
    for letter in ["G", "R", "0", "1", "\0", "\t"] {
        check(13, 1, letter);
    }
    for (column, text) in [
        (2, " 5"),
        (4, "0"),
        (5, "fF"),
        (5, "G0"),
        (8, "5072O"),
        (14, " 00200"),
        (21, " 780"),
        (35, "00000000010"),
        (35, "-0000000000"),
        (47, "-00000"),
        (54, "-0000000000"),
        (66, "-00000"),
        (73, "   0"),
        (87, "-000"),
        (97, "-000"),
        (97, " 000"),
        (101, "0"),
    ] {
        check(13, column, text);
    }
    for byte in 0..=u8::MAX {
        let expected = if (0x20..=0x7E).contains(&byte) { 0 } else { 13 };
        for comment in [vec![byte], [&[b'x'; 24][..], &[byte]].concat()] {
            assert_eq!(answer(&[OLD_SAMPLE.as_bytes(), &comment].concat()), expected, "{byte:02X}");
        }
    }
}

#[test]
fn labels_are_7() {
    for (column, text) in [
        (2, "00"),
        (8, "50721"),
        (8, "00000"),
        (21, "0000"),
        (21, "0045"),
        (21, "0781"),
        (21, "0795"),
        (26, "901"),
        (30, "3600"),
        (78, "256"),
        (78, "999"),
    ] {
        check(7, column, text);
    }
    for (column, text) in [(2, "99"), (21, "0060"), (26, "900"), (30, "3599"), (78, "255"), (78, "000"), (5, "00")] {
        check(0, column, text);
    }
    for hc in 0..=u8::MAX {
        assert_eq!(go_up(OLD_SAMPLE.as_bytes(), hc, b"L1C").is_ok(), hc <= 99, "{hc}");
    }
    for byte in 0..=u8::MAX {
        for at in 0..3 {
            let mut frc = *b"L1C";
            frc[at] = byte;
            let expected = if byte.is_ascii_digit() || byte.is_ascii_uppercase() { None } else { Some(7) };
            assert_eq!(go_up(OLD_SAMPLE.as_bytes(), 0, &frc).err(), expected, "{byte:02X}");
        }
    }
}

#[test]
fn starts_are_8() {
    for clock in ["000201", "000300", "240200", "006200", "000160", "233900"] {
        check(8, 14, clock);
    }
    check(0, 14, "001800");
    check(8, 8, "50723");
}

#[test]
fn other_letters_are_25() {
    for (letter, issue, channel) in [("R", "007", "01"), ("E", "007", "00"), ("C", "007", "00"), ("J", "007", "00")] {
        let columns = format!(
            "{letter}{}{issue}{}{channel}{}",
            &SAMPLE_LINE[1..77],
            &SAMPLE_LINE[80..101],
            &SAMPLE_LINE[103..111]
        );
        let sum = columns.bytes().map(u32::from).sum::<u32>() % 256;
        let text = format!("{columns}{sum:02X}");
        assert_eq!(read(text.as_bytes()).err(), None);
        assert_eq!(go_down(text.as_bytes()), Err(25), "{letter}");
        // 25 before 9, and the reader's refusals before 25
        assert_eq!(lent(102, 103, |bytes| down(text.as_bytes(), bytes)), Err(25));
        assert_eq!(go_down(&text.as_bytes()[..112]), Err(12));
        assert_eq!(go_down(text.replace("000200", "000201").as_bytes()), Err(14));
    }
}

#[test]
fn short_lent_bytes_are_9() {
    for room in 0..=114 {
        let down = lent(room, 103, |bytes| down(SAMPLE_LINE.as_bytes(), bytes));
        assert_eq!(down.as_deref(), if room < 103 { Err(&9) } else { Ok(OLD_SAMPLE) });
        let raised = lent(room, 113, |bytes| up(OLD_SAMPLE.as_bytes(), 0, *b"L1C", bytes));
        assert_eq!(raised.as_deref(), if room < 113 { Err(&9) } else { Ok(SAMPLE_LINE) });
        let refused = lent(room, 113, |bytes| up(&with(OLD_SAMPLE, 18, "01"), 0, *b"L1C", bytes));
        assert_eq!(refused, Err(8));
        assert_eq!(lent(room, 113, |bytes| up(OLD_SAMPLE.as_bytes(), 100, *b"L1C", bytes)), Err(7));
    }
}

/// Each line has the fault of its place and of every place behind it.
#[test]
fn the_order_of_an_old_line() {
    let late = with(OLD_SAMPLE, 18, "01");
    let label = with(std::str::from_utf8(&late).expect("ASCII"), 2, "00");
    let letter = with(std::str::from_utf8(&label).expect("ASCII"), 1, "G");
    let mut check = letter.clone();
    check[102] ^= 1;
    let mut long = check.clone();
    long.resize(129, 0);
    for (old, hc, expected) in
        [(&late, 0, 8), (&late, 100, 7), (&label, 0, 7), (&letter, 100, 13), (&check, 100, 14), (&long, 100, 12)]
    {
        assert_eq!(lent(0, 113, |bytes| up(old, hc, *b"L1C", bytes)), Err(expected));
    }
    // what is supplied is a 7, behind a 13 of the line's own
    assert_eq!(go_up(&letter, 0, b"l1c"), Err(13));
    assert_eq!(go_up(&late, 0, b"l1c"), Err(7));
}

#[test]
fn each_way_undoes_the_other() {
    let mut seeded = Seeded::new(12);
    for _ in 0..20_000 {
        let labels = Labels { constellation: b'G', fr: 0, ..good_labels(&mut seeded) };
        let labels = Labels { ioe: labels.ioe % 256, ..labels };
        let mut columns = [0; 113];
        assert_eq!(line(&labels, &good_numbers(&mut seeded), &mut columns), 0);
        let text = std::str::from_utf8(&columns).expect("ASCII");
        let length = seeded.below(28) as usize;
        let old = go_down(&[&columns[..], &good_comment(&mut seeded, length)].concat()).expect("accepted");
        assert_eq!((&old[..1], &old[1..101]), (" ", &text[1..101]));
        let length = seeded.below(26) as usize;
        let commented = [old.as_bytes(), &good_comment(&mut seeded, length)].concat();
        assert_eq!(go_up(&commented, labels.hc, &labels.frc).as_deref(), Ok(text));
        let other = go_up(&commented, 99 - labels.hc, b"A1Z").expect("accepted");
        assert_eq!(go_down(other.as_bytes()), Ok(old));
    }
}

/// The lines of documents 003 and 004 in our form, 004's with a date and start put in, come up again as they are; 003's own are
/// filled with blanks, and so a 13.
#[test]
fn published_lines() {
    let all: Vec<_> = published().into_iter().filter(|one| !one.name.starts_with("000")).collect();
    assert_eq!(all.len(), 37);
    for one in all {
        let form = one.put_in.as_ref().unwrap_or(&one.printed);
        let old = go_down(form.columns.as_bytes()).expect("accepted");
        assert_eq!(go_up(old.as_bytes(), form.labels.hc, &form.labels.frc).as_deref(), Ok(form.columns));
        let blanks = old[..101].replace(" 0", "  ");
        let sum = blanks.bytes().map(u32::from).sum::<u32>() % 256;
        assert_eq!(answer(format!("{blanks}{sum:02X}").as_bytes()), 13, "{}", one.name);
    }
}
