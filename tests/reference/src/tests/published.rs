//! The published lines against what is expected of them.

use crate::published::{published, Form};
use crate::{line, read, Labels, Numbers};

/// The labels and numbers that stand in a line's columns.
fn read_columns(text: &str) -> (Labels, Numbers) {
    let part = |first: usize, last: usize| &text[first - 1..last];
    let number = |first: usize, last: usize| part(first, last).parse::<i64>().expect("a number");
    let small = |first: usize, last: usize| number(first, last) as u16;
    let labels = Labels {
        constellation: text.as_bytes()[0],
        satellite: small(2, 3) as u8,
        cl: u8::from_str_radix(part(5, 6), 16).expect("two hexadecimal digits"),
        fr: small(102, 103) as u8,
        hc: small(105, 106) as u8,
        frc: part(108, 110).as_bytes().try_into().expect("three characters"),
        mjd: number(8, 12) as u32,
        start: (3600 * number(14, 15) + 60 * number(16, 17) + number(18, 19)) as u32,
        elv: small(26, 28),
        azth: small(30, 33),
        ioe: small(78, 80),
    };
    let numbers = Numbers {
        refsv: number(35, 45),
        srsv: number(47, 52),
        refsys: number(54, 64),
        srsys: number(66, 71),
        mdtr: number(82, 85),
        smdt: number(87, 90),
        mdio: number(92, 95),
        smdi: number(97, 100),
        dsg: number(73, 76),
        trkl: number(21, 24),
    };
    (labels, numbers)
}

fn check(name: &str, form: &Form) {
    let (given, text) = ((form.labels, form.numbers), form.columns);
    let mut lent = [0; 113];
    assert_eq!(line(&given.0, &given.1, &mut lent), form.line_answer, "{name}");
    assert_eq!(read_columns(text), given, "{name}");
    let sum = text.bytes().take(111).map(u32::from).sum::<u32>() % 256;
    assert_eq!(text[111..], format!("{sum:02X}"), "{name}");
    if form.line_answer == 0 {
        assert_eq!(std::str::from_utf8(&lent), Ok(text), "{name}");
    }
    let expected = if form.read_answer == 0 { Ok(given) } else { Err(form.read_answer) };
    assert_eq!(read(text.as_bytes()), expected, "{name}");
}

/// The columns filled with blanks in place of zeros, as the documents print them, and their own checksum.
fn blank_filled(text: &str) -> String {
    let blank = |word: &str| {
        let (sign, digits) = word.split_at(usize::from(word.starts_with(['+', '-'])));
        let rest = digits.trim_start_matches('0');
        format!("{:>1$}", format!("{sign}{}", if rest.is_empty() { "0" } else { rest }), word.len())
    };
    let words: Vec<String> = text[..110].split(' ').map(blank).collect();
    let columns = words.join(" ") + " ";
    let sum = columns.bytes().map(u32::from).sum::<u32>() % 256;
    format!("{columns}{sum:02X}")
}

#[test]
fn published_lines() {
    let all = published();
    assert_eq!(all.len(), 44);
    for case in &all {
        // the dates of document 004 lie before the schedule's first
        let old = case.name.starts_with("004");
        case.forms().for_each(|form| check(case.name, form));
        let answer = if old { 7 } else { 0 };
        assert_eq!((case.printed.line_answer, case.printed.read_answer), (answer, answer));
        assert_eq!(case.put_in.is_some(), old);
        if let Some(put_in) = &case.put_in {
            assert_eq!((put_in.line_answer, put_in.read_answer), (0, 0));
        }
        // one track is short
        let length = if case.name == "004.3" { 765 } else { 780 };
        case.forms().for_each(|form| assert_eq!(form.numbers.trkl, length));
    }
}

#[test]
fn published_lines_filled_with_blanks_are_13() {
    for case in published() {
        for form in case.forms() {
            let filled = blank_filled(form.columns);
            assert_eq!((filled.len(), read(filled.as_bytes())), (113, Err(13)), "{filled}");
        }
    }
}
