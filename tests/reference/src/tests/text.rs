//! Line by hand: columns, fills, ranges, checksum, order.

use super::*;
use crate::{line, Numbers};

const FULL: Numbers = Numbers {
    refsv: -9_999_999_999,
    srsv: 99_999,
    refsys: 9_999_999_999,
    srsys: -99_999,
    mdtr: 9999,
    smdt: -999,
    mdio: 1,
    smdi: 999,
    dsg: 9999,
    trkl: 780,
};

fn answer(labels: &Labels, numbers: &Numbers) -> u32 {
    let mut lent = [0x5A; 120];
    let answer = line(labels, numbers, &mut lent);
    assert_eq!(lent[113..], [0x5A; 7]);
    assert_eq!(answer != 0, lent == [0x5A; 120]);
    answer
}

fn written(labels: &Labels, numbers: &Numbers) -> String {
    let mut lent = [0; 113];
    assert_eq!(line(labels, numbers, &mut lent), 0);
    String::from_utf8(lent.to_vec()).expect("a line is ASCII")
}

#[test]
fn widest_numbers_fill_their_columns() {
    let labels = Labels {
        constellation: b'E',
        satellite: 99,
        cl: 0xA9,
        hc: 99,
        frc: *b"0Z9",
        // 4 * 49277 minutes are 376 more than 137 * 1436, so track 25 starts at minute 2 + 16 * 24 - 376 = 10
        mjd: 99999,
        start: 600,
        elv: 900,
        azth: 3599,
        ioe: 999,
        ..SAMPLE_LABELS
    };
    let text = written(&labels, &FULL);
    assert_eq!(
        &text[20..111],
        "0780 900 3599 -9999999999 +99999 +9999999999 -99999 9999 999 9999 -999 0001 +999 00 99 0Z9 "
    );
    for column in [4, 7, 13, 20, 25, 29, 34, 46, 53, 65, 72, 77, 81, 86, 91, 96, 101, 104, 107, 111] {
        assert_eq!(text.as_bytes()[column - 1], b' ', "column {column}");
    }
    assert_eq!(text.bytes().filter(|b| *b == b' ').count(), 20);
    let sum = text.bytes().take(111).map(u32::from).sum::<u32>() % 256;
    assert_eq!(text[111..], format!("{sum:02X}"));
}

#[test]
fn time_of_day() {
    let numbers = Numbers { trkl: 780, ..Numbers::default() };
    let text = written(&Labels { start: 84600, ..SAMPLE_LABELS }, &numbers);
    assert_eq!(&text[13..19], "233000");
    let text = written(&Labels { mjd: 50723, start: 86040, ..SAMPLE_LABELS }, &numbers);
    assert_eq!(&text[7..19], "50723 235400");
}

fn check(expected: u32, labels: Labels) {
    let numbers = Numbers { trkl: 780, ..Numbers::default() };
    assert_eq!(answer(&labels, &numbers), expected, "{labels:?}");
}

#[test]
fn ranges_of_one_byte_are_7() {
    let s = SAMPLE_LABELS;
    for byte in 0..=255u8 {
        let known = b"GRECJ".contains(&byte);
        let fr = if byte == b'R' { 1 } else { 0 };
        check(if known { 0 } else { 7 }, Labels { constellation: byte, fr, ..s });
        check(if (1..=99).contains(&byte) { 0 } else { 7 }, Labels { satellite: byte, ..s });
        check(0, Labels { cl: byte, ..s });
        check(if byte <= 99 { 0 } else { 7 }, Labels { hc: byte, ..s });
        check(if byte == 0 { 0 } else { 7 }, Labels { fr: byte, ..s });
        check(if (1..=24).contains(&byte) { 0 } else { 7 }, Labels { constellation: b'R', fr: byte, ..s });
        let code = byte.is_ascii_digit() || byte.is_ascii_uppercase();
        for at in 0..3 {
            let mut frc = s.frc;
            frc[at] = byte;
            check(if code { 0 } else { 7 }, Labels { frc, ..s });
        }
    }
    // observation codes of the format document that three capitals and digits can't write
    for frc in [*b"B1i", *b" E1"] {
        check(7, Labels { frc, ..s });
    }
}

#[test]
fn other_ranges_are_7() {
    let s = SAMPLE_LABELS;
    for (letter, low, high) in [(b'R', 1, 96), (b'C', 0, 23), (b'G', 0, 255), (b'J', 0, 255), (b'E', 0, 999)] {
        let fr = u8::from(letter == b'R');
        for ioe in (0..=1001).chain([65535]) {
            let expected = if (low..=high).contains(&ioe) { 0 } else { 7 };
            check(expected, Labels { constellation: letter, fr, ioe, ..s });
        }
    }
    for (elv, expected) in [(0, 0), (900, 0), (901, 7), (65535, 7)] {
        check(expected, Labels { elv, ..s });
    }
    for (azth, expected) in [(0, 0), (3599, 0), (3600, 7), (65535, 7)] {
        check(expected, Labels { azth, ..s });
    }
    for mjd in [0, 50721, 100_000, u32::MAX] {
        check(7, Labels { mjd, ..s });
    }
}

#[test]
fn track_lengths_not_of_4_to_52_blocks_are_7() {
    let lengths: Vec<i64> = (4..=52).map(|n| 15 * n).collect();
    assert_eq!((lengths[0], lengths[48]), (60, 780));
    let far =
        [i64::MIN, i64::MIN + 8, -(1 << 32) + 60, -780, -60, (1 << 32) + 60, (1 << 16) + 780, i64::MAX - 7, i64::MAX];
    for trkl in (-1000..=11_000).chain(far) {
        let expected = if lengths.contains(&trkl) { 0 } else { 7 };
        assert_eq!(answer(&SAMPLE_LABELS, &Numbers { trkl, ..Numbers::default() }), expected, "{trkl}");
    }
    for trkl in lengths {
        let text = written(&SAMPLE_LABELS, &Numbers { trkl, ..Numbers::default() });
        assert_eq!(text[20..24], format!("{trkl:04}"));
    }
}

#[test]
fn ranges_of_numbers() {
    let s = SAMPLE_LABELS;
    let n = Numbers { trkl: 780, ..Numbers::default() };
    let extremes = [i64::MIN, i64::MAX];
    for v in [10_000_000_000, -10_000_000_000].into_iter().chain(extremes) {
        assert_eq!(answer(&s, &Numbers { refsv: v, ..n }), 3);
        assert_eq!(answer(&s, &Numbers { refsys: v, ..n }), 3);
    }
    for v in [100_000, -100_000].into_iter().chain(extremes) {
        assert_eq!(answer(&s, &Numbers { srsv: v, ..n }), 4);
        assert_eq!(answer(&s, &Numbers { srsys: v, ..n }), 4);
    }
    for v in [1000, -1000].into_iter().chain(extremes) {
        assert_eq!(answer(&s, &Numbers { smdt: v, ..n }), 4);
        assert_eq!(answer(&s, &Numbers { smdi: v, ..n }), 4);
    }
    for v in [10_000, -1].into_iter().chain(extremes) {
        assert_eq!(answer(&s, &Numbers { mdtr: v, ..n }), 5);
        assert_eq!(answer(&s, &Numbers { mdio: v, ..n }), 5);
        assert_eq!(answer(&s, &Numbers { dsg: v, ..n }), 6);
    }
    assert_eq!(answer(&s, &Numbers { refsys: -9_999_999_999, refsv: 9_999_999_999, ..FULL }), 0);
}

#[test]
fn order_of_line() {
    // each fault with every later one: 7, 8, 3, 4, 5, 6, 9
    let order = [7, 8, 3, 4, 5, 6, 9];
    for first in 0..order.len() {
        for second in first..order.len() {
            let mut labels = SAMPLE_LABELS;
            let mut numbers = FULL;
            let mut lent = 113;
            for fault in [order[first], order[second]] {
                match fault {
                    7 => labels.hc = 100,
                    8 => labels.start = 119,
                    3 => numbers.refsv = 10_000_000_000,
                    4 => numbers.smdi = -1000,
                    5 => numbers.mdio = -1,
                    6 => numbers.dsg = -1,
                    _ => lent = 112,
                }
            }
            assert_eq!(line(&labels, &numbers, &mut vec![0; lent]), order[first]);
        }
    }
}
