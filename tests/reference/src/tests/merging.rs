//! Line files by hand: what a file is refused for, what two of them make, and the same by sorting all lines.

use super::*;
use crate::good_files::{lines_in, long_file, Span};
use crate::seeded::Seeded;
use crate::{file_lines, merge, FILE_LINE_BYTES};

/// The sample's line with other characters from columns on, counted from 1, its checksum put right and its line end.
pub fn with(changes: &[(usize, &str)]) -> Vec<u8> {
    let mut line = SAMPLE_LINE.as_bytes().to_vec();
    for (column, text) in changes {
        line[column - 1..column - 1 + text.len()].copy_from_slice(text.as_bytes());
    }
    let sum = line[..111].iter().map(|byte| u32::from(*byte)).sum::<u32>() % 256;
    line[111..].copy_from_slice(format!("{sum:02X}").as_bytes());
    line.extend(b"\r\n");
    line
}

/// By date, clock, letter and satellite, in columns.
pub fn line_at(mjd: &str, clock: &str, satellite: &str) -> Vec<u8> {
    let fr = if satellite.starts_with('R') { "01" } else { "00" };
    with(&[(1, satellite), (8, mjd), (14, clock), (102, fr)])
}

/// Ascending by hand. MJD 50723 has a start at 00:14, before MJD 50722's 00:18.
pub fn ascending() -> Vec<Vec<u8>> {
    [
        ("50722", "000200", "C99"),
        ("50722", "000200", "E01"),
        ("50722", "000200", "E02"),
        ("50722", "000200", "E10"),
        ("50722", "000200", "G01"),
        ("50722", "000200", "J01"),
        ("50722", "000200", "R01"),
        ("50722", "001800", "C01"),
        ("50722", "233000", "R99"),
        ("50723", "001400", "C01"),
        ("50723", "235400", "C01"),
        ("51081", "000200", "G05"),
        ("99999", "001000", "G05"),
    ]
    .iter()
    .map(|(mjd, clock, satellite)| line_at(mjd, clock, satellite))
    .collect()
}

fn answer(file: &[u8]) -> u32 {
    file_lines(file).err().unwrap_or(0)
}

/// The merged file, or the refusal; what is lent has room to spare, which must stay, and a refusal must write nothing.
fn merged(first: &[u8], second: &[u8]) -> Result<Vec<u8>, u32> {
    let mut lent = vec![0xA5; first.len() + second.len() + 7];
    let untouched = lent.clone();
    let answer = merge(first, second, &mut lent);
    let length = answer.unwrap_or(0);
    assert_eq!(lent[length..], untouched[length..]);
    answer.map(|length| lent[..length].to_vec())
}

/// The same by another way: all lines, sorted by the text of their key columns, each once.
fn sorted(first: &[u8], second: &[u8]) -> Vec<u8> {
    let mut lines: Vec<&[u8]> = first.chunks(115).chain(second.chunks(115)).collect();
    lines.sort_by_key(|line| [&line[7..12], &line[13..19], &line[..3]].concat());
    lines.dedup();
    lines.concat()
}

#[test]
fn files_that_ascend() {
    let lines = ascending();
    assert_eq!(answer(&lines.concat()), 0);
    assert_eq!(answer(b""), 0);
    let found = file_lines(&lines[0]).map(|lines| lines[0].0);
    assert_eq!(found, Ok((50722, 120, b'C', 99)));
    for (i, line) in lines.iter().enumerate() {
        assert_eq!(answer(line), 0);
        for other in &lines[i + 1..] {
            assert_eq!(answer(&[&line[..], other].concat()), 0);
            assert_eq!(answer(&[&other[..], line].concat()), 16);
        }
        assert_eq!(answer(&[&line[..], line].concat()), 16);
    }
}

/// Line 3 of 5 with one fault, and the number that it is.
pub fn faulty_lines() -> Vec<(u32, Vec<u8>)> {
    let good = line_at("50722", "000200", "E02");
    let end = |end: &[u8]| [&good[..113], end].concat();
    let mut wrong_sum = good.clone();
    wrong_sum[112] ^= 1;
    vec![
        (14, wrong_sum),
        (13, with(&[(1, "S01")])),
        (13, with(&[(47, "-00000")])),
        (7, with(&[(1, "G00")])),
        (7, with(&[(8, "50721")])),
        (8, with(&[(14, "000201")])),
        (8, with(&[(14, "240200")])),
        (13, end(b"\n\r")),
        (13, end(b"\r\r")),
        (13, end(b"\n\n")),
        (13, end(b"  ")),
        (16, line_at("50722", "000200", "C98")),
        (16, line_at("50722", "000200", "E01")),
    ]
}

#[test]
fn the_earliest_line_decides() {
    let lines = ascending();
    for (number, faulty) in faulty_lines() {
        // a line that is 16 behind others is accepted as the first
        let alone = if number == 16 { 0 } else { number };
        assert_eq!(answer(&[faulty.clone(), lines[4..].concat()].concat()), alone);
        assert_eq!(answer(&[lines[..2].concat(), faulty.clone(), lines[4..].concat()].concat()), number);
        assert_eq!(answer(&[lines[..2].concat(), faulty.clone()].concat()), number);
        for (later, other) in faulty_lines() {
            let both = [&lines[..2].concat(), &faulty[..], &other].concat();
            assert_eq!(answer(&both), number, "{number}, then {later}");
            assert_eq!(answer(&[&both, &b"tail"[..]].concat()), number, "{number}, then {later}, then a tail");
        }
    }
}

#[test]
fn order_within_a_line() {
    let before = line_at("50722", "000200", "E02");
    let behind = |line: &[u8]| answer(&[&before, line].concat());
    // one line with every fault, put right one by one: CK, a character, a label, the start, the line end, the order
    let mut line = with(&[(47, "-00000"), (1, "G00"), (14, "000159")]);
    line[113..].copy_from_slice(b"\n ");
    line[112] ^= 1;
    assert_eq!(behind(&line), 14);
    let ended = |changes: &[(usize, &str)]| [&with(changes)[..113], b"\n "].concat();
    assert_eq!(behind(&ended(&[(47, "-00000"), (1, "G00"), (14, "000159")])), 13);
    assert_eq!(behind(&ended(&[(1, "G00"), (14, "000159")])), 7);
    assert_eq!(behind(&ended(&[(1, "E01"), (14, "000159")])), 8);
    assert_eq!(behind(&ended(&[(1, "E01")])), 13);
    assert_eq!(behind(&with(&[(1, "E01")])), 16);
    assert_eq!(behind(&with(&[(1, "E03")])), 0);
}

#[test]
fn tails_are_12() {
    let lines = ascending();
    for length in 1..FILE_LINE_BYTES {
        assert_eq!(answer(&lines[0][..length]), 12, "{length} bytes");
        assert_eq!(answer(&[&lines[0], &lines[1][..length]].concat()), 12, "a line and {length} bytes");
        assert_eq!(answer(&[&lines[1], &lines[0][..length]].concat()), 12, "a tail that would not follow");
        assert_eq!(answer(&[&lines[1], &lines[0], &lines[2][..length]].concat()), 16, "16 before a tail");
    }
}

#[test]
fn other_line_ends_are_13() {
    let mut line = line_at("50722", "000200", "E02");
    for end in 0..=u16::MAX {
        line[113..].copy_from_slice(&end.to_be_bytes());
        assert_eq!(answer(&line), if end == 0x0D0A { 0 } else { 13 });
    }
}

#[test]
fn two_files_by_hand() {
    let lines = ascending();
    let [a, b, c, d] = [0, 2, 4, 6].map(|i| &lines[i][..]);
    let check = |first: &[&[u8]], second: &[&[u8]], wanted: &[&[u8]]| {
        assert_eq!(merged(&first.concat(), &second.concat()), Ok(wanted.concat()));
        assert_eq!(merged(&second.concat(), &first.concat()), Ok(wanted.concat()));
    };
    check(&[], &[], &[]);
    check(&[a], &[], &[a]);
    check(&[a], &[a], &[a]);
    check(&[a], &[b], &[a, b]);
    check(&[a, c], &[b, d], &[a, b, c, d]);
    check(&[a, d], &[b, c], &[a, b, c, d]);
    check(&[a, b], &[c, d], &[a, b, c, d]);
    check(&[a, b, c], &[b, c, d], &[a, b, c, d]);
    check(&[a, b, c, d], &[c], &[a, b, c, d]);
    check(&[a, b, c, d], &[a, b, c, d], &[a, b, c, d]);
}

#[test]
fn merging_is_sorting() {
    let mut seeded = Seeded::new(5);
    for _ in 0..2000 {
        let most = seeded.below(40) as usize;
        let lines = lines_in(Span::narrow(&mut seeded), most, &mut seeded);
        let (mut first, mut second) = (Vec::new(), Vec::new());
        for (_, line) in lines.values() {
            let whose = seeded.below(3);
            if whose != 1 {
                first.extend(line);
            }
            if whose != 0 {
                second.extend(line);
            }
        }
        let result = merged(&first, &second).expect("accepted");
        assert_eq!(result, sorted(&first, &second));
        assert_eq!(result, lines.values().flat_map(|(_, line)| line.to_vec()).collect::<Vec<u8>>());
        // the other way round, with itself, with nothing, and once more
        assert_eq!(merged(&second, &first), Ok(result.clone()));
        assert_eq!(merged(&first, &first), Ok(first.clone()));
        assert_eq!(merged(&first, b""), Ok(first.clone()));
        assert_eq!(merged(b"", &second), Ok(second.clone()));
        assert_eq!(merged(&result, &second), Ok(result.clone()));
        assert_eq!(merged(&first, &result), Ok(result));
    }
}

#[test]
fn long_files_merge() {
    let mut seeded = Seeded::new(6);
    let file = long_file(60000, 4000, &mut seeded);
    assert_eq!(file.len(), 4000 * FILE_LINE_BYTES);
    let (mut first, mut second) = (Vec::new(), Vec::new());
    for (i, line) in file.chunks(FILE_LINE_BYTES).enumerate() {
        if i % 3 == 0 { &mut first } else { &mut second }.extend(line);
    }
    assert_eq!(merged(&first, &second), Ok(file));
}

#[test]
fn same_keys_and_another_content_are_15() {
    let [a, b, c] = [0, 2, 4].map(|i| ascending()[i].clone());
    // any column but those of the keys and CK
    for (column, text) in [(5, "00"), (26, "451"), (35, "+0000000011"), (73, "0001"), (108, "L1P")] {
        let keyed = |line: &[u8]| String::from_utf8(line.to_vec()).expect("ASCII");
        let (letter, mjd, clock) = (&keyed(&b)[..3], &keyed(&b)[7..12], &keyed(&b)[13..19]);
        let other = with(&[(1, letter), (8, mjd), (14, clock), (column, text)]);
        assert_ne!(b, other);
        assert_eq!(merged(&b, &other), Err(15));
        assert_eq!(merged(&[&a[..], &b].concat(), &[&other[..], &c].concat()), Err(15));
        assert_eq!(merged(&[&other[..], &c].concat(), &[&a[..], &b, &c].concat()), Err(15));
        // within one file it is 16
        assert_eq!(merged(&[&b[..], &other].concat(), b""), Err(16));
    }
    assert_eq!(merged(&[&a[..], &b].concat(), &[&b[..], &c].concat()), Ok([&a[..], &b, &c].concat()));
}

#[test]
fn lent_files() {
    let [a, b, c] = [0, 2, 4].map(|i| ascending()[i].clone());
    let (first, second) = ([&a[..], &b].concat(), [&b[..], &c].concat());
    for length in 0..=3 * FILE_LINE_BYTES + 2 {
        let mut lent: Vec<u8> = (0..length).map(|i| i as u8).collect();
        let before = lent.clone();
        let answer = merge(&first, &second, &mut lent);
        if length < 345 {
            assert_eq!((answer, &lent), (Err(17), &before));
        } else {
            assert_eq!(answer, Ok(345));
            assert_eq!(lent[..345], [&a[..], &b, &c].concat());
            assert_eq!(lent[345..], before[345..]);
        }
    }
    assert_eq!(merge(b"", b"", &mut []), Ok(0));
    assert_eq!(merge(&a, b"", &mut []), Err(17));
}

#[test]
fn order_of_merge() {
    let [a, b] = [0, 2].map(|i| ascending()[i].clone());
    let other = with(&[(1, "C99"), (5, "00")]);
    let falling = [&b[..], &a].concat();
    // the whole first file, then the second, then 15, then 17, with or without room
    for room in [0, 1000] {
        let mut lent = vec![0; room];
        for (number, faulty) in faulty_lines() {
            let first = [&ascending()[..2].concat(), &faulty[..]].concat();
            for second in [&b"tail"[..], &falling, &other, b""] {
                assert_eq!(merge(&first, second, &mut lent), Err(number));
            }
            assert_eq!(merge(&other, &first, &mut lent), Err(number));
            assert_eq!(merge(&falling, &first, &mut lent), Err(16));
        }
        assert_eq!(merge(&a, &other, &mut lent), Err(15));
    }
}
