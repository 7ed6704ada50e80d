//! A day by hand: which block is named and with what number, and the file that is written.

use super::*;
use crate::{day, Offence};

/// The sample's track, full or of n blocks, of this satellite and at this second of MJD 50722; 120, 1080 and 2040 are starts.
fn track(n: usize, satellite: u8, start: u32) -> Vec<u8> {
    Given::of(n, 1000).block(&Labels { satellite, start, ..SAMPLE_LABELS })
}

/// The answer to a set, with as much lent; what is not written must stay, and a refusal must write nothing.
fn answer(set: &[u8], room: usize) -> Result<Vec<u8>, (u32, usize)> {
    let mut lent = vec![0xA5; room];
    let answer = day(set, &mut lent);
    let written = answer.unwrap_or(0);
    assert!(lent[written..].iter().all(|byte| *byte == 0xA5));
    lent.truncate(written);
    answer.map(|_| lent).map_err(|Offence { number, block }| (number, block))
}

fn refusal(set: &[u8]) -> (u32, usize) {
    answer(set, 1000).expect_err("a refusal")
}

#[test]
fn no_blocks() {
    assert_eq!(answer(&[], 0), Ok(vec![]));
    assert_eq!(answer(&[], 7), Ok(vec![]));
}

#[test]
fn the_sample_alone() {
    let file = format!("{SAMPLE_LINE}\r\n").into_bytes();
    assert_eq!(answer(&track(52, 5, 120), 115), Ok(file.clone()));
    assert_eq!(answer(&track(52, 5, 120), 116), Ok(file));
    assert_eq!(answer(&track(52, 5, 120), 114), Err((9, 1)));
    assert_eq!(answer(&track(52, 5, 120), 113), Err((9, 1)));
}

/// A full track, one of 4 blocks and a full one: each is as long as its own sizes say. Columns 2-3, 14-19, 21-24 and CK differ.
#[test]
fn full_and_short() {
    let set = [track(52, 5, 120), track(4, 6, 120), track(52, 1, 1080)].concat();
    let lines = [
        SAMPLE_LINE,
        "G06 FF 50722 000200 0060 450 1800 +0000000010 +00000 +0000000010 +00000 0000 007 0000 +000 0000 +000 00 00 L1C 1E",
        "G01 FF 50722 001800 0780 450 1800 +0000000010 +00000 +0000000010 +00000 0000 007 0000 +000 0000 +000 00 00 L1C 29",
    ];
    let file = lines.map(|line| format!("{line}\r\n")).concat().into_bytes();
    assert_eq!(answer(&set, 345), Ok(file));
    assert_eq!(answer(&set, 344), Err((9, 3)));
    assert_eq!(answer(&set, 0), Err((9, 3)));
}

#[test]
fn blocks_that_do_not_follow() {
    let [first, second, third] = [track(4, 5, 120), track(4, 6, 120), track(4, 5, 1080)];
    assert_eq!(refusal(&[&first[..], &first].concat()), (16, 1));
    assert_eq!(refusal(&[&second[..], &first].concat()), (16, 1));
    assert_eq!(refusal(&[&first[..], &third, &second].concat()), (16, 2));
    // the same track with another length has the same keys
    assert_eq!(refusal(&[&first[..], &track(52, 5, 120)].concat()), (16, 1));
    // 9 comes after every block
    assert_eq!(answer(&[&first[..], &first].concat(), 0), Err((16, 1)));
}

/// The first block that offends decides, whatever its number, and in one block its own number comes before 16.
#[test]
fn the_first_offending_block() {
    let good = track(4, 5, 1080);
    let (mut label, mut limit) = (good.clone(), good.clone());
    label[5] = 0;
    limit[57] = 0x7F;
    let start = track(4, 5, 121);
    assert_eq!(refusal(&[&good[..], &label, &limit].concat()), (7, 1));
    assert_eq!(refusal(&[&good[..], &limit, &label].concat()), (2, 1));
    assert_eq!(refusal(&[&good[..], &good, &limit].concat()), (16, 1));
    assert_eq!(refusal(&[&limit[..], &good, &good].concat()), (2, 0));
    assert_eq!(refusal(&[&good[..], &start].concat()), (8, 1));
    assert_eq!(refusal(&[&good[..], &start, &label].concat()), (8, 1));
}

/// One to three bytes behind the last block are 11, and more are judged by their sizes first.
#[test]
fn a_cut_last_block() {
    let (good, full) = (track(4, 5, 120), track(52, 6, 120));
    for length in [1, 2, 3, 4, 58, 8377] {
        assert_eq!(refusal(&[&good[..], &full[..length]].concat()), (11, 1), "{length}");
        let zeros = vec![0; length];
        let expected = if length < 4 { 11 } else { 1 };
        assert_eq!(refusal(&[&good[..], &zeros].concat()), (expected, 1), "{length}");
        assert_eq!(refusal(&zeros), (expected, 0), "{length}");
    }
    // a block of 4 with the sizes of 5 is 160 bytes short of the 858 that these make
    let mut long = track(4, 5, 120);
    (long[0], long[2]) = (75, 5);
    assert_eq!(refusal(&long), (11, 0));
}
