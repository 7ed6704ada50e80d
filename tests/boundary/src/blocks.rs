//! Blocks: good, faulty, at every limit, and damaged; those on the edge of a rounding and those with the largest values stand in
//! modules of their own.

use crate::case::*;
use crate::compare::{Compare, Lent};
use crate::edges;
use crate::faults::*;
use crate::largest;
use reference::seeded::Seeded;
use reference::{block_bytes, LEAST_BLOCKS, MOST_BLOCKS};

pub fn run(compare: &mut Compare, seeded: &mut Seeded, scale: usize) {
    faulty(compare, seeded, 80 * scale);
    for _ in 0..50_000 * scale {
        accepted(compare, seeded);
        edges::run(compare, seeded);
        if seeded.below(8) == 0 {
            largest::extremes(compare, seeded);
        }
        wild(compare, seeded);
        flipped(compare, seeded);
    }
    for n in LEAST_BLOCKS..=MOST_BLOCKS {
        limits(compare, n, seeded);
        lengths(compare, n, seeded);
    }
    for n in LEAST_BLOCKS - 1..=MOST_BLOCKS + 1 {
        sizes_near(compare, n, seeded);
    }
    for n in [LEAST_BLOCKS, 13, MOST_BLOCKS] {
        sizes(compare, n, seeded);
    }
    zeros_and_long_blocks(compare, seeded);
    largest::run(compare, seeded);
    largest::far_slopes(compare, seeded);
}

/// Any lent line, most of them long enough.
pub fn any_lent(seeded: &mut Seeded) -> Lent {
    if seeded.below(10) == 0 {
        short_lent(seeded)
    } else {
        long_lent(seeded)
    }
}

/// Every fault, every pair of faults, and nearly as many triples as pairs.
fn faulty(compare: &mut Compare, seeded: &mut Seeded, rounds: usize) {
    let all = of_blocks();
    for _ in 0..rounds {
        for (i, first) in all.iter().enumerate() {
            one_faulty(compare, seeded, &[*first]);
            for second in &all[i + 1..] {
                one_faulty(compare, seeded, &[*first, *second]);
                let third = seeded.pick(&all);
                if third != *first && third != *second {
                    one_faulty(compare, seeded, &[*first, *second, third]);
                }
            }
        }
    }
}

fn one_faulty(compare: &mut Compare, seeded: &mut Seeded, faults: &[Fault]) {
    let (bytes, lent) = faulty_block(faults, seeded);
    let answer = compare.block("faulty blocks", bytes.as_deref(), lent);
    let places: Vec<usize> = faults.iter().map(|fault| fault.place()).collect();
    compare.placed_faults("block", &BLOCK_ORDER, &places, answer);
}

fn accepted(compare: &mut Compare, seeded: &mut Seeded) {
    let lent = long_lent(seeded);
    let answer = compare.block("good blocks", Some(&good(seeded).bytes()), lent);
    compare.faults("block", &BLOCK_ORDER, &[], answer);
}

/// Numbers from all over their ranges, seldom beyond; most such blocks are refused.
fn wild(compare: &mut Compare, seeded: &mut Seeded) {
    let mut case = good(seeded);
    let flat = seeded.below(3) == 0;
    let number = |seeded: &mut Seeded, limit: i64| match seeded.below(4000) {
        0 => limit + 1,
        1 => -limit - 1,
        2..=40 => limit,
        41..=80 => -limit,
        _ => seeded.range(-limit, limit),
    };
    if !flat {
        case.measurements.iter_mut().for_each(|m| *m = number(seeded, 1_000_000_000_000));
    }
    for k in 0..5 {
        let limit = if k == GEOMETRY { 200_000_000_000 } else { 10_000_000_000 };
        let constant = number(seeded, limit);
        let keep = seeded.below(2) == 0;
        case.columns[k].iter_mut().for_each(|v| *v = if keep { constant } else { number(seeded, limit) });
    }
    let [int, cab, refdly, gd] = [0; 4].map(|_| number(seeded, 10_000_000_000));
    case.delays = reference::Delays { int, cab, refdly, gd };
    let lent = any_lent(seeded);
    compare.block("wild blocks", Some(&case.bytes()), lent);
}

/// Good blocks with up to four bits turned over, or with nothing but seeded bytes after the sizes.
fn flipped(compare: &mut Compare, seeded: &mut Seeded) {
    let mut bytes = good(seeded).bytes();
    if seeded.below(20) == 0 {
        seeded.fill(&mut bytes[4..]);
    }
    for _ in 0..seeded.range(1, 4) {
        let region = if seeded.below(2) == 0 { 58 } else { bytes.len() as u64 };
        let at = seeded.below(region) as usize;
        bytes[at] ^= 1 << seeded.below(8);
    }
    let lent = any_lent(seeded);
    compare.block("damaged blocks", Some(&bytes), lent);
}

/// Every ps number of a block at its limits and beyond them; of a block that is neither the shortest nor the longest, at two of
/// these values.
fn limits(compare: &mut Compare, n: usize, seeded: &mut Seeded) {
    let corrections = 58 + 120 * n;
    for at in (26..block_bytes(n)).step_by(8) {
        let limit: i64 = match at {
            58.. if at < corrections => 1_000_000_000_000,
            58.. if (at - corrections) % 40 == 0 => 200_000_000_000,
            _ => 10_000_000_000,
        };
        let all = [limit, limit + 1, -limit, -limit - 1, i64::MIN, i64::MAX, 1, -1];
        let some = [seeded.pick(&all[..4]), seeded.pick(&all)];
        let values = if n == LEAST_BLOCKS || n == MOST_BLOCKS { &all[..] } else { &some };
        for value in values {
            let mut bytes = good_of(n, seeded).bytes();
            bytes[at..at + 8].copy_from_slice(&value.to_le_bytes());
            let lent = any_lent(seeded);
            compare.block("blocks at a limit", Some(&bytes), lent);
        }
    }
}

/// Every length up to some bytes beyond a block.
fn lengths(compare: &mut Compare, n: usize, seeded: &mut Seeded) {
    let mut bytes = good_of(n, seeded).bytes();
    bytes.resize(block_bytes(n + 2) + 1, 0);
    for length in 0..=bytes.len() {
        let lent = any_lent(seeded);
        let answer = compare.block("blocks by their length", Some(&bytes[..length]), lent);
        let whole = length == block_bytes(n);
        compare.known("block", if whole { answer } else { 11 }, answer);
    }
    for other in LEAST_BLOCKS..=MOST_BLOCKS {
        bytes.resize(block_bytes(other), 0);
        let lent = any_lent(seeded);
        compare.block("blocks of another length", Some(&bytes), lent);
    }
}

fn put_sizes(bytes: &mut [u8], seconds: u16, blocks: u16) {
    bytes[..2].copy_from_slice(&seconds.to_le_bytes());
    bytes[2..4].copy_from_slice(&blocks.to_le_bytes());
}

/// Sizes near 15n and n, with the bytes that these make and with fewer and more.
fn sizes_near(compare: &mut Compare, n: usize, seeded: &mut Seeded) {
    let bytes = good_of(n, seeded).bytes();
    let (seconds, blocks) = (15 * n as u16, n as u16);
    let near = (0..=34).flat_map(|a| (0..=4).map(move |b| (seconds + a - 17, blocks + b - 2)));
    let others = (LEAST_BLOCKS as u16..=MOST_BLOCKS as u16).flat_map(|other| [(15 * other, blocks), (seconds, other)]);
    let turned = [(blocks, seconds), (blocks.swap_bytes(), seconds.swap_bytes()), (0, 0), (0, blocks), (seconds, 0)];
    for (first, second) in near.chain(others).chain(turned) {
        let mut sized = bytes.clone();
        put_sizes(&mut sized, first, second);
        sized.resize(bytes.len() + 160, 0);
        for length in [bytes.len(), bytes.len() - 1, bytes.len() - 160, bytes.len() + 160, 4, 3] {
            let lent = any_lent(seeded);
            let answer = compare.block("blocks by their sizes", Some(&sized[..length]), lent);
            let fit = (4..=52).contains(&second) && first == 15 * second;
            if length >= 4 && !fit {
                compare.known("block", 1, answer);
            }
        }
    }
}

/// Every size beside the right other one.
fn sizes(compare: &mut Compare, n: usize, seeded: &mut Seeded) {
    let mut bytes = good_of(n, seeded).bytes();
    for size in 0..=u16::MAX {
        put_sizes(&mut bytes, 15 * n as u16, size);
        let lent = any_lent(seeded);
        compare.block("blocks by their second size", Some(&bytes), lent);
        put_sizes(&mut bytes, size, n as u16);
        let lent = any_lent(seeded);
        compare.block("blocks by their first size", Some(&bytes), lent);
    }
}

/// Nothing but zeros of every length, which have the sizes 0 and 0 from 4 bytes on; a long block, and none.
fn zeros_and_long_blocks(compare: &mut Compare, seeded: &mut Seeded) {
    let zeros = vec![0; block_bytes(MOST_BLOCKS) + 200];
    for length in 0..=zeros.len() {
        let lent = any_lent(seeded);
        let answer = compare.block("zero bytes", Some(&zeros[..length]), lent);
        compare.known("block", if length < 4 { 11 } else { 1 }, answer);
    }
    let mut bytes = good_of(MOST_BLOCKS, seeded).bytes();
    bytes.resize(1 << 20, 0);
    for lent in [Lent::Null, Lent::Of(0), Lent::Of(113)] {
        compare.block("a long block", Some(&bytes), lent);
        compare.block("no block", None, lent);
    }
}
