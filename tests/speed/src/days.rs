//! A day at once: the archive beside plain Rust, all blocks in one call and in sets, and from few blocks to many.

use crate::case::{good_of, Case};
use crate::library;
use crate::timing::{Operation, Pair};
use reference::good::{good_labels, track_start};
use reference::seeded::Seeded;
use reference::{block_bytes, Labels, FILE_LINE_BYTES, LEAST_BLOCKS, MOST_BLOCKS};
use std::hint::black_box;

const LETTERS: &[u8; 5] = b"CEGJR";
/// The tracks of a date: one of each constellation at each start.
const A_DATE: usize = 89 * LETTERS.len();

// Never inlined and with plain names, so that valgrind can count what is inside.
#[inline(never)]
#[no_mangle]
fn speed_proved_day(blocks: &[u8], lent: &mut [u8]) -> u32 {
    let (mut written, mut block) = (0, 0);
    library::day(Some(blocks), Some(lent), &mut written, &mut block)
}

#[inline(never)]
#[no_mangle]
fn speed_plain_day(blocks: &[u8], lent: &mut [u8]) -> u32 {
    fast::day(blocks, lent).map_or_else(|offence| offence.number, |_| 0)
}

/// Labels that ascend with i.
fn labels(i: usize, seeded: &mut Seeded) -> Labels {
    let mjd = 60_000 + (i / A_DATE) as u32;
    let mut starts: Vec<u32> = (1..=89).map(|track| track_start(mjd, track)).collect();
    starts.sort_unstable();
    let constellation = LETTERS[i % LETTERS.len()];
    let start = starts[i % A_DATE / LETTERS.len()];
    Labels { mjd, start, constellation, fr: u8::from(constellation == b'R'), ioe: 1, ..good_labels(seeded) }
}

/// Blocks back to back, each of its own n.
fn set_of(lengths: &[usize], seeded: &mut Seeded) -> Vec<u8> {
    let mut set = Vec::with_capacity(lengths.iter().map(|n| block_bytes(*n)).sum());
    for (i, n) in lengths.iter().enumerate() {
        set.extend(Case { labels: labels(i, seeded), ..good_of(*n, seeded) }.bytes());
    }
    set
}

/// So many blocks of n, back to back.
pub fn set(count: usize, n: usize, seeded: &mut Seeded) -> Vec<u8> {
    set_of(&vec![n; count], seeded)
}

/// The same blocks in sets of so many.
fn parted(all: &[u8], n: usize, blocks: usize) -> Vec<Vec<u8>> {
    all.chunks(block_bytes(n) * blocks).map(<[u8]>::to_vec).collect()
}

pub fn pair(blocks: usize) -> Pair<u8> {
    let lent = FILE_LINE_BYTES * blocks;
    Pair { function: "trackline_day", proved: speed_proved_day, plain: speed_plain_day, lent }
}

/// Full blocks, all in one call and the same in tenths of them.
pub fn run(count: usize, number: usize, seeded: &mut Seeded) {
    let all = set(number, MOST_BLOCKS, seeded);
    let part = number.div_ceil(10);
    let parts = parted(&all, MOST_BLOCKS, part);
    pair(number).whole(count, &format!("{number} full blocks in one call"), number, &[all], Some(0));
    pair(part).whole(count, &format!("{number} full blocks, {part} a call"), part, &parts, Some(0));
}

/// A pass goes over about so many blocks, in whole calls, or over one call's where these are more.
const A_PASS: usize = 10_000;

/// The cost of a block over the number of blocks in a call, and of the most blocks in calls of 10,000. 100,000 of the shortest are
/// 70 MB; 30,000 full ones are 251 MB, and are there twice.
pub fn by_number(count: usize, seeded: &mut Seeded) {
    for (n, most, name) in [(LEAST_BLOCKS, 100_000, "of 4"), (MOST_BLOCKS, 30_000, "full")] {
        for blocks in [100, 300, 1_000, 3_000, 10_000, 30_000, 100_000].into_iter().filter(|blocks| *blocks < most) {
            let all = set(blocks.max(A_PASS / blocks * blocks), n, seeded);
            let inputs = if blocks < A_PASS { parted(&all, n, blocks) } else { vec![all] };
            pair(blocks).settled(count, &format!("{blocks} {name}"), blocks, &inputs, Some(0));
        }
        let all = set(most, n, seeded);
        let parts = parted(&all, n, A_PASS);
        pair(most).settled(count, &format!("{most} {name}"), most, &[all], Some(0));
        pair(A_PASS).settled(count, &format!("{most} {name}, {A_PASS} a call"), A_PASS, &parts, Some(0));
    }
    in_cache(count, seeded);
    mixed(count, seeded);
}

/// So many full blocks are 335 kB, which a processor's second cache holds.
const CACHED: usize = 40;

/// The same set so often that a pass has as many blocks as others have.
fn again(of: Operation<u8>, blocks: &[u8], lent: &mut [u8]) -> u32 {
    (0..A_PASS / CACHED).fold(0, |answer, _| answer.max(of(black_box(blocks), black_box(lent))))
}

/// One set, passed over again and again: what a block costs that does not come from memory.
fn in_cache(count: usize, seeded: &mut Seeded) {
    let repeated = Pair {
        proved: |blocks, lent| again(speed_proved_day, blocks, lent),
        plain: |blocks, lent| again(speed_plain_day, blocks, lent),
        ..pair(CACHED)
    };
    let inputs = [set(CACHED, MOST_BLOCKS, seeded)];
    repeated.settled(count, &format!("{CACHED} full blocks, in cache"), A_PASS / CACHED * CACHED, &inputs, Some(0));
}

/// Short blocks behind a full one. A block's cost is that of all in the set, the full one too.
fn mixed(count: usize, seeded: &mut Seeded) {
    const BEHIND: usize = 1_000;
    let mut lengths = vec![LEAST_BLOCKS; BEHIND + 1];
    lengths[0] = MOST_BLOCKS;
    let inputs: Vec<Vec<u8>> = (0..A_PASS / BEHIND).map(|_| set_of(&lengths, seeded)).collect();
    let name = format!("{BEHIND} blocks of 4 behind a full one");
    pair(BEHIND + 1).settled(count, &name, BEHIND + 1, &inputs, Some(0));
}
