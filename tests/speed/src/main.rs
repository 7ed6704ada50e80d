//! Times the archive beside plain Rust that is written for speed: same inputs, same process, in turns.
//!
//!     speed [ROUNDS [BLOCKS [SEED]]]     a row for every function, then the parts of a block and of a line read
//!     speed days [ROUNDS]                a day's cost over its number of blocks; takes half a GB of memory
//!     speed once PART                    one call of each on one input that is refused behind a part, for instructions.sh
//!
//! Inputs are seeded, all different and all accepted unless said: 10,000 full blocks where no other number is given, as many of the
//! shortest tracks, and ten lines, ten lines of version 01 and ten paths for each. Parts are told apart by inputs that are refused
//! at one stage: what one stage costs more than the stage before it is the cost of the work between them.
//! No time fails this program; a different answer, line or value does.

#[allow(dead_code)]
#[path = "../../boundary/src/case.rs"]
mod case;
mod days;
mod files;
#[allow(dead_code)]
#[path = "../../boundary/src/library.rs"]
mod library;
mod lines;
mod machine;
mod measurements;
mod paths;
mod read_stages;
mod stages;
mod stores;
mod timing;
mod version01;

use measurements::MEASUREMENTS;
use read_stages::READ_STAGES;
use reference::seeded::Seeded;
use reference::{LEAST_BLOCKS, LINE_BYTES, MOST_BLOCKS};
use stages::{Stage, STAGES};
use timing::Pair;

// Never inlined and with plain names, so that valgrind can count what is inside.
#[inline(never)]
#[no_mangle]
fn speed_proved(block: &[u8], lent: &mut [u8]) -> u32 {
    library::block(Some(block), Some(lent))
}

#[inline(never)]
#[no_mangle]
fn speed_plain(block: &[u8], lent: &mut [u8]) -> u32 {
    fast::block(block, lent)
}

const BLOCK: Pair<u8> =
    Pair { function: "trackline_block", proved: speed_proved, plain: speed_plain, lent: LINE_BYTES };

fn blocks(n: usize, number: usize, seeded: &mut Seeded) -> Vec<Vec<u8>> {
    (0..number).map(|_| case::good_of(n, seeded).bytes()).collect()
}

/// Full blocks and the shortest, and those of which one measurement is outside its limit.
fn block_rows(count: usize, number: usize, seeded: &mut Seeded) {
    for (name, n) in [("a full block", MOST_BLOCKS), ("a block of 4", LEAST_BLOCKS)] {
        let blocks = blocks(n, number, seeded);
        BLOCK.whole(count, name, 1, &blocks, Some(0));
        for stage in &MEASUREMENTS {
            let mut spoilt = blocks.clone();
            spoilt.iter_mut().for_each(stage.spoil);
            BLOCK.whole(count, &format!("{name}, {}", stage.part), 1, &spoilt, Some(stage.answer));
        }
    }
}

/// One call of each on the first block or line of seed 1, refused behind the named part, or on a set of ten blocks.
fn once(part: &str) {
    let find = |stages: &'static [Stage]| stages.iter().find(|stage| stage.part == part);
    let mut seeded = Seeded::new(1);
    match (part, find(&STAGES), find(&READ_STAGES)) {
        ("line", ..) => lines::LINE.agree(&[lines::a_given(&mut seeded)], Some(0)),
        ("day", ..) => days::pair(10).agree(&[days::set(10, MOST_BLOCKS, &mut seeded)], Some(0)),
        (_, Some(stage), _) => BLOCK.once(case::good_of(MOST_BLOCKS, &mut seeded).bytes(), stage),
        (_, _, Some(stage)) => lines::READ.once(lines::a_line(&mut seeded), stage),
        _ => panic!("{part} is no part of docs/SPEED.md"),
    }
}

/// A row for each function, then the parts of a block and of a line read.
fn all(count: usize, number: usize, seed: u64) {
    let mut seeded = Seeded::new(seed);
    timing::head();
    block_rows(count, number, &mut seeded);
    days::run(count, number, &mut seeded);
    lines::run(count, 10 * number, &mut seeded);
    version01::run(count, 10 * number, &mut seeded);
    files::run(count, number, &mut seeded);
    stores::run(4 * count, &mut seeded);
    paths::run(count, 10 * number, &mut seeded);
    BLOCK.split(4 * count, "full block", &blocks(MOST_BLOCKS, 1000, &mut seeded), &STAGES);
    lines::parts(4 * count, &mut seeded);
}

fn main() {
    let words: Vec<String> = std::env::args().skip(1).collect();
    let number = |i: usize, default: u64| words.get(i).map_or(default, |word| word.parse().expect("a number"));
    match words.first().map(String::as_str) {
        Some("once") => once(&words[1]),
        Some("days") => {
            let rounds = number(1, 15).max(1) as usize;
            machine::print(rounds);
            timing::head();
            days::by_number(rounds, &mut Seeded::new(1));
        }
        _ => {
            let rounds = number(0, 15).max(1) as usize;
            machine::print(rounds);
            all(rounds, number(1, 10_000).max(1) as usize, number(2, 1));
        }
    }
}
