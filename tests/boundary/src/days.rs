//! Sets of blocks: good, faulty at every place, cut, damaged, in every order, with every room, and longer than what is kept.

use crate::answers;
use crate::case::{good_of, Case};
use crate::compare::{Compare, Lent};
use crate::day_faults::*;
use crate::file_pairs::keyed_lines;
use reference::good_files::Span;
use reference::seeded::Seeded;
use reference::{keys, Labels, FILE_LINE_BYTES, LEAST_BLOCKS, MOST_BLOCKS};
use std::collections::BTreeMap;

/// As many lines as trackline_day keeps at most while the blocks are judged: those behind them are made once more. It keeps 32 or
/// 1024 where the bytes hold no more blocks of the first one's length.
const KEPT: usize = 10_000;

/// How often two faults met: the ranks of the one that decides and of the other, and whether both are of one block.
#[derive(Default)]
pub struct Met {
    sets: u64,
    alone: BTreeMap<(usize, usize), u64>,
    pairs: BTreeMap<(usize, usize, bool), u64>,
}

pub fn run(compare: &mut Compare, seeded: &mut Seeded, scale: usize) -> Met {
    let mut met = Met::default();
    for _ in 0..4 * scale {
        faulty(compare, seeded, &mut met);
    }
    for _ in 0..1_000 * scale {
        for count in [0, 1, 2, 3] {
            good(compare, seeded, count);
        }
        let any = seeded.range(4, 40) as usize;
        good(compare, seeded, any);
        trailing(compare, seeded);
        damaged(compare, seeded);
        junk(compare, seeded);
    }
    for _ in 0..40 * scale {
        good(compare, seeded, 89);
    }
    for _ in 0..2 * scale {
        lengths(compare, seeded);
        rooms(compare, seeded);
    }
    all_keys(compare, seeded);
    nothing(compare);
    for kept in [32, 1024, KEPT] {
        for count in [kept - 1, kept, kept + 1] {
            long(compare, seeded, kept, count, set_of);
            long(compare, seeded, kept, count, shortest_of);
        }
    }
    long(compare, seeded, KEPT, 2 * KEPT + 1, shortest_of);
    // the first block is longer than the others
    long(compare, seeded, 32, 300, full_first);
    long(compare, seeded, 1024, 2_000, full_first);
    met
}

/// Prints the counts; gives what should have been seen and was not.
pub fn report(compare: &Compare, met: &Met) -> Vec<String> {
    let mut missing = Vec::new();
    answers(compare, "day", &DAY_ORDER, &mut missing);
    println!("  {} sets with faults put in; in the tables the row's decides", met.sets);
    alone(met, &mut missing);
    together(met, &mut missing);
    missing
}

/// A cut block can only be the last.
fn is_cut(rank: usize) -> bool {
    DAY_ORDER[rank] == 11
}

/// Each number alone, at the first, a middle and the last block; 9 is of the whole set.
fn alone(met: &Met, missing: &mut Vec<String>) {
    let behind = DAY_ORDER.len() - 1;
    for (rank, number) in DAY_ORDER.iter().enumerate() {
        let counts = [0, 1, 2].map(|place| met.alone.get(&(rank, place)).copied().unwrap_or(0));
        println!("    {number:2} alone, at the first, a middle and the last block: {counts:?}");
        let wanted = if rank == behind || is_cut(rank) { &counts[2..] } else { &counts };
        if wanted.contains(&0) {
            missing.push(format!("trackline_day never met {number} alone at each place"));
        }
    }
}

/// Every two numbers in two blocks, the row's in the earlier one, and in one block.
fn together(met: &Met, missing: &mut Vec<String>) {
    for one_block in [false, true] {
        println!("    two in {}:", if one_block { "one block" } else { "two blocks" });
        for (first, number) in DAY_ORDER.iter().enumerate().take(DAY_ORDER.len() - 1) {
            let mut row = format!("      {number:2}:");
            for (second, other) in DAY_ORDER.iter().enumerate() {
                let count = met.pairs.get(&(first, second, one_block)).copied().unwrap_or(0);
                let behind = second == DAY_ORDER.len() - 1;
                let wanted = if one_block { first < second && !behind } else { !is_cut(first) || behind };
                if wanted {
                    row += &format!(" {other}:{count}");
                }
                if wanted && count == 0 {
                    missing.push(format!("trackline_day never met {number} and {other} ({one_block})"));
                }
            }
            println!("{row}");
        }
    }
}

fn note(met: &mut Met, faults: &[DayFault], count: usize) {
    let places: Vec<(usize, usize)> = faults.iter().map(|fault| (fault.block(count), fault.rank())).collect();
    met.sets += 1;
    if let [fault] = faults {
        let place = match fault {
            DayFault::Block(_, Place::First) => 0,
            DayFault::Block(_, Place::Middle) => 1,
            _ => 2,
        };
        *met.alone.entry((fault.rank(), place)).or_default() += 1;
    }
    if let [one, other] = places[..] {
        let (first, second) = (one.min(other), one.max(other));
        *met.pairs.entry((first.1, second.1, first.0 == second.0)).or_default() += 1;
    }
}

fn one_faulty(compare: &mut Compare, seeded: &mut Seeded, faults: &[DayFault], met: &mut Met) {
    let count = seeded.range(6, 9) as usize;
    let (set, lent) = faulty_set(faults, count, seeded);
    compare.day_known("faulty sets", &set, lent, decided(faults, count));
    note(met, faults, count);
}

/// Every fault and every two of them.
fn faulty(compare: &mut Compare, seeded: &mut Seeded, met: &mut Met) {
    let all = of_days();
    for (i, first) in all.iter().enumerate() {
        one_faulty(compare, seeded, &[*first], met);
        for second in &all[i + 1..] {
            one_faulty(compare, seeded, &[*first, *second], met);
        }
    }
}

/// Blocks of these labels, short and full ones mixed.
fn set_of(labels: Vec<Labels>, seeded: &mut Seeded) -> Vec<Vec<u8>> {
    labels.into_iter().map(|labels| case_with(labels, seeded).bytes()).collect()
}

/// Blocks of four, so that as many stand in as many bytes as can.
fn shortest_of(labels: Vec<Labels>, seeded: &mut Seeded) -> Vec<Vec<u8>> {
    labels.into_iter().map(|labels| Case { labels, ..good_of(LEAST_BLOCKS, seeded) }.bytes()).collect()
}

/// A full block and then blocks of four: many more than there are blocks of the first one's length in the bytes.
fn full_first(labels: Vec<Labels>, seeded: &mut Seeded) -> Vec<Vec<u8>> {
    let first = Case { labels: labels[0], ..good_of(MOST_BLOCKS, seeded) }.bytes();
    let mut set = shortest_of(labels, seeded);
    set[0] = first;
    set
}

fn good_set(count: usize, seeded: &mut Seeded) -> Vec<Vec<u8>> {
    let labels = few_ascending(count, seeded);
    set_of(labels, seeded)
}

/// A good set with room enough, or with a byte too few.
fn good(compare: &mut Compare, seeded: &mut Seeded, count: usize) {
    let set = good_set(count, seeded);
    let enough = count == 0 || seeded.below(4) > 0;
    let lent = if count == 0 { Lent::Of(seeded.below(200) as usize) } else { room_for(count, enough, seeded) };
    compare.day_known("good sets", &set, lent, if enough { Ok(()) } else { Err((9, count)) });
}

/// So many bytes behind the last block: the first ones of another block, or bytes that are none.
fn trailing(compare: &mut Compare, seeded: &mut Seeded) {
    let count = seeded.below(4) as usize;
    let mut set = good_set(count, seeded);
    let length = seeded.pick(&[1, 2, 3, 4, 58, 8377]);
    let (mut part, mut expected) = (good_of(MOST_BLOCKS, seeded).bytes(), 11);
    if seeded.below(2) == 0 {
        part.fill(seeded.pick(&[0, 0xFF, 0x20]));
        expected = if length < 4 { 11 } else { 1 };
    }
    set.push(part[..length].to_vec());
    let room = room_for(count + 1, seeded.below(2) == 0, seeded);
    compare.day_known("trailing bytes", &set, room, Err((expected, count)));
}

/// Good sets with blocks exchanged, twice there or lost, with bits turned over, or with bytes taken out or put in.
fn damaged(compare: &mut Compare, seeded: &mut Seeded) {
    let count = seeded.range(2, 8) as usize;
    let mut set = good_set(count, seeded);
    let (i, k) = (seeded.below(count as u64) as usize, seeded.below(count as u64) as usize);
    match seeded.below(6) {
        0 => set.swap(i, k),
        1 => set[i] = set[k].clone(),
        2 => drop(set.remove(i)),
        3 => drop(set[i].remove(seeded.below(58) as usize)),
        4 => set[i].push(seeded.bits() as u8),
        _ => {
            let at = seeded.below(58) as usize;
            set[i][at] ^= 1 << seeded.below(8);
        }
    }
    let room = room_for(count, seeded.below(4) > 0, seeded);
    let _ = compare.day("damaged sets", Some(&set.concat()), room);
}

/// Nothing but seeded bytes, behind good blocks or not, some with sizes that fit.
fn junk(compare: &mut Compare, seeded: &mut Seeded) {
    let count = seeded.below(3) as usize;
    let mut bytes = vec![0; seeded.below(2_000) as usize];
    seeded.fill(&mut bytes);
    if seeded.below(2) == 0 && bytes.len() >= 4 {
        bytes[..4].copy_from_slice(&[60, 0, LEAST_BLOCKS as u8, 0]);
    }
    let set = [good_set(count, seeded).concat(), bytes].concat();
    let _ = compare.day("junk sets", Some(&set), Lent::Of(seeded.below(500) as usize));
}

/// Every length of a set of three short blocks.
fn lengths(compare: &mut Compare, seeded: &mut Seeded) {
    let labels = few_ascending(3, seeded);
    let set = shortest_of(labels, seeded).concat();
    for length in 0..=set.len() {
        let _ = compare.day("sets by their length", Some(&set[..length]), Lent::Of(345));
    }
}

/// Every room from none to more than a set takes.
fn rooms(compare: &mut Compare, seeded: &mut Seeded) {
    let set = good_set(3, seeded);
    for room in 0..=3 * FILE_LINE_BYTES + 120 {
        let expected = if room < 3 * FILE_LINE_BYTES { Err((9, 3)) } else { Ok(()) };
        compare.day_known("sets by the room", &set, Lent::Of(room), expected);
    }
    compare.day_known("sets by the room", &set, Lent::Null, Err((9, 3)));
}

/// Every two of 180 keys.
fn all_keys(compare: &mut Compare, seeded: &mut Seeded) {
    let body = good_of(LEAST_BLOCKS, seeded);
    let keyed: Vec<(Labels, Vec<u8>)> =
        keyed_lines(seeded).into_iter().map(|(labels, _)| (labels, Case { labels, ..body.clone() }.bytes())).collect();
    for (labels, block) in &keyed {
        for (other_labels, other) in &keyed {
            let expected = if keys(labels) < keys(other_labels) { Ok(()) } else { Err((16, 1)) };
            compare.day_known("two keys", &[block.clone(), other.clone()], Lent::Of(230), expected);
        }
    }
}

/// No blocks, NULL or not, with any room.
fn nothing(compare: &mut Compare) {
    for lent in [Lent::Null, Lent::Of(0), Lent::Of(1), Lent::Of(115)] {
        for blocks in [None, Some(&[][..])] {
            assert_eq!(compare.day("no blocks", blocks, lent), Ok(vec![]));
        }
    }
}

/// A long set: whole, with room one byte short and over, and with one fault at its ends and about as many as are kept.
fn long(
    compare: &mut Compare,
    seeded: &mut Seeded,
    kept: usize,
    count: usize,
    made: fn(Vec<Labels>, &mut Seeded) -> Vec<Vec<u8>>,
) {
    let span = Span { first_mjd: 60_000, days: 30, tracks: 89, satellites: 99 };
    let labels = ascending(span, count, seeded);
    let set = made(labels, seeded);
    let length = FILE_LINE_BYTES * count;
    compare.day_known("long sets", &set, Lent::Of(length), Ok(()));
    compare.day_known("long sets", &set, Lent::Of(length + 1), Ok(()));
    compare.day_known("long sets", &set, Lent::Of(length - 1), Err((9, count)));
    let mut cut = set.clone();
    cut.push(set[0][..58].to_vec());
    compare.day_known("long sets", &cut, Lent::Of(length), Err((11, count)));
    for i in [1, count / 2, kept - 1, kept, kept + 1, count - 1].into_iter().filter(|i| *i < count) {
        let mut wrong = set.clone();
        wrong[i][5] = 0;
        compare.day_known("long sets", &wrong, Lent::Of(length), Err((7, i)));
        wrong[i] = set[i - 1].clone();
        compare.day_known("long sets", &wrong, Lent::Of(length), Err((16, i)));
    }
}
