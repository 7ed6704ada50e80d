//! Lines: good, faulty, each label swept through its type, and junk.

use crate::compare::{Compare, Lent};
use crate::faults::*;
use reference::published::published;
use reference::seeded::Seeded;
use reference::{Labels, Numbers};

pub fn run(compare: &mut Compare, seeded: &mut Seeded, scale: usize) {
    faulty(compare, seeded, 150 * scale);
    for _ in 0..100_000 * scale {
        let (labels, numbers, lent) = faulty_line(&[], seeded);
        let answer = compare.line("good lines", &labels, &numbers, lent);
        compare.faults("line", &LINE_ORDER, &[], answer);
        junk(compare, seeded);
    }
    printed(compare);
    sweep_bytes(compare, seeded);
    sweep_words(compare, seeded);
    number_edges(compare, seeded);
    track_lengths(compare, seeded);
}

/// Every fault, every pair of faults, and nearly as many triples as pairs.
fn faulty(compare: &mut Compare, seeded: &mut Seeded, rounds: usize) {
    let all = of_lines();
    for _ in 0..rounds {
        for (i, first) in all.iter().enumerate() {
            one_faulty(compare, seeded, &[*first]);
            for second in &all[i + 1..] {
                one_faulty(compare, seeded, &[*first, *second]);
                let third = seeded.pick(&all);
                if third != *first && third != *second {
                    one_faulty(compare, seeded, &[*first, *second, third]);
                }
            }
        }
    }
}

fn one_faulty(compare: &mut Compare, seeded: &mut Seeded, faults: &[Fault]) {
    let (labels, numbers, lent) = faulty_line(faults, seeded);
    let answer = compare.line("faulty lines", &labels, &numbers, lent);
    let numbers: Vec<u32> = faults.iter().map(|fault| fault.number()).collect();
    compare.faults("line", &LINE_ORDER, &numbers, answer);
}

/// The lines printed in the format documents: those of documents 000 and 003 are accepted as they are printed.
fn printed(compare: &mut Compare) {
    for case in published() {
        let answer = compare.line(case.name, &case.printed.labels, &case.printed.numbers, Lent::Of(113));
        assert_eq!(answer, if case.name.starts_with("004") { 7 } else { 0 }, "{}", case.name);
        for form in case.forms() {
            for lent in [Lent::Null, Lent::Of(0), Lent::Of(112), Lent::Of(113), Lent::Of(114)] {
                compare.line(case.name, &form.labels, &form.numbers, lent);
            }
        }
    }
}

/// Any bits, in one part of the labels and numbers or in all.
fn junk(compare: &mut Compare, seeded: &mut Seeded) {
    let (mut l, mut n, lent) = faulty_line(&[], seeded);
    let part = seeded.below(8);
    if part == 0 || part == 7 {
        let bits = seeded.bits().to_le_bytes();
        [l.constellation, l.satellite, l.cl, l.fr, l.hc] = [bits[0], bits[1], bits[2], bits[3], bits[4]];
        l.frc = [bits[5], bits[6], bits[7]];
    }
    if part == 1 || part == 7 {
        (l.mjd, l.start) = (seeded.bits() as u32, seeded.bits() as u32);
    }
    if part == 2 || part == 7 {
        (l.elv, l.azth, l.ioe) = (seeded.bits() as u16, seeded.bits() as u16, seeded.bits() as u16);
    }
    if part >= 3 {
        let (which, value) = (seeded.below(10), seeded.spread(i64::MAX));
        *number(&mut n, which) = value;
    }
    compare.line("junk lines", &l, &n, lent);
}

fn number(n: &mut Numbers, which: u64) -> &mut i64 {
    match which {
        0 => &mut n.refsv,
        1 => &mut n.srsv,
        2 => &mut n.refsys,
        3 => &mut n.srsys,
        4 => &mut n.mdtr,
        5 => &mut n.smdt,
        6 => &mut n.mdio,
        7 => &mut n.smdi,
        8 => &mut n.dsg,
        _ => &mut n.trkl,
    }
}

fn try_label(compare: &mut Compare, seeded: &mut Seeded, change: impl Fn(&mut Labels)) {
    let (mut labels, numbers, lent) = faulty_line(&[], seeded);
    change(&mut labels);
    compare.line("lines by a label", &labels, &numbers, lent);
}

/// Each one-byte label through all its values, with every constellation where it matters.
fn sweep_bytes(compare: &mut Compare, seeded: &mut Seeded) {
    for byte in 0..=u8::MAX {
        for fr in [0, 1] {
            try_label(compare, seeded, |l| (l.constellation, l.fr, l.ioe) = (byte, fr, 1));
        }
        for letter in *b"GRECJ" {
            let set = |l: &mut Labels| (l.constellation, l.fr, l.ioe) = (letter, u8::from(letter == b'R'), 1);
            try_label(compare, seeded, |l| (l.constellation, l.fr, l.ioe) = (letter, byte, 1));
            try_label(compare, seeded, |l| {
                set(l);
                l.satellite = byte
            });
            try_label(compare, seeded, |l| {
                set(l);
                l.cl = byte
            });
            try_label(compare, seeded, |l| {
                set(l);
                l.hc = byte
            });
            for at in 0..3 {
                try_label(compare, seeded, |l| {
                    set(l);
                    l.frc[at] = byte
                });
            }
        }
    }
}

/// Each two-byte label through all its values; the issue of ephemeris with every constellation.
fn sweep_words(compare: &mut Compare, seeded: &mut Seeded) {
    for word in 0..=u16::MAX {
        try_label(compare, seeded, |l| l.elv = word);
        try_label(compare, seeded, |l| l.azth = word);
        for letter in *b"GRECJ" {
            try_label(compare, seeded, |l| (l.constellation, l.fr, l.ioe) = (letter, u8::from(letter == b'R'), word));
        }
    }
}

/// Each number at the powers of ten, at its ends and at those of its type.
fn number_edges(compare: &mut Compare, seeded: &mut Seeded) {
    let tens = (0..19).map(|p| 10i64.pow(p)).chain([60, 765, 780, i64::MAX]);
    for edge in tens {
        for value in [edge - 1, edge, edge.wrapping_add(1), 1 - edge, -edge, (-edge).wrapping_sub(1)] {
            for which in 0..10 {
                let (labels, mut numbers, _) = faulty_line(&[], seeded);
                *number(&mut numbers, which) = value;
                for lent in [Lent::Null, Lent::Of(0), Lent::Of(112), Lent::Of(113), Lent::Of(114)] {
                    compare.line("lines by a number", &labels, &numbers, lent);
                }
            }
        }
    }
}

/// Every track length that four columns hold, the same below 0, and those that only differ in bits from the 17th on.
fn track_lengths(compare: &mut Compare, seeded: &mut Seeded) {
    let far = (16..63).flat_map(|bit| [1 << bit, -1 << bit]).flat_map(|far: i64| (0..60).map(move |n| far + 15 * n));
    for trkl in (-9999..=20_000).chain(far).chain(i64::MIN..i64::MIN + 800).chain(i64::MAX - 800..=i64::MAX) {
        let (labels, mut numbers, lent) = faulty_line(&[], seeded);
        numbers.trkl = trkl;
        let answer = compare.line("lines by their track length", &labels, &numbers, lent);
        let fits = (4..=52).any(|n| trkl == 15 * n);
        compare.faults("line", &LINE_ORDER, if fits { &[] } else { &[7] }, answer);
    }
}
