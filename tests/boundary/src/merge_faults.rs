//! Two line files for merge with faults in them.

use crate::compare::Lent;
use crate::file_faults::Fault::{Differ, Room};
use crate::file_faults::{as_file, of_files, spoil_file, tail, Fault, Lines};
use reference::good_files::{ended_line, lines_in, Span};
use reference::seeded::Seeded;
use reference::FILE_LINE_BYTES;

pub fn of_merges() -> Vec<Fault> {
    let mut all = of_files();
    all.extend([Differ, Room]);
    all
}

/// Two files that share at least one line and have at least six each, so that places do not touch.
fn sharing(seeded: &mut Seeded) -> (Lines, Lines) {
    loop {
        let lines = lines_in(Span::narrow(seeded), 24, seeded);
        let (mut first, mut second) = (Lines::new(), Lines::new());
        let mut shared = 0;
        for line in lines.values() {
            let whose = seeded.below(3);
            first.extend((whose != 1).then_some(*line));
            second.extend((whose != 0).then_some(*line));
            shared += usize::from(whose == 2);
        }
        if shared > 0 && first.len() > 5 && second.len() > 5 {
            return (first, second);
        }
    }
}

/// The bytes that the two make together.
fn length_of(first: &Lines, second: &Lines) -> usize {
    let shared = second.iter().filter(|(labels, _)| first.iter().any(|(other, _)| other == labels)).count();
    FILE_LINE_BYTES * (first.len() + second.len() - shared)
}

/// Other numbers in a line of the second file that the first one has too.
fn differ(first: &Lines, second: &mut Lines, seeded: &mut Seeded) {
    let shared: Vec<usize> =
        (0..second.len()).filter(|i| first.iter().any(|(labels, _)| *labels == second[*i].0)).collect();
    let i = seeded.pick(&shared);
    let before = second[i].1;
    while second[i].1 == before {
        second[i].1 = ended_line(&second[i].0, seeded);
    }
}

/// Two good files with these faults in them, and what is lent.
pub fn faulty_files(faults: &[Fault], seeded: &mut Seeded) -> (Vec<u8>, Vec<u8>, Lent) {
    let (mut first, mut second) = sharing(seeded);
    let length = length_of(&first, &second);
    if faults.contains(&Differ) {
        differ(&first, &mut second, seeded);
    }
    spoil_file(&mut first, 0, faults, seeded);
    spoil_file(&mut second, 1, faults, seeded);
    let first = [as_file(&first), tail(0, &first, faults, seeded)].concat();
    let second = [as_file(&second), tail(1, &second, faults, seeded)].concat();
    let any = seeded.below(length as u64) as usize;
    let short = seeded.pick(&[Lent::Null, Lent::Of(0), Lent::Of(length - 1), Lent::Of(length - 115), Lent::Of(any)]);
    let enough = seeded.pick(&[Lent::Of(length), Lent::Of(length + 1), Lent::Of(length + 115), Lent::Of(length + any)]);
    let lent = if faults.contains(&Room) { short } else { enough };
    (first, second, lent)
}
