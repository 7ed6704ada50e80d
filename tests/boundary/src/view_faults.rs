//! Two line files for a common view with faults in them.

use crate::compare::Lent;
use crate::file_faults::Fault::{Few, Long, NoPair, Tail};
use crate::file_faults::{as_file, of_files, spoil_file, tail, Fault, Lines};
use crate::file_pairs::other_trkl;
use reference::good_files::{lines_in, seen_again, Span};
use reference::seeded::Seeded;
use reference::{FILE_LINE_BYTES, FIRST_MJD, LONGEST_FILE};

/// The first date of lines that follow those of every faulty file.
pub const FAR_MJD: u32 = 95_000;
/// So many of them make any file too long.
pub const FAR_LINES: usize = LONGEST_FILE / FILE_LINE_BYTES + 1;

pub fn of_views() -> Vec<Fault> {
    let mut all = of_files();
    all.extend([Long(0), Long(1), NoPair, Few]);
    all
}

/// Two files that have at least one pair and at least six lines each; or, where none is to be a pair, lines of the same
/// keys whose track lengths differ.
fn pairing(no_pair: bool, seeded: &mut Seeded) -> (Lines, Lines) {
    loop {
        let first_mjd = seeded.range(FIRST_MJD.into(), i64::from(FAR_MJD) - 10) as u32;
        let lines = lines_in(Span { first_mjd, ..Span::narrow(seeded) }, 24, seeded);
        let (mut first, mut second) = (Lines::new(), Lines::new());
        let mut shared = 0;
        for (labels, line) in lines.values() {
            let whose = seeded.below(3);
            let mut again = seen_again(labels, line, seeded);
            if no_pair {
                other_trkl(&mut again);
            }
            first.extend((whose != 1).then_some((*labels, *line)));
            second.extend((whose != 0).then_some((*labels, again)));
            shared += usize::from(whose == 2);
        }
        if shared > 0 && first.len() > 5 && second.len() > 5 {
            return (first, second);
        }
    }
}

/// The bytes of a file with its faults. One that is too long has lines from far behind, by a line or, where it has a
/// tail too, by the tail alone.
fn faulty_file(mut lines: Lines, file: usize, faults: &[Fault], far: &[u8], seeded: &mut Seeded) -> Vec<u8> {
    spoil_file(&mut lines, file, faults, seeded);
    let mut bytes = as_file(&lines);
    if faults.contains(&Long(file)) {
        let whole = FAR_LINES - usize::from(faults.contains(&Tail(file)));
        let missing = FILE_LINE_BYTES * whole - bytes.len();
        bytes.extend(&far[..missing]);
    }
    bytes.extend(tail(file, &lines, faults, seeded));
    bytes
}

/// Two good files with these faults in them, and the lent report.
pub fn faulty_views(faults: &[Fault], far: &[u8], seeded: &mut Seeded) -> (Vec<u8>, Vec<u8>, Lent) {
    let (first, second) = pairing(faults.contains(&NoPair), seeded);
    let first = faulty_file(first, 0, faults, far, seeded);
    let second = faulty_file(second, 1, faults, far, seeded);
    let few = seeded.pick(&[Lent::Null, Lent::Of(0), Lent::Of(3), Lent::Of(3)]);
    let enough = seeded.pick(&[Lent::Of(4), Lent::Of(5)]);
    (first, second, if faults.contains(&Few) { few } else { enough })
}
