//! Runs one case through the archive and through the plain Rust implementation, and compares the answers and every
//! byte of what is lent, of the bytes around it and of what is given. The plain Rust that is written for speed, beside which the archive is
//! measured, must do the same.

mod days;
mod files;
mod paths;
mod stores;
mod version01;

pub use files::Report;
pub use paths::Length;
pub use stores::InForce;
pub use version01::{Supplied, Written};

use crate::library;
use reference::seeded::Seeded;
use reference::{Labels, Numbers};
use std::collections::BTreeMap;
use std::fmt::Debug;

/// Bytes before and after what is lent that nobody may touch.
const GUARD: usize = 64;
/// The same in numbers of eight bytes.
const GUARD_VALUES: usize = 8;
/// Differences that are shown before the test stops.
const SHOWN: usize = 5;

/// What is lent: so many bytes of a line or so many values, or NULL.
#[derive(Clone, Copy, Debug, PartialEq, Eq, PartialOrd, Ord)]
pub enum Lent {
    Null,
    Of(usize),
}

impl Lent {
    pub fn len(self) -> usize {
        match self {
            Lent::Null => 0,
            Lent::Of(n) => n,
        }
    }
}

/// What was compared so far.
pub struct Compare {
    pool: Vec<u8>,
    seeded: Seeded,
    differences: usize,
    /// function and answer: cases
    pub answers: BTreeMap<(&'static str, u32), u64>,
    /// function and the places of the two faults in its order, the one that decides first: cases
    pub pairs: BTreeMap<(&'static str, usize, usize), u64>,
    /// function, answer and what was lent: cases
    pub lents: BTreeMap<(&'static str, u32, Lent), u64>,
}

/// Where nothing is lent.
const NOTHING: Sides<u8> = Sides { at: 0, before: vec![], wanted: vec![], got: vec![], fast: vec![] };

/// One case: guard, what is lent, guard; before the call, after each of the two, and after the plain Rust that is written for speed.
struct Sides<T> {
    /// where what is lent begins
    at: usize,
    before: Vec<T>,
    wanted: Vec<T>,
    got: Vec<T>,
    fast: Vec<T>,
}

impl<T: Clone + PartialEq + Debug> Sides<T> {
    fn new(before: Vec<T>, at: usize) -> Sides<T> {
        Sides { at, wanted: before.clone(), got: before.clone(), fast: before.clone(), before }
    }

    /// Both did the same; the plain Rust implementation too must keep what is lent when it refuses.
    fn agree(&self, wanted: u32) -> bool {
        (wanted == 0 || self.wanted == self.before) && self.wanted == self.got
    }

    /// The first difference, and what is lent as both left it.
    fn difference(&self, text: impl Fn(&[T]) -> String) -> Option<String> {
        let at = self.wanted.iter().zip(&self.got).position(|(a, b)| a != b)?;
        let (wanted, got) = (text(&self.wanted[self.at..]), text(&self.got[self.at..]));
        let place = at as i64 - self.at as i64;
        Some(format!("  first that differs: {place} of what is lent\n  should be {wanted}\n  was       {got}"))
    }
}

fn as_text(bytes: &[u8]) -> String {
    format!("{:?}", String::from_utf8_lossy(bytes).chars().take(113).collect::<String>())
}

fn as_row(values: &[i64]) -> String {
    format!("{:?}", &values[..values.len().min(reference::VALUES)])
}

impl Compare {
    pub fn new(seed: u64) -> Compare {
        let mut seeded = Seeded::new(seed);
        let mut pool = vec![0; 1 << 16];
        seeded.fill(&mut pool);
        let (answers, pairs, lents) = Default::default();
        Compare { pool, seeded, differences: 0, answers, pairs, lents }
    }

    fn from_pool(&mut self, count: usize) -> &[u8] {
        let at = self.seeded.below((self.pool.len() - count) as u64) as usize;
        &self.pool[at..at + count]
    }

    /// A lent line at any alignment, filled with seeded bytes, twice.
    fn lines(&mut self, lent: Lent) -> (Sides<u8>, std::ops::Range<usize>) {
        let start = GUARD + self.seeded.below(8) as usize;
        let before = self.from_pool(start + lent.len() + GUARD).to_vec();
        (Sides::new(before, start), start..start + lent.len())
    }

    /// Lent values, filled with seeded ones, twice.
    fn rows(&mut self, lent: Lent) -> (Sides<i64>, std::ops::Range<usize>) {
        let bytes = self.from_pool(8 * (lent.len() + 2 * GUARD_VALUES));
        let value = |part: &[u8]| i64::from_le_bytes(part.try_into().expect("eight bytes"));
        let before = bytes.chunks_exact(8).map(value).collect();
        (Sides::new(before, GUARD_VALUES), GUARD_VALUES..GUARD_VALUES + lent.len())
    }

    /// What is given, at any alignment.
    fn moved(&mut self, given: library::Bytes) -> (Vec<u8>, usize) {
        let shift = self.seeded.below(8) as usize;
        let mut moved = vec![0; shift];
        moved.extend(given.unwrap_or_default());
        (moved, shift)
    }

    fn count(&mut self, of: &'static str, lent: Lent, answer: u32) {
        *self.answers.entry((of, answer)).or_default() += 1;
        *self.lents.entry((of, answer, lent)).or_default() += 1;
    }

    fn show(&mut self, family: &str, case: &dyn Debug, wanted: u32, got: u32, difference: Option<String>) {
        eprintln!("DIFFERENT in {family}: {case:?}");
        eprintln!("  answer: should be {wanted}, was {got}");
        difference.iter().for_each(|text| eprintln!("{text}"));
        self.shown();
    }

    /// The plain Rust that is written for speed must give the same answer, and leave the same in what is lent.
    fn fast<A: PartialEq + Debug, T: PartialEq>(&mut self, family: &str, wanted: A, got: A, sides: &Sides<T>) {
        if wanted != got || sides.wanted != sides.fast {
            let at = sides.wanted.iter().zip(&sides.fast).position(|(a, b)| a != b).map(|at| at as i64 - sides.at as i64);
            eprintln!("DIFFERENT in {family}: the fast plain Rust; the answer should be {wanted:?}, was {got:?}");
            at.iter().for_each(|place| eprintln!("  first that differs: {place} of what is lent"));
            self.shown();
        }
    }

    /// Counts what was shown, and stops where it is enough.
    fn shown(&mut self) {
        self.differences += 1;
        if self.differences >= SHOWN {
            eprintln!("stopped after {SHOWN} differences");
            std::process::exit(1);
        }
    }

    /// Block. Gives the answer of the plain Rust implementation.
    pub fn block(&mut self, family: &str, block: library::Bytes, lent: Lent) -> u32 {
        let (mut lines, at) = self.lines(lent);
        let (moved, shift) = self.moved(block);
        let handed = block.map(|_| &moved[shift..]);
        let wanted = reference::block(block.unwrap_or_default(), &mut lines.wanted[at.clone()]);
        let fast = fast::block(block.unwrap_or_default(), &mut lines.fast[at.clone()]);
        let lent_bytes = (lent != Lent::Null).then(|| &mut lines.got[at]);
        let got = library::block(handed, lent_bytes);
        self.fast(family, wanted, fast, &lines);
        let intact = handed == block;
        self.count("block", lent, wanted);
        if wanted != got || !lines.agree(wanted) || !intact {
            let case =
                (block.map(|b| (b.len(), &b[..b.len().min(58)])), lent, if intact { "" } else { "block changed" });
            self.show(family, &case, wanted, got, lines.difference(as_text));
        }
        wanted
    }

    /// Line. Gives the answer of the plain Rust implementation.
    pub fn line(&mut self, family: &str, labels: &Labels, numbers: &Numbers, lent: Lent) -> u32 {
        let (mut lines, at) = self.lines(lent);
        let wanted = reference::line(labels, numbers, &mut lines.wanted[at.clone()]);
        let fast = fast::line(labels, numbers, &mut lines.fast[at.clone()]);
        let lent_bytes = (lent != Lent::Null).then(|| &mut lines.got[at]);
        let got = library::line(labels, numbers, lent_bytes);
        self.fast(family, wanted, fast, &lines);
        self.count("line", lent, wanted);
        if wanted != got || !lines.agree(wanted) {
            self.show(family, &(labels, numbers, lent), wanted, got, lines.difference(as_text));
        }
        wanted
    }

    /// Reader: the values, and where the comment begins. Gives the answer of the plain Rust implementation.
    pub fn read(&mut self, family: &str, line: library::Bytes, lent: Lent) -> u32 {
        let (mut rows, at) = self.rows(lent);
        let (moved, shift) = self.moved(line);
        let handed = line.map(|_| &moved[shift..]);
        let given = line.unwrap_or_default();
        let wanted = reference::read_values(given, &mut rows.wanted[at.clone()]);
        let fast = fast::read_values(given, &mut rows.fast[at.clone()]);
        let lent_values = (lent != Lent::Null).then(|| &mut rows.got[at]);
        let got = library::read(handed, lent_values);
        self.count("read", lent, wanted);
        let wanted_from = given.len() - reference::comment(given).len();
        self.fast(family, (wanted, wanted_from), (fast, fast::comment_from(given)), &rows);
        let got_from = library::comment(handed);
        *self.answers.entry(("comment", reference::read(given).err().unwrap_or(0))).or_default() += 1;
        if wanted != got || !rows.agree(wanted) || wanted_from != got_from || handed != line {
            let comment = format!("comment from {wanted_from}, was from {got_from}");
            let changed = if handed == line { "" } else { "line changed" };
            let case = (line.map(String::from_utf8_lossy), given.len(), lent, comment, changed);
            self.show(family, &case, wanted, got, rows.difference(as_row));
        }
        wanted
    }

    /// Start test.
    pub fn start(&mut self, mjd: u32, second: u32) {
        let wanted = reference::start(mjd, second);
        let got = library::start(mjd, second);
        self.fast("starts", wanted, fast::start(mjd, second), &NOTHING);
        *self.answers.entry(("start", wanted)).or_default() += 1;
        if wanted != got {
            self.show("starts", &(mjd, second), wanted, got, None);
        }
    }

    /// What holds of the archive's answers, whatever the plain Rust implementation gives.
    pub fn expect(&mut self, holds: bool, what: impl FnOnce() -> String) {
        if !holds {
            eprintln!("WRONG: {}", what());
            self.shown();
        }
    }

    /// A case whose answer is known; the plain Rust implementation must give it.
    pub fn known(&mut self, of: &'static str, expected: u32, answer: u32) {
        if answer != expected {
            eprintln!("{of}: the answer is {expected}, and the plain Rust implementation answers {answer}");
            self.shown();
        }
    }

    /// Notes a case with known faults; the plain Rust implementation's answer must be the first one's number.
    pub fn faults(&mut self, of: &'static str, order: &[u32], numbers: &[u32], answer: u32) {
        let place = |n: &u32| order.iter().position(|o| o == n).expect("a number of this operation");
        self.placed_faults(of, order, &numbers.iter().map(place).collect::<Vec<usize>>(), answer);
    }

    /// The same with faults by their places in the order, in which a number may stand twice.
    pub fn placed_faults(&mut self, of: &'static str, order: &[u32], places: &[usize], answer: u32) {
        let mut sorted = places.to_vec();
        sorted.sort_unstable();
        let expected = sorted.first().map_or(0, |place| order[*place]);
        if answer != expected {
            let numbers: Vec<u32> = sorted.iter().map(|place| order[*place]).collect();
            eprintln!("{of}: faults {numbers:?} were put in and the plain Rust implementation answers {answer}");
            self.shown();
        }
        for (i, first) in sorted.iter().enumerate() {
            for second in &sorted[i + 1..] {
                *self.pairs.entry((of, *first, *second)).or_default() += 1;
            }
        }
    }

    /// Whether nothing differed.
    pub fn agreed(&self) -> bool {
        self.differences == 0
    }
}
