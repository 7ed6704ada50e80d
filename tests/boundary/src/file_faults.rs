//! Faults that can be put into two good line files, each the cause of one refusal of merge or of a common view.

use reference::good_files::{ended_line, put, repair, Ended};
use reference::seeded::Seeded;
use reference::{Labels, FILE_LINE_BYTES, LINE_BYTES};
use std::collections::BTreeMap;
use std::fmt::Debug;

/// Where in its file a line stands.
#[derive(Clone, Copy, Debug, PartialEq, Eq, PartialOrd, Ord)]
pub enum Place {
    First,
    Middle,
    Last,
}

/// What is wrong with a line, in the order in which it is tried.
#[derive(Clone, Copy, Debug, PartialEq, Eq, PartialOrd, Ord)]
pub enum Wrong {
    Check,
    Character,
    Label,
    Start,
    End,
    /// it does not follow the line before it; the first that can is the second line
    Order,
}

/// In the order in which they are tried, but for two lines of one file, of which the earlier decides.
#[derive(Clone, Copy, Debug, PartialEq, Eq, PartialOrd, Ord)]
pub enum Fault {
    /// the first file (0) or the second (1) is longer than a common view takes
    Long(usize),
    /// a line of a file
    Line(usize, Wrong, Place),
    /// a tail behind the lines of a file
    Tail(usize),
    /// two lines of the same keys that differ
    Differ,
    /// no line of the one makes a pair with a line of the other
    NoPair,
    /// the lent file
    Room,
    /// the lent report
    Few,
}

use Fault::{Differ, Few, Line, Long, NoPair, Room, Tail};
use Place::{First, Last, Middle};
use Wrong::{Character, Check, End, Label, Order, Start};

impl Fault {
    pub fn number(self) -> u32 {
        match self {
            Long(_) => 19,
            Line(_, Check, _) => 14,
            Line(_, Character | End, _) => 13,
            Line(_, Label, _) => 7,
            Line(_, Start, _) => 8,
            Line(_, Order, _) => 16,
            Tail(_) => 12,
            Differ => 15,
            NoPair => 18,
            Room => 17,
            Few => 9,
        }
    }

    /// The least decides: both lengths, then the whole first file, then the second; in a file the earlier line.
    fn rank(self) -> (usize, usize, usize) {
        match self {
            Long(file) => (0, file, 0),
            Line(file, wrong, place) => (1 + file, line_of(wrong, place, 100), wrong as usize),
            Tail(file) => (1 + file, 100, 0),
            Differ | NoPair => (3, 0, 0),
            Room | Few => (4, 0, 0),
        }
    }
}

/// Those of the files themselves, as both operations know them.
pub fn of_files() -> Vec<Fault> {
    let mut all = Vec::new();
    for file in 0..2 {
        for wrong in [Check, Character, Label, Start, End, Order] {
            all.extend([First, Middle, Last].map(|place| Line(file, wrong, place)));
        }
        all.push(Tail(file));
    }
    all
}

/// Cases with two faults, by the one that decides and the other.
pub type Pairs<F = Fault> = BTreeMap<(F, F), u64>;

/// Counts each two of some faults, and gives the number of the one that decides.
pub fn decided(faults: &[Fault], pairs: &mut Pairs) -> u32 {
    let mut sorted = faults.to_vec();
    sorted.sort_by_key(|fault| fault.rank());
    for (i, decides) in sorted.iter().enumerate() {
        sorted[i + 1..].iter().for_each(|other| *pairs.entry((*decides, *other)).or_default() += 1);
    }
    sorted[0].number()
}

/// Every fault, every pair of faults, and nearly as many triples as pairs.
pub fn each_few<F: Copy + PartialEq>(all: &[F], seeded: &mut Seeded, mut test: impl FnMut(&[F], &mut Seeded)) {
    for (i, first) in all.iter().enumerate() {
        test(&[*first], seeded);
        for second in &all[i + 1..] {
            test(&[*first, *second], seeded);
            let third = seeded.pick(all);
            if third != *first && third != *second {
                test(&[*first, *second, third], seeded);
            }
        }
    }
}

/// Prints how often each two of these were together at least; gives those that never were.
pub fn together<F: Copy + Ord + Debug>(of: &str, all: &[F], pairs: &Pairs<F>) -> Vec<String> {
    let (mut missing, mut least) = (Vec::new(), u64::MAX);
    for (i, first) in all.iter().enumerate() {
        for second in &all[i + 1..] {
            let either = |a, b| pairs.get(&(a, b)).copied().unwrap_or(0);
            let count = either(*first, *second) + either(*second, *first);
            least = least.min(count);
            if count == 0 {
                missing.push(format!("trackline_{of} never met {first:?} and {second:?} together"));
            }
        }
    }
    println!("  {} faults by their places, each two of them together in at least {least} cases", all.len());
    missing
}

/// The place of a faulty line, counted from 0, in a file of so many.
fn line_of(wrong: Wrong, place: Place, lines: usize) -> usize {
    match place {
        First if wrong == Order => 1,
        First => 0,
        Middle => lines / 2,
        Last => lines - 1,
    }
}

/// Lines of a file as they are spoilt.
pub type Lines = Vec<(Labels, Ended)>;

/// 16: line i changes place with the one before it, or has its keys, with other numbers or the same.
fn spoil_order(lines: &mut Lines, i: usize, seeded: &mut Seeded) {
    match seeded.below(3) {
        0 => lines[i] = lines[i - 1],
        1 => lines[i] = (lines[i - 1].0, ended_line(&lines[i - 1].0, seeded)),
        _ => lines.swap(i - 1, i),
    }
}

/// A fault of the line itself. What is tried later is put in first, so that it is not in the way.
fn spoil_line(line: &mut Ended, wrong: Wrong, seeded: &mut Seeded) {
    match wrong {
        Start => put(line, 18, seeded.pick(&[b"01", b"30", b"59", b"60"])),
        Label if seeded.below(2) == 0 => put(line, 2, b"00"),
        Label => put(line, 30, seeded.pick(&[b"3600", b"9999"])),
        Character => put(line, seeded.range(1, 110) as usize, seeded.pick(&[b"*", b"\x7F", b"\0", b"\n"])),
        Check => line[LINE_BYTES - 1] ^= 1,
        End => {
            let end = seeded.bits().to_le_bytes();
            let any: &[u8; 2] = &[end[0], end[1].wrapping_add(u8::from(end[..2] == *b"\r\n"))];
            put(line, LINE_BYTES + 1, seeded.pick(&[b"\n\r", b"\r\r", b"\n\n", b"  ", b"\0\0", any]));
        }
        Order => {}
    }
    if matches!(wrong, Start | Label | Character) {
        repair(line);
    }
}

/// Puts the faults of one file's lines into them.
pub fn spoil_file(lines: &mut Lines, file: usize, faults: &[Fault], seeded: &mut Seeded) {
    let count = lines.len();
    let mut wrong: Vec<(usize, Wrong)> = faults
        .iter()
        .filter_map(|fault| match fault {
            Line(of, wrong, place) if *of == file => Some((line_of(*wrong, *place, count), *wrong)),
            _ => None,
        })
        .collect();
    wrong.iter().filter(|(_, wrong)| *wrong == Order).for_each(|(i, _)| spoil_order(lines, *i, seeded));
    // CK is put right by the others, so it is spoilt last
    wrong.sort_by_key(|(_, wrong)| std::cmp::Reverse(*wrong));
    wrong.iter().for_each(|(i, wrong)| spoil_line(&mut lines[*i].1, *wrong, seeded));
}

pub fn as_file(lines: &Lines) -> Vec<u8> {
    lines.iter().flat_map(|(_, line)| *line).collect()
}

/// A part of a line, where the file's tail is to be at fault.
pub fn tail(file: usize, lines: &Lines, faults: &[Fault], seeded: &mut Seeded) -> Vec<u8> {
    let any = seeded.range(1, FILE_LINE_BYTES as i64 - 1) as usize;
    if !faults.contains(&Tail(file)) {
        return Vec::new();
    }
    lines[0].1[..seeded.pick(&[1, 2, 113, 114, 114, any])].to_vec()
}
