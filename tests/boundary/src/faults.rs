//! Faults that can be put into a good block or a good line, each the cause of one refusal number.

use crate::case::*;
use crate::compare::Lent;
use reference::good::{good_labels, good_numbers, track_start};
use reference::seeded::Seeded;
use reference::waves::wave;
use reference::{block_bytes, Labels, Numbers, BLOCK_SECONDS, LEAST_BLOCKS, MOST_BLOCKS};

/// The order in which each operation tries its refusals. Block has 11 twice: for what is too short to have sizes, and behind 1
/// for any other wrong length.
pub const BLOCK_ORDER: [u32; 11] = [11, 1, 11, 2, 3, 4, 5, 6, 7, 8, 9];
pub const LINE_ORDER: [u32; 7] = [7, 8, 3, 4, 5, 6, 9];

/// Labels that can break a range: FRC counts three times and MJD twice.
const LABELS: usize = 12;

#[derive(Clone, Copy, Debug, PartialEq, Eq)]
pub enum Fault {
    /// under 4 bytes
    Cut,
    Length,
    Sizes,
    Measurement,
    Column(usize),
    Single(usize),
    Refsv,
    Refsys,
    Srsv,
    Srsys,
    /// SMDT or SMDI, by the column it comes from
    Slope(usize),
    /// MDTR or MDIO, by the column it comes from
    Low(usize),
    High(usize),
    Dsg,
    Label(usize),
    TrackLength,
    Start,
    /// the lent line
    Short,
}

use Fault::*;

impl Fault {
    pub fn number(self) -> u32 {
        match self {
            Cut | Length => 11,
            Sizes => 1,
            Measurement | Column(_) | Single(_) => 2,
            Refsv | Refsys => 3,
            Srsv | Srsys | Slope(_) => 4,
            Low(_) | High(_) => 5,
            Dsg => 6,
            Label(_) | TrackLength => 7,
            Start => 8,
            Short => 9,
        }
    }

    /// Its place in Block's order.
    pub fn place(self) -> usize {
        let from = if self == Length { 2 } else { 0 };
        from + BLOCK_ORDER[from..].iter().position(|number| *number == self.number()).expect("a number of Block")
    }
}

/// What a line's numbers and labels can break: common to blocks and lines.
fn common() -> Vec<Fault> {
    let mut all = vec![Refsv, Refsys, Srsv, Srsys, Dsg, Start, Short];
    all.extend([TROPOSPHERE, IONOSPHERE].iter().flat_map(|k| [Slope(*k), Low(*k), High(*k)]));
    all.extend((0..LABELS).map(Label));
    all
}

pub fn of_blocks() -> Vec<Fault> {
    let mut all = vec![Cut, Sizes, Length, Measurement];
    all.extend((0..5).map(Column));
    all.extend((0..4).map(Single));
    all.extend(common());
    all
}

pub fn of_lines() -> Vec<Fault> {
    let mut all = vec![TrackLength];
    all.extend(common());
    all
}

/// A number outside low to high: next to it, the farthest there is, or any.
fn outside(seeded: &mut Seeded, low: i64, high: i64) -> i64 {
    match seeded.below(6) {
        0 => low - 1,
        1 => high + 1,
        2 => i64::MIN,
        3 => i64::MAX,
        4 => low - 1 - (seeded.bits() >> 2) as i64,
        _ => high + 1 + (seeded.bits() >> 2) as i64,
    }
}

/// A number from low up to a type's largest, the ends more often.
fn from(seeded: &mut Seeded, low: i64, most: i64) -> i64 {
    match seeded.below(3) {
        0 => low,
        1 => most,
        _ => seeded.range(low, most),
    }
}

fn spoil_constellation(labels: &mut Labels, seeded: &mut Seeded) {
    while b"GRECJ".contains(&labels.constellation) {
        labels.constellation =
            if seeded.below(2) == 0 { seeded.bits() as u8 } else { seeded.pick(b"grecjSIQBDFHK 0\0") };
    }
}

fn spoil_frc(labels: &mut Labels, at: usize, seeded: &mut Seeded) {
    while labels.frc[at].is_ascii_uppercase() || labels.frc[at].is_ascii_digit() {
        labels.frc[at] = if seeded.below(2) == 0 { seeded.bits() as u8 } else { seeded.pick(b"/:@[`az{ \0") };
    }
}

fn spoil_ioe(labels: &Labels, seeded: &mut Seeded) -> u16 {
    let above = match labels.constellation {
        b'R' => 97,
        b'C' => 24,
        b'E' => 1000,
        _ => 256,
    };
    if labels.constellation == b'R' && seeded.below(2) == 0 {
        return 0;
    }
    from(seeded, above, 65535) as u16
}

fn spoil_fr(labels: &Labels, seeded: &mut Seeded) -> u8 {
    if labels.constellation != b'R' {
        return from(seeded, 1, 255) as u8;
    }
    if seeded.below(2) == 0 {
        return 0;
    }
    from(seeded, 25, 255) as u8
}

pub fn spoil_label(labels: &mut Labels, which: usize, seeded: &mut Seeded) {
    match which {
        0 => spoil_constellation(labels, seeded),
        1 => labels.satellite = if seeded.below(2) == 0 { 0 } else { from(seeded, 100, 255) as u8 },
        2 => labels.fr = spoil_fr(labels, seeded),
        3 => labels.hc = from(seeded, 100, 255) as u8,
        4..=6 => spoil_frc(labels, which - 4, seeded),
        7 => labels.mjd = 50721 - seeded.pick(&[0, 1, 360, 50721]),
        8 => labels.mjd = from(seeded, 100_000, u32::MAX.into()) as u32,
        9 => labels.elv = from(seeded, 901, 65535) as u16,
        10 => labels.azth = from(seeded, 3600, 65535) as u16,
        _ => labels.ioe = spoil_ioe(labels, seeded),
    }
}

/// A second at which no track of that day starts: starts are 16 minutes apart, the ninetieth place stays empty, and from
/// 23:56 on there is none.
pub fn spoil_start(labels: &mut Labels, seeded: &mut Seeded) {
    labels.start = match seeded.below(6) {
        0 => labels.start + seeded.range(1, 59) as u32,
        1 => (labels.start + 60 * seeded.range(1, 15) as u32) % 86400,
        2 => labels.start + 86400,
        3 => u32::MAX - seeded.below(15) as u32,
        4 => track_start(labels.mjd, 90),
        _ => from(seeded, 86160, u32::MAX.into()) as u32,
    };
}

/// A track length that is not 15n with n from 4 to 52: next to one, of too few blocks or too many, or any.
fn no_length(seeded: &mut Seeded) -> i64 {
    let seconds = BLOCK_SECONDS as i64;
    let legal = seconds * seeded.range(LEAST_BLOCKS as i64, MOST_BLOCKS as i64);
    match seeded.below(7) {
        0 => legal - seeded.range(1, 14),
        1 => -legal,
        2 => seconds * seeded.range(MOST_BLOCKS as i64 + 1, 1000),
        3 => seconds * seeded.range(0, LEAST_BLOCKS as i64 - 1),
        4 => legal + (1 << seeded.range(16, 62)),
        _ => outside(seeded, seconds * LEAST_BLOCKS as i64, seconds * MOST_BLOCKS as i64),
    }
}

fn spoil_number(numbers: &mut Numbers, fault: Fault, seeded: &mut Seeded) {
    let column = |seeded: &mut Seeded, high: bool| match (high, seeded.below(3)) {
        (true, 0) => 10_000,
        (true, 1) => i64::MAX,
        (true, _) => seeded.range(10_000, i64::MAX / 2),
        (false, 0) => -1,
        (false, 1) => i64::MIN,
        (false, _) => seeded.range(i64::MIN / 2, -1),
    };
    match fault {
        Refsv => numbers.refsv = outside(seeded, -9_999_999_999, 9_999_999_999),
        Refsys => numbers.refsys = outside(seeded, -9_999_999_999, 9_999_999_999),
        Srsv => numbers.srsv = outside(seeded, -99_999, 99_999),
        Srsys => numbers.srsys = outside(seeded, -99_999, 99_999),
        Slope(TROPOSPHERE) => numbers.smdt = outside(seeded, -999, 999),
        Slope(_) => numbers.smdi = outside(seeded, -999, 999),
        Low(TROPOSPHERE) => numbers.mdtr = column(seeded, false),
        High(TROPOSPHERE) => numbers.mdtr = column(seeded, true),
        Low(_) => numbers.mdio = column(seeded, false),
        High(_) => numbers.mdio = column(seeded, true),
        Dsg => numbers.dsg = outside(seeded, 0, 9999),
        TrackLength => numbers.trkl = no_length(seeded),
        _ => {}
    }
}

/// A line that is long enough; the lengths that are asked for by name come most often.
pub fn long_lent(seeded: &mut Seeded) -> Lent {
    let any = seeded.range(113, 300) as usize;
    Lent::Of(seeded.pick(&[113, 113, 114, 114, 4096, any]))
}

/// A line that is too short.
pub fn short_lent(seeded: &mut Seeded) -> Lent {
    let any = seeded.range(1, 111) as usize;
    if seeded.below(4) == 0 {
        return Lent::Null;
    }
    Lent::Of(seeded.pick(&[0, 112, 112, any]))
}

fn lent_for(faults: &[Fault], seeded: &mut Seeded) -> Lent {
    if faults.contains(&Short) {
        short_lent(seeded)
    } else {
        long_lent(seeded)
    }
}

fn spoil_labels(labels: &mut Labels, faults: &[Fault], seeded: &mut Seeded) {
    for fault in faults {
        if let Label(which) = fault {
            spoil_label(labels, *which, seeded);
        }
    }
    if faults.contains(&Start) {
        spoil_start(labels, seeded);
    }
}

/// A good line with these faults in it.
pub fn faulty_line(faults: &[Fault], seeded: &mut Seeded) -> (Labels, Numbers, Lent) {
    let (mut labels, mut numbers) = (good_labels(seeded), good_numbers(seeded));
    spoil_labels(&mut labels, faults, seeded);
    faults.iter().for_each(|fault| spoil_number(&mut numbers, *fault, seeded));
    (labels, numbers, lent_for(faults, seeded))
}

/// A slope of at least 200000, or for the air's delays 2000, of their units, either way.
fn spoil_slope(case: &mut Case, fault: Fault, seeded: &mut Seeded) {
    let sign = seeded.pick(&[1, -1]);
    let steep = sign * seeded.range(150_000, 1_000_000);
    match fault {
        Srsv => {
            case.tilt(RELATIVITY, steep);
            case.tilt(CLOCK, -steep);
        }
        Srsys => case.tilt(CLOCK, steep),
        Slope(k) => case.tilt(k, sign * seeded.range(1_500, 5_000)),
        _ => {}
    }
}

/// 5 and 6: a mean of the air's delays that no column holds, and a wave in the clock that no line follows.
fn spoil_level(case: &mut Case, fault: Fault, seeded: &mut Seeded) {
    let far = seeded.spread(2_000_000_000).abs();
    match fault {
        Low(k) => case.shift(k, -100 - far - case.mean(k)),
        High(k) => case.shift(k, 1_000_000 + far - case.mean(k)),
        Dsg => add_waves(case, CLOCK, seeded.range(1_000_000, 1_000_000_000)),
        _ => {}
    }
}

/// Adds a wave so many times along a column: neither its sum nor its slope changes.
fn add_waves(case: &mut Case, column: usize, times: i64) {
    let wave = wave(case.blocks());
    case.columns[column].iter_mut().zip(wave).for_each(|(v, w)| *v += times * w);
}

/// Brings A's mean near a target that measurements and geometry can reach together.
pub fn bring_a_near(case: &mut Case, target: i64) {
    let measured = case.measurements.iter().sum::<i64>() / case.measurements.len() as i64;
    let level = target / 10 * 9;
    case.measurements.iter_mut().for_each(|m| *m += level - measured);
    let rest = target - case.mean_a();
    case.shift(GEOMETRY, -rest);
}

/// 3: REFSV, REFSYS or both beyond ten digits.
fn spoil_midpoints(case: &mut Case, faults: &[Fault], seeded: &mut Seeded) {
    let (sv, sys) = (faults.contains(&Refsv), faults.contains(&Refsys));
    if !sv && !sys {
        return;
    }
    let sign = seeded.pick(&[1, -1]);
    let level = |out: bool| sign * if out { 1_003_000_000_000 } else { 997_000_000_000 };
    bring_a_near(case, level(sv));
    case.shift(CLOCK, level(sys) - level(sv) - case.mean(CLOCK));
}

/// 2: one number beyond its limit.
fn spoil_limit(case: &mut Case, fault: Fault, seeded: &mut Seeded) {
    let limit = match fault {
        Measurement => 1_000_000_000_000,
        Column(GEOMETRY) => 200_000_000_000,
        _ => 10_000_000_000,
    };
    let bad = outside(seeded, -limit, limit);
    let n = case.blocks() as u64;
    let (second, j) = (seeded.below(15 * n) as usize, seeded.below(n) as usize);
    match fault {
        Measurement => case.measurements[second] = bad,
        Column(k) => case.columns[k][j] = bad,
        Single(0) => case.delays.int = bad,
        Single(1) => case.delays.cab = bad,
        Single(2) => case.delays.refdly = bad,
        Single(_) => case.delays.gd = bad,
        _ => {}
    }
}

/// Sizes that are not 15n and n with n from 4 to 52.
fn spoil_sizes(case: &mut Case, seeded: &mut Seeded) {
    let n = case.blocks() as u16;
    let (bits, few, many) = (seeded.bits() as u16, seeded.range(0, 3) as u16, seeded.range(53, 4369) as u16);
    let any = if bits == 15 * n { (bits + 1, n) } else { (bits, n) };
    case.sizes = seeded.pick(&[
        (15 * n - 1, n),
        (15 * n + 1, n),
        (15 * n, n - 1),
        (15 * n, n + 1),
        (15 * n - 15, n),
        (n, 15 * n),
        ((15 * n).swap_bytes(), n.swap_bytes()),
        (15 * few, few),
        (45, 3),
        (15 * many, many),
        (795, 53),
        any,
    ]);
}

/// A length of 4 bytes or more that is not that of the sizes; the bytes that are left keep their faults.
fn spoil_length(mut bytes: Vec<u8>, n: usize, seeded: &mut Seeded) -> Vec<u8> {
    let whole = bytes.len();
    let any = seeded.range(4, whole as i64 - 1) as usize;
    let other = block_bytes(if n == MOST_BLOCKS { LEAST_BLOCKS } else { MOST_BLOCKS });
    match seeded.below(10) {
        0..=2 => bytes.push(seeded.bits() as u8),
        3 => bytes.extend_from_within(..),
        4 => bytes.resize(other, 0),
        5 => bytes.resize(seeded.pick(&[whole - 160, whole + 160, whole + 8]), 0),
        _ => bytes.truncate(seeded.pick(&[whole - 1, whole - 8, whole - 40, 4, 58, 58 + 120 * n, any])),
    }
    bytes
}

/// Under 4 bytes. None is NULL.
fn cut(mut bytes: Vec<u8>, seeded: &mut Seeded) -> Option<Vec<u8>> {
    let length = seeded.below(5) as usize;
    bytes.truncate(length);
    (length < 4).then_some(bytes)
}

/// Puts these faults into a case: all but those of the length and of what is lent.
pub fn spoil_case(case: &mut Case, faults: &[Fault], seeded: &mut Seeded) {
    faults.iter().for_each(|fault| spoil_slope(case, *fault, seeded));
    faults.iter().for_each(|fault| spoil_level(case, *fault, seeded));
    spoil_midpoints(case, faults, seeded);
    faults.iter().for_each(|fault| spoil_limit(case, *fault, seeded));
    spoil_labels(&mut case.labels, faults, seeded);
    if faults.contains(&Sizes) {
        spoil_sizes(case, seeded);
    }
}

/// A good block with these faults in it. None is NULL.
pub fn faulty_block(faults: &[Fault], seeded: &mut Seeded) -> (Option<Vec<u8>>, Lent) {
    let mut case = good(seeded);
    spoil_case(&mut case, faults, seeded);
    let lent = lent_for(faults, seeded);
    let mut bytes = case.bytes();
    if faults.contains(&Length) {
        bytes = spoil_length(bytes, case.blocks(), seeded);
    }
    if faults.contains(&Cut) {
        return (cut(bytes, seeded), lent);
    }
    (Some(bytes), lent)
}
