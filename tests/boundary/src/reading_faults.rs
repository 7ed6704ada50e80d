//! Faults that can be put into the text of a good line, ours or one of version 01, each the cause of one refusal of the reader, of
//! down or of up.

use crate::compare::Lent;
use reference::good::{a_start, good_comment, good_labels, good_numbers, track_start};
use reference::seeded::Seeded;
use reference::{LINE_BYTES, VALUES};

/// The order in which the reader tries its refusals.
pub const READ_ORDER: [u32; 6] = [12, 14, 13, 7, 8, 9];

/// What the two forms of a line differ in.
#[derive(Clone, Copy, PartialEq, Eq)]
pub struct Form {
    /// columns with CK, its last two, and the longest line
    pub columns: usize,
    pub longest: usize,
    /// how many of the columns of spaces it has, and the last column that holds a digit
    spaces: usize,
    last_digit: usize,
    /// where any two digits may stand
    free: usize,
}

// by document 02, and not by what it is compared with
pub const OURS: Form = Form { columns: 113, longest: 140, spaces: 20, last_digit: 106, free: 105 };
pub const OLD: Form = Form { columns: 103, longest: 128, spaces: 17, last_digit: 100, free: 5 };

impl Form {
    fn check_of(self, line: &[u8]) -> String {
        format!("{:02X}", line[..self.columns - 2].iter().map(|byte| u32::from(*byte)).sum::<u32>() % 256)
    }

    /// Puts CK right.
    pub fn repair(self, line: &mut [u8]) {
        if line.len() >= self.columns {
            let check = self.check_of(line);
            put(line, self.columns - 1, &check);
        }
    }
}

const SPACES: [usize; 20] = [4, 7, 13, 20, 25, 29, 34, 46, 53, 65, 72, 77, 81, 86, 91, 96, 101, 104, 107, 111];
/// First and last column of the fields that carry a sign.
pub const SIGNED: [(usize, usize); 6] = [(35, 45), (47, 52), (54, 64), (66, 71), (87, 90), (97, 100)];

#[derive(Clone, Copy, Debug, PartialEq, Eq)]
pub enum Fault {
    TooShort,
    TooLong,
    SmallCheck,
    OtherCheck,
    NoCheck,
    Letter,
    Space,
    Digit,
    Hexadecimal,
    Sign,
    Code,
    BlankFill,
    /// one of the signed fields
    MinusZero(usize),
    TrackLength,
    Comment,
    Satellite,
    Date,
    Elevation,
    Azimuth,
    Issue,
    Channel,
    /// seconds or minutes beside a start
    OffStart,
    /// the place of the day at which a ninetieth track would start
    Ninetieth,
    /// a start by a clock that shows an hour from 24, a minute from 60 or a second of 60
    Hour,
    Minute,
    Second,
    /// a letter other than G, with what goes with it
    OtherSystem,
    /// of what is supplied HC, or one of the characters of FRC
    Supplied(usize),
    /// the lent values or bytes
    Few,
}

use Fault::*;

impl Fault {
    pub fn number(self) -> u32 {
        match self {
            TooShort | TooLong => 12,
            SmallCheck | OtherCheck | NoCheck => 14,
            Letter | Space | Digit | Hexadecimal | Sign | Code => 13,
            BlankFill | MinusZero(_) | Comment => 13,
            Satellite | Date | TrackLength | Elevation | Azimuth | Issue | Channel => 7,
            Supplied(_) => 7,
            OffStart | Ninetieth | Hour | Minute | Second => 8,
            OtherSystem => 25,
            Few => 9,
        }
    }
}

pub fn of_readings() -> Vec<Fault> {
    let mut all = vec![TooShort, TooLong, SmallCheck, OtherCheck, NoCheck, Letter, Space, Digit, Hexadecimal, Sign];
    all.extend([Code, BlankFill, TrackLength, Comment, Satellite, Date, Elevation, Azimuth, Issue, Channel]);
    all.extend([OffStart, Ninetieth, Hour, Minute, Second, Few]);
    all.extend((0..SIGNED.len()).map(MinusZero));
    all
}

/// What Line writes for good labels and numbers.
pub fn good_columns(seeded: &mut Seeded) -> Vec<u8> {
    let mut line = vec![0; LINE_BYTES];
    assert_eq!(reference::line(&good_labels(seeded), &good_numbers(seeded), &mut line), 0);
    line
}

/// The same with a comment of any length.
pub fn good_line(seeded: &mut Seeded) -> Vec<u8> {
    let mut line = good_columns(seeded);
    let any = seeded.below(28) as usize;
    let length = seeded.pick(&[0, 0, 1, 26, 27, any]);
    line.extend(good_comment(seeded, length));
    line
}

/// Writes from a column on, counted from 1.
pub fn put(line: &mut [u8], column: usize, text: &str) {
    line[column - 1..column - 1 + text.len()].copy_from_slice(text.as_bytes());
}

fn number(line: &[u8], first: usize, last: usize) -> u32 {
    std::str::from_utf8(&line[first - 1..last]).expect("ASCII").parse().expect("digits")
}

/// Puts CK of a line of ours right.
pub fn repair(line: &mut [u8]) {
    OURS.repair(line);
}

/// A byte that is none of these; those beside them in the table of characters come more often.
fn other(seeded: &mut Seeded, allowed: impl Fn(u8) -> bool) -> u8 {
    loop {
        let byte =
            if seeded.below(2) == 0 { seeded.bits() as u8 } else { seeded.pick(b"/:@[`{afgz0A+-,. \0\x1F\x7F\xFF") };
        if !allowed(byte) {
            return byte;
        }
    }
}

/// A column that holds a decimal digit.
pub fn a_digit(form: Form, seeded: &mut Seeded) -> usize {
    loop {
        let column = seeded.range(2, form.last_digit as i64) as usize;
        let signed = SIGNED.iter().any(|(first, _)| *first == column);
        if !signed && !SPACES.contains(&column) && !matches!(column, 5 | 6) {
            return column;
        }
    }
}

/// 13: a character that its column does not hold.
fn spoil_character(form: Form, line: &mut [u8], fault: Fault, seeded: &mut Seeded) {
    let capital = |byte: u8| byte.is_ascii_digit() || byte.is_ascii_uppercase();
    let (column, byte) = match fault {
        Letter if form == OLD => (1, other(seeded, |byte| byte == b' ')),
        Letter => (1, other(seeded, |byte| b"GRECJ".contains(&byte))),
        Space => (seeded.pick(&SPACES[..form.spaces]), other(seeded, |byte| byte == b' ')),
        Digit => (a_digit(form, seeded), other(seeded, |byte| byte.is_ascii_digit())),
        Hexadecimal => (seeded.pick(&[5, 6]), other(seeded, |byte| b"0123456789ABCDEF".contains(&byte))),
        Sign => (seeded.pick(&SIGNED).0, other(seeded, |byte| byte == b'+' || byte == b'-')),
        Code => (seeded.pick(&[108, 109, 110]), other(seeded, capital)),
        _ => return,
    };
    line[column - 1] = byte;
}

/// 13: characters that do not go together, or stand in the comment.
fn spoil_field(form: Form, line: &mut Vec<u8>, fault: Fault, seeded: &mut Seeded) {
    match fault {
        BlankFill => {
            let (column, text) = seeded.pick(&[(2, " 5"), (14, " 00200"), (21, " 780"), (26, " 50"), (30, "  50")]);
            put(line, column, text);
        }
        MinusZero(which) => {
            let (first, last) = SIGNED[which];
            put(line, first, &format!("-{:0>1$}", "", last - first));
        }
        Comment => {
            if line.len() == form.columns {
                line.push(0);
            }
            let at = seeded.range(form.columns as i64, line.len() as i64 - 1) as usize;
            line[at] = other(seeded, |byte| (0x20..=0x7E).contains(&byte));
        }
        _ => {}
    }
}

/// 7, by numbers that their columns can hold.
fn spoil_label(form: Form, line: &mut [u8], fault: Fault, seeded: &mut Seeded) {
    let mut outside = |low: i64, high: i64| match seeded.below(3) {
        0 => low,
        1 => high,
        _ => seeded.range(low, high),
    };
    match fault {
        Satellite => put(line, 2, "00"),
        Date => put(line, 8, &format!("{:05}", 50721 - outside(0, 50721))),
        TrackLength => {
            let length = match outside(0, 2) {
                0 => 15 * outside(0, 3),
                1 => 15 * outside(53, 666),
                _ => 15 * outside(4, 52) + outside(1, 14),
            };
            put(line, 21, &format!("{length:04}"));
        }
        Elevation => put(line, 26, &outside(901, 999).to_string()),
        Azimuth => put(line, 30, &outside(3600, 9999).to_string()),
        Issue if form == OLD => put(line, 78, &outside(256, 999).to_string()),
        Issue => {
            let (letter, fr, low) =
                [("R", "01", 97), ("C", "00", 24), ("G", "00", 256), ("J", "00", 256)][outside(0, 3) as usize];
            let ioe = if letter == "R" && outside(0, 1) == 0 { 0 } else { outside(low, 999) };
            put(line, 1, letter);
            put(line, 78, &format!("{ioe:03}"));
            put(line, 102, fr);
        }
        Channel => {
            let fr = match line[0] {
                b'R' if outside(0, 1) == 0 => 0,
                b'R' => outside(25, 99),
                _ => outside(1, 99),
            };
            put(line, 102, &format!("{fr:02}"));
        }
        _ => {}
    }
}

/// 8: a clock at which no track starts, or that shows no time of day.
fn spoil_start(line: &mut [u8], fault: Fault, seeded: &mut Seeded) {
    let mjd = number(line, 8, 12);
    let mut minutes = a_start(seeded, mjd) / 60;
    while minutes < 60 || minutes % 60 > 39 {
        minutes = a_start(seeded, mjd) / 60;
    }
    let (hour, minute) = (minutes / 60, minutes % 60);
    let clock = match fault {
        OffStart if seeded.below(2) == 0 => (hour, minute, seeded.range(1, 59) as u32),
        OffStart => (hour, minute + seeded.range(1, 15) as u32, 0),
        Ninetieth => {
            let place = track_start(mjd, 90) / 60;
            (place / 60, place % 60, 0)
        }
        Hour => (hour + 24 * seeded.range(1, 3) as u32, minute, 0),
        Minute => (hour - 1, minute + 60, 0),
        Second => (hour, minute - 1, 60),
        _ => return,
    };
    put(line, 14, &format!("{:02}{:02}{:02}", clock.0, clock.1, clock.2));
}

/// 14: CK in small letters, another CK, or what is no hexadecimal digit.
fn spoil_check(form: Form, line: &mut [u8], fault: Fault, seeded: &mut Seeded) {
    let column = form.columns - 1;
    match fault {
        SmallCheck => {
            while !form.check_of(line).contains(|digit: char| digit.is_ascii_uppercase()) {
                put(line, form.free, &format!("{:02}", seeded.below(100)));
            }
            let check = form.check_of(line).to_lowercase();
            put(line, column, &check);
        }
        OtherCheck => {
            let right = form.check_of(line);
            let sum = u8::from_str_radix(&right, 16).expect("a sum");
            let any = seeded.range(1, 255) as u8;
            let off = seeded.pick(&[1, 2, 16, 32, 255, 128, any]);
            put(line, column, &format!("{:02X}", sum.wrapping_add(off)));
        }
        NoCheck => {
            let at = seeded.pick(&[column - 1, column]);
            line[at] = other(seeded, |byte| b"0123456789ABCDEF".contains(&byte));
        }
        _ => {}
    }
}

/// 12: a line that is cut, or one whose comment goes on.
fn spoil_length(form: Form, line: &mut Vec<u8>, fault: Fault, seeded: &mut Seeded) {
    let Form { columns, longest, .. } = form;
    let any = seeded.below(columns as u64) as usize;
    match fault {
        TooShort => line.truncate(seeded.pick(&[columns - 1, columns - 1, columns - 2, columns - 12, 1, 0, any])),
        TooLong => {
            let length = seeded.pick(&[longest + 1, longest + 1, longest + 2, 200, 4096, longest + 1 + any]);
            let more = length - line.len().min(longest);
            line.extend(good_comment(seeded, more));
        }
        _ => {}
    }
}

/// Room for the values; the lengths that are asked for by name come most often.
pub fn enough(seeded: &mut Seeded) -> Lent {
    let any = seeded.range(25, 60) as usize;
    Lent::Of(seeded.pick(&[VALUES, VALUES, VALUES + 1, any]))
}

fn too_few(seeded: &mut Seeded) -> Lent {
    let any = seeded.range(1, 21) as usize;
    seeded.pick(&[Lent::Null, Lent::Of(0), Lent::Of(VALUES - 1), Lent::Of(any)])
}

/// Any room for the values, most often enough.
pub fn any_room(seeded: &mut Seeded) -> Lent {
    if seeded.below(4) == 0 {
        too_few(seeded)
    } else {
        enough(seeded)
    }
}

/// A line with these faults in it. What decides later is put in first, so that it is not in the way.
pub fn spoilt(form: Form, mut line: Vec<u8>, faults: &[Fault], seeded: &mut Seeded) -> Vec<u8> {
    faults.iter().for_each(|fault| spoil_start(&mut line, *fault, seeded));
    faults.iter().for_each(|fault| spoil_label(form, &mut line, *fault, seeded));
    faults.iter().for_each(|fault| spoil_field(form, &mut line, *fault, seeded));
    faults.iter().for_each(|fault| spoil_character(form, &mut line, *fault, seeded));
    form.repair(&mut line);
    faults.iter().for_each(|fault| spoil_check(form, &mut line, *fault, seeded));
    faults.iter().for_each(|fault| spoil_length(form, &mut line, *fault, seeded));
    line
}

/// A good line with these faults in it, and room for its values.
pub fn faulty_reading(faults: &[Fault], seeded: &mut Seeded) -> (Vec<u8>, Lent) {
    let line = good_line(seeded);
    let line = spoilt(OURS, line, faults, seeded);
    let lent = if faults.contains(&Few) { too_few(seeded) } else { enough(seeded) };
    (line, lent)
}
