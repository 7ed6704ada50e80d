//! Pairs of line files that merge and the common view are tried with: shared in every way, damaged, junk.

use reference::good::track_start;
use reference::good_files::{ended_line, lines_in, put_trkl, repair, Ended, Span};
use reference::seeded::Seeded;
use reference::{Labels, FILE_LINE_BYTES, LINE_BYTES};

/// How two files share the lines of a week.
#[derive(Clone, Copy, Debug)]
pub enum Share {
    /// each line to one of them, or to both
    Any,
    /// line by line in turns
    Turns,
    /// the first half and the second
    Halves,
    Equal,
    /// the second has some of the lines of the first
    Inside,
    Alone,
}

pub const SHARES: [Share; 6] = [Share::Any, Share::Turns, Share::Halves, Share::Equal, Share::Inside, Share::Alone];

/// Whether line i of so many goes to the first file, and whether to the second.
pub fn allot(share: Share, i: usize, count: usize, seeded: &mut Seeded) -> (bool, bool) {
    match share {
        Share::Any => [(true, false), (false, true), (true, true)][seeded.below(3) as usize],
        Share::Turns => (i % 2 == 0, i % 2 == 1),
        Share::Halves => (2 * i < count, 2 * i >= count),
        Share::Equal => (true, true),
        Share::Inside => (true, seeded.below(2) == 0),
        Share::Alone => (true, false),
    }
}

/// Two files of the same lines, some of them taken out, moved, changed in a byte (CK put right or not), cut, joined.
pub fn damaged_files(seeded: &mut Seeded) -> (Vec<u8>, Vec<u8>) {
    let any = seeded.below(12) as usize;
    let lines = lines_in(Span::narrow(seeded), any, seeded);
    let mut one = || {
        let mut lines: Vec<Ended> = lines.values().map(|(_, line)| *line).collect();
        lines.retain(|_| seeded.below(3) > 0);
        for _ in 0..seeded.below(3) {
            damage(&mut lines, seeded);
        }
        let mut file = lines.concat();
        if seeded.below(8) == 0 {
            file.truncate(seeded.below(file.len() as u64 + 1) as usize);
        }
        file
    };
    (one(), one())
}

fn damage(lines: &mut [Ended], seeded: &mut Seeded) {
    if lines.is_empty() {
        return;
    }
    let (i, k) = (seeded.below(lines.len() as u64) as usize, seeded.below(lines.len() as u64) as usize);
    match seeded.below(4) {
        0 => lines.swap(i, k),
        1 => lines[i] = lines[k],
        2 => lines[i][seeded.below(FILE_LINE_BYTES as u64) as usize] = seeded.bits() as u8,
        _ => {
            lines[i][seeded.below(LINE_BYTES as u64 - 2) as usize] = seeded.pick(b"0123456789GRECJ+-");
            repair(&mut lines[i]);
        }
    }
}

/// Nothing but seeded bytes, beside a good line or not.
pub fn junk_files(seeded: &mut Seeded) -> (Vec<u8>, Vec<u8>) {
    let mut bytes = vec![0; seeded.below(350) as usize];
    seeded.fill(&mut bytes);
    let lines = lines_in(Span::narrow(seeded), 1, seeded);
    let good = lines.values().flat_map(|(_, line)| *line).collect();
    match seeded.below(3) {
        0 => (bytes, good),
        1 => (good, bytes),
        _ => (bytes.clone(), bytes),
    }
}

pub fn three_lines(seeded: &mut Seeded) -> Vec<u8> {
    loop {
        let lines = lines_in(Span::narrow(seeded), 12, seeded);
        if lines.len() >= 3 {
            return lines.values().take(3).flat_map(|(_, line)| *line).collect();
        }
    }
}

/// A line for each of 180 keys: of two dates the later has the earlier starts.
pub fn keyed_lines(seeded: &mut Seeded) -> Vec<(Labels, Ended)> {
    let mut lines = Vec::new();
    let some = lines_in(Span::narrow(seeded), 1, seeded).values().next().expect("a line").0;
    for (mjd, letter) in [50722, 50723, 60000].iter().flat_map(|mjd| b"CEGJR".map(|letter| (*mjd, letter))) {
        for (track, satellite) in [1, 2, 50, 89].iter().flat_map(|track| [1, 10, 99].map(|s| (*track, s))) {
            let fr = u8::from(letter == b'R');
            let start = track_start(mjd, track);
            let labels = Labels { constellation: letter, satellite, fr, ioe: 1, mjd, start, ..some };
            lines.push((labels, ended_line(&labels, seeded)));
        }
    }
    lines
}

/// Another track length than the line has.
pub fn other_trkl(line: &mut [u8]) {
    put_trkl(line, if &line[20..24] == b"0780" { 765 } else { 780 });
}
