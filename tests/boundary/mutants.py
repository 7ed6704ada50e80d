#!/usr/bin/env python3
"""Shows that the boundary test notices a wrong program.

    python3 tests/boundary/mutants.py [WORD..]     all, or those whose name has one of the words
    python3 tests/boundary/mutants.py --applies    only whether each can still be made, without building it

For each mutant the plain Rust implementation is copied, made wrong in one way, built as an archive with the C
functions, and put in the place of the proved one. The boundary test must then fail. A twin is wrong in the same way in
the implementation that the archive is compared with: there what the test itself knows of the answers must notice it. The
third kind is wrong in the plain Rust that is written for speed, tests/fast, and nowhere else. Before each kind an archive is
made without an edit, and must pass. Everything is built in a folder of its own. The test is told which subject to compare
first, so that a mutant is noticed soon: that of the file, or of the C function in EXPORTS, that the mutant changes. It is no
part of `make test`.
"""
import os
import pathlib
import re
import shutil
import signal
import subprocess
import sys
import tempfile

HERE = pathlib.Path(__file__).resolve().parent
REFERENCE, FAST = HERE.parent / 'reference', HERE.parent / 'fast'
MANIFEST = '''[package]
name = "line"
version = "0.1.0"
edition = "2021"
[lib]
crate-type = ["cdylib"]
[dependencies]
reference = { path = "../mutant/reference" }
[profile.release]
panic = "abort"
'''
# In a twin's test, in the place of tests/fast: that one would notice what the test itself has to.
SAME = '''
pub use reference::{append, block, day, down, line, lookup_values, merge, read_values, start, up, view_values};
pub fn comment_from(line: &[u8]) -> usize {
    line.len() - reference::comment(line).len()
}
pub fn path([xs, ys, zs, xa, ya, za]: [f64; 6]) -> Result<f64, u32> {
    reference::path(reference::Point { x: xs, y: ys, z: zs }, reference::Point { x: xa, y: ya, z: za })
}
'''
EXPORTS = '''
use reference::{Delays, Labels, Numbers, Point};
unsafe fn bytes<'a>(at: *const u8, len: usize) -> &'a [u8] {
    if at.is_null() { &[] } else { std::slice::from_raw_parts(at, len) }
}
unsafe fn lent<'a, T>(at: *mut T, len: usize) -> &'a mut [T] {
    if at.is_null() { &mut [] } else { std::slice::from_raw_parts_mut(at, len) }
}
#[no_mangle]
pub unsafe extern "C" fn trackline_block(block: *const u8, block_len: usize, line: *mut u8, line_len: usize) -> u32 {
    reference::block(bytes(block, block_len), lent(line, line_len))
}
#[no_mangle]
pub unsafe extern "C" fn trackline_line(
    constellation: u8, satellite: u8, cl: u8, fr: u8, hc: u8, frc1: u8, frc2: u8, frc3: u8,
    mjd: u32, start: u32, elv: u16, azth: u16, ioe: u16,
    refsv: i64, srsv: i64, refsys: i64, srsys: i64,
    mdtr: i64, smdt: i64, mdio: i64, smdi: i64, dsg: i64, trkl: i64,
    line: *mut u8, line_len: usize,
) -> u32 {
    let frc = [frc1, frc2, frc3];
    let labels = Labels { constellation, satellite, cl, fr, hc, frc, mjd, start, elv, azth, ioe };
    let numbers = Numbers { refsv, srsv, refsys, srsys, mdtr, smdt, mdio, smdi, dsg, trkl };
    reference::line(&labels, &numbers, lent(line, line_len))
}
#[no_mangle]
pub unsafe extern "C" fn trackline_start(mjd: u32, second: u32) -> u32 {
    reference::start(mjd, second)
}
#[no_mangle]
pub unsafe extern "C" fn trackline_read(line: *const u8, line_len: usize, values: *mut i64, values_len: usize) -> u32 {
    reference::read_values(bytes(line, line_len), lent(values, values_len))
}
#[no_mangle]
pub unsafe extern "C" fn trackline_comment(line: *const u8, line_len: usize) -> usize {
    let line = bytes(line, line_len);
    line.len() - reference::comment(line).len()
}
#[no_mangle]
pub unsafe extern "C" fn trackline_merge(
    first: *const u8, first_len: usize, second: *const u8, second_len: usize,
    file: *mut u8, file_len: usize, written: *mut usize,
) -> u32 {
    match reference::merge(bytes(first, first_len), bytes(second, second_len), lent(file, file_len)) {
        Ok(length) => { *written = length; 0 }
        Err(refusal) => refusal,
    }
}
#[no_mangle]
pub unsafe extern "C" fn trackline_view(
    first: *const u8, first_len: usize, second: *const u8, second_len: usize, report: *mut i64, report_len: usize,
) -> u32 {
    reference::view_values(bytes(first, first_len), bytes(second, second_len), lent(report, report_len))
}
#[no_mangle]
pub unsafe extern "C" fn trackline_delays(
    store: *const u8, store_len: usize, mjd: u32, delays: *mut i64, delays_len: usize,
) -> u32 {
    reference::lookup_values(bytes(store, store_len), mjd, lent(delays, delays_len))
}
#[no_mangle]
pub unsafe extern "C" fn trackline_append(
    store: *const u8, store_len: usize, mjd: u32, int: i64, cab: i64, refdly: i64, gd: i64,
    longer: *mut u8, longer_len: usize, written: *mut usize,
) -> u32 {
    let set = Delays { int, cab, refdly, gd };
    match reference::append(bytes(store, store_len), mjd, &set, lent(longer, longer_len)) {
        Ok(count) => { *written = count; 0 }
        Err(number) => number,
    }
}
#[no_mangle]
pub unsafe extern "C" fn trackline_day(
    blocks: *const u8, blocks_len: usize, file: *mut u8, file_len: usize, written: *mut usize, block: *mut usize,
) -> u32 {
    match reference::day(bytes(blocks, blocks_len), lent(file, file_len)) {
        Ok(length) => { *written = length; 0 }
        Err(offence) => { *block = offence.block; offence.number }
    }
}
#[no_mangle]
pub unsafe extern "C" fn trackline_path(xs: f64, ys: f64, zs: f64, xa: f64, ya: f64, za: f64, length: *mut f64) -> u32 {
    let answer = reference::path(Point { x: xs, y: ys, z: zs }, Point { x: xa, y: ya, z: za });
    if let Ok(found) = answer { *length = found; }
    answer.err().unwrap_or(0)
}
#[no_mangle]
pub unsafe extern "C" fn trackline_down(line: *const u8, line_len: usize, old: *mut u8, old_len: usize) -> u32 {
    reference::down(bytes(line, line_len), lent(old, old_len))
}
#[no_mangle]
pub unsafe extern "C" fn trackline_up(
    old: *const u8, old_len: usize, hc: u8, frc1: u8, frc2: u8, frc3: u8, line: *mut u8, line_len: usize,
) -> u32 {
    reference::up(bytes(old, old_len), hc, [frc1, frc2, frc3], lent(line, line_len))
}
'''
DAY_KEYS = 'if before.is_some_and(|before| before >= keys) {'
DAY_BLOCK = 'let refusal = block(bytes, &mut line[..LINE_BYTES]);'
DAY_FOLLOW = 'let keys = follow(first, before, &mut lines).map_err(|number| Offence { number, block: count })?;'
DAY_END = 'while !rest.is_empty() {'
DAY_ROOM = 'if lent.len() < lines.len() {'
DAY_COPY = 'lent[..lines.len()].copy_from_slice(&lines);'
DAY_LENGTH = 'block_bytes(n).min(bytes.len())'
DAY_LENT = 'Err(Offence { number: 9, block: count })'
LEFT = 'n * (n * n - 1) * v - (n * n - 1) * s - 3 * place(n, j) * t'
RESIDUAL = 'let residual = v + nearest(-(n * n - 1) * s - 3 * place(n, j) * t, n * (n * n - 1));'
MIDPOINT = 'nearest(s, 100 * STEPS * n)'
SLOPE = 'nearest(4 * t, STEPS * n * (n * n - 1))'
SQUARE = 'q += i128::from(residual) * i128::from(residual);'
MOST_SQUARES = 'q >= threshold::<STEPS>(n, MOST_DSG + 1)'
SMOOTHED = 'Ok(nearest(STEPS * sum, 1105))'
FITS = 'let fit = |kind: &[i64]| fit_in::<STEPS>(kind);'
TEN_AGAIN = 'if !all_within(&b, STEPS * 1_600_000_000_000) { return Err(10); }\n    '
TROPOSPHERE = 'c[j] = STEPS * columns.troposphere[j]'
IONOSPHERE = 'd[j] = STEPS * columns.ionosphere[j]'
SCATTERED = 'numbers.dsg = scatter_in::<STEPS>(&b[..n])?;'
DELAYS = 'smoothed - STEPS * (delays.int + delays.cab - delays.refdly)'
COPY = 'lent[..LINE_BYTES].copy_from_slice(&line_text(labels, numbers));'
JUDGED = 'if let Err(refusal) = judge(labels, numbers, lent.len()) {'
LABELS = 'if !labels.in_range() || !numbers.length_fits() {'
HEAD = 'if block.len() < 4 {\n        return Err(11);'
SIZES = 'if !blocks_fit(n) || seconds != BLOCK_SECONDS * n {'
LENGTH = 'block.len() != block_bytes(n)'
PLACE = '2 * j as i64 - (n - 1)'
TRKL = 'usize::try_from(self.trkl / BLOCK_SECONDS as i64).unwrap_or(0)'
CHECK = 'if !checked(columns) {'
CHARACTERS = 'if !characters_fit(columns, comment) {'
CLOCK = 'hour <= 23 && minute <= 59 && second <= 59 && start(labels.mjd, labels.start) == 0'
FEW = 'if lent.len() < VALUES {'
VALUES = 'lent[..VALUES].copy_from_slice(&values(&labels, &numbers));'
KEYS = '(labels.mjd, labels.start, labels.constellation, labels.satellite)'
LINES = 'let lines = merged(&first, &second)?;'
ROOM = 'if lent.len() < length {'
TAIL = 'if line.len() < FILE_LINE_BYTES {'
READING = 'let content = read(&line[..LINE_BYTES])?;'
CONTENT = 'let (labels, numbers) = judged(line)?;'
KEPT = 'let mut lines: Vec<(Keys, T)>'
LONG = 'if first.len() > LONGEST_FILE || second.len() > LONGEST_FILE {'
BOTH = 'let first = sights(first)?;\n    let second = sights(second)?;'
PAIR = 'first_keys == second_keys && trkl == other_trkl'
DIFFERENCE = 'differences.push(refsys - other_refsys);'
DIFFERENCES = 'let differences = differences(&first, &second);'
SUM = 'sum: differences.iter().sum()'
FOUND = '    let View { pairs, sum, smallest, largest } = match common_view(first, second) {'
FEW_LENT = 'if lent.len() < REPORT_VALUES {'
REPORT = 'lent[..REPORT_VALUES].copy_from_slice(&[pairs, sum, smallest, largest]);'
VERSIONS = '        1 => 3,\n        2 => 4,\n        _ => return Err(20),'
COUNTED = 'count > MOST_ENTRIES || bytes.len() != store_bytes(count, in_group)'
SOUND = '!store.rises() || !store.delays_fit()'
IN_FORCE = 'rposition(|start| start <= mjd)'
OF_ENTRY = 'Delays { int: delay(0), cab: delay(1), refdly: delay(2), gd }'
FROM = 'let from = DELAY * self.in_group * entry;'
NEW_FITS = '!fits || store.version == 1 && set.gd != 0'
LATER = 'store.starts().next_back().is_some_and(|last| mjd <= last) || store.count == MOST_ENTRIES'
LONGER = 'let bytes = longer(&store, mjd, set);'
NO_ROOM = 'if lent.len() < bytes.len() {'
WRITTEN = 'lent[..bytes.len()].copy_from_slice(&bytes);'
NEW_START = '    bytes.extend(mjd.to_le_bytes());\n'
NEW_COUNT = '(store.count as u16 + 1)'
NEW_SET = 'let set = [set.int, set.cab, set.refdly, set.gd];\n    set[..store.in_group]'
FEW_DELAYS = 'if lent.len() < SET_VALUES {'
IN_LENT = 'lent[..SET_VALUES].copy_from_slice(&[int, cab, refdly, gd]);'
LOOKED = '    let Delays { int, cab, refdly, gd } = match lookup(store, mjd) {\n        Ok(set) => set,\n        Err(refusal) => return refusal,'
WHOLE = '*number = whole(coordinate).ok_or(23u32)?;'
OUTSIDE = 'numbers.iter().any(|number| !(-MOST_COORDINATE..=MOST_COORDINATE).contains(number))'
SQUARES = 'let square = |i: usize| numbers[i].abs_diff(numbers[i + 3]).pow(2);'
SUM_OF_SQUARES = 'let sum = square(0) + square(1) + square(2);'
ROOT = 'Ok(root(sum) as f64)'
SUBNORMAL = '0 => (fraction, -1074),'
TOO_LARGE = 'if power > 70 {\n            i128::MAX'
LENGTH_WRITTEN = 'if let Ok(found) = answer { *length = found; }'
DOWN_READ = 'let (labels, _) = read(line)?;'
DOWN_LETTER = "if labels.constellation != b'G' {"
DOWN_TEXT = 'Ok(with_check([b" ", &line[1..SHARED]].concat()))'
UP_LENGTH = 'if !(OLD_BYTES..=LONGEST_OLD).contains(&old.len()) {'
UP_CHECK = 'if with_check(columns[..SHARED].to_vec()) != columns {'
UP_CHARACTERS = "if columns[0] != b' ' || !characters_fit(&filled, comment) {"
UP_SUPPLIED = 'let labels = Labels { hc, frc, ..labels(&filled) };'
UP_LABELS = 'if !labels.in_range() || !numbers(&filled).length_fits() {'
UP_START = 'if !starts(&filled, &labels) {'
UP_BEHIND = 'format!("00 {hc:02} ").as_bytes(), &frc, b" "]'
UP_TEXT = 'Ok(with_check([b"G", shared, %s.concat()))' % UP_BEHIND
SUPPLIED_FITS = 'hc <= 99 && frc.iter().all(|c| c.is_ascii_uppercase() || c.is_ascii_digit())'
PUT_REFUSAL = '        Err(refusal) => return refusal,\n    };\n    if lent.len() < text.len() {'
PUT_ROOM = 'if lent.len() < text.len() {'
PUT_TEXT = 'lent[..text.len()].copy_from_slice(&text);'
GO_DOWN = '    put(lowered(line), lent)'
GO_UP = '    put(raised(old, hc, frc), lent)'
# the subjects of the boundary test, with the files without .rs and the C functions without trackline_ that each is about
SUBJECTS = {
    'blocks': 'block fit lib track', 'lines': 'line', 'starts': 'schedule start', 'readings': 'comment read reader',
    'merges': 'files merge', 'views': 'view', 'stores': 'append delays', 'days': 'day text', 'paths': 'path',
    'version01': 'down up version01',
}
FIRST = {part: subject for subject, parts in SUBJECTS.items() for part in parts.split()}
# name, then file, text and what to write for it, as often as needed
MUTANTS = [
    # what the paper calls plausible and wrong
    ('ties away from zero', 'lib.rs', '(n + d / 2).div_euclid(d)',
     '(n.abs() + d / 2).div_euclid(d) * n.signum()'),
    ('residuals divided by 50', 'fit.rs', 'n as i128 * root * root', '50 * root * root'),
    ('midpoint at second 390', 'fit.rs', MIDPOINT, 'nearest(5 * (n * n - 1) * s + t, 500 * STEPS * n * (n * n - 1))'),
    ('REFSYS from rounded terms', 'track.rs', 'refsys: line_b.midpoint',
     'refsys: line_a.midpoint + fit(&columns.clock.iter().map(|v| STEPS * v).collect::<Vec<i64>>())?.midpoint'),
    ('REF subtracted with CAB', 'track.rs', 'delays.cab - delays.refdly', 'delays.cab + delays.refdly'),
    ('checksum through its own columns', 'line.rs', 'text.hexadecimal(check);',
     'text.hexadecimal(check); let own = text.sum(); text.len -= 2; text.hexadecimal(own);'),
    # roundings
    ('smoothed value floored', 'fit.rs', SMOOTHED, 'Ok((STEPS * sum).div_euclid(1105))'),
    ('smoothed value cut', 'fit.rs', SMOOTHED, 'Ok(STEPS * sum / 1105)'),
    ('smoothed value up a little early', 'fit.rs', SMOOTHED, 'Ok((STEPS * sum + 555).div_euclid(1105))'),
    ('smoothed value up a little late', 'fit.rs', SMOOTHED, 'Ok((STEPS * sum + 549).div_euclid(1105))'),
    ('smoothed value the plain mean', 'fit.rs', SMOOTHED,
     '{ let _ = sum; Ok(nearest(STEPS * measurements.iter().sum::<i64>(), 15)) }'),
    ('midpoint ties away', 'fit.rs', MIDPOINT, 'nearest(s.abs(), 100 * STEPS * n) * s.signum()'),
    ('midpoint ties down', 'fit.rs', MIDPOINT, '-nearest(-s, 100 * STEPS * n)'),
    ('midpoint cut', 'fit.rs', MIDPOINT, '(s + 50 * STEPS * n) / (100 * STEPS * n)'),
    ('slope cut', 'fit.rs', SLOPE, '(8 * t + STEPS * n * (n * n - 1)) / (2 * STEPS * n * (n * n - 1))'),
    ('slope ties down', 'fit.rs', SLOPE, '-nearest(-4 * t, STEPS * n * (n * n - 1))'),
    ('slope up a little early', 'fit.rs', SLOPE, 'nearest(4 * t + 4, STEPS * n * (n * n - 1))'),
    ('slope over 351391', 'fit.rs', SLOPE, 'nearest(4 * t, STEPS * n * (n * n - 1) + 4)'),
    ('residual ties away', 'fit.rs', RESIDUAL, 'let x = %s; '
     'let residual = nearest(x.abs(), n * (n * n - 1)) * x.signum();' % LEFT),
    ('residual ties down', 'fit.rs', RESIDUAL, 'let residual = -nearest(-(%s), n * (n * n - 1));' % LEFT),
    ('residual floored', 'fit.rs', RESIDUAL, 'let residual = (%s).div_euclid(n * (n * n - 1));' % LEFT),
    ('residual without the slope', 'fit.rs', ' - 3 * place(n, j) * t, n', ', n'),
    ('squares summed in 64 bits', 'fit.rs', SQUARE,
     'q = i128::from((q as u64).wrapping_add((residual as u64).wrapping_mul(residual as u64)));'),
    ('squares in 64 bits', 'fit.rs', SQUARE, 'q += i128::from(residual.wrapping_mul(residual));'),
    ('DSG below its threshold', 'fit.rs', 'if threshold::<STEPS>(n, d) <= q', 'if threshold::<STEPS>(n, d) < q'),
    ('DSG one too many', 'fit.rs', MOST_SQUARES, 'q > threshold::<STEPS>(n, MOST_DSG + 1)'),
    ('DSG one too few', 'fit.rs', MOST_SQUARES, 'q >= threshold::<STEPS>(n, MOST_DSG)'),
    ('DSG floored', 'fit.rs', '100 * d - 50', '100 * d'),
    ('a weight moved', 'fit.rs', '147, 162, 167, 162', '147, 161, 168, 162'),
    ('weights askew', 'fit.rs', '42, -13, -78]', '42, -14, -77]'),
    ('first block copied', 'track.rs', '[BLOCK_SECONDS * j..BLOCK_SECONDS * (j + 1)]', '[..BLOCK_SECONDS]'),
    # corrections
    ('geometry added', 'track.rs', '- STEPS * columns.geometry[j]', '+ STEPS * columns.geometry[j]'),
    ('relativity subtracted', 'track.rs', '+ STEPS * columns.relativity[j]', '- STEPS * columns.relativity[j]'),
    ('ionosphere added', 'track.rs', '- STEPS * columns.ionosphere[j]', '+ STEPS * columns.ionosphere[j]'),
    ('troposphere added', 'track.rs', '- STEPS * columns.troposphere[j]', '+ STEPS * columns.troposphere[j]'),
    ('GD added', 'track.rs', '- STEPS * delays.gd;', '+ STEPS * delays.gd;'),
    ('GD forgotten', 'track.rs', '- STEPS * delays.gd;', ';'),
    ('clock subtracted', 'track.rs', 'a[j] + STEPS * columns.clock[j]', 'a[j] - STEPS * columns.clock[j]'),
    ('C and D exchanged', 'track.rs', TROPOSPHERE, TROPOSPHERE.replace('tropo', 'iono'),
     'track.rs', IONOSPHERE, IONOSPHERE.replace('iono', 'tropo')),
    ('a tenth lost in A', 'track.rs', '- STEPS * delays.gd;', '- STEPS * delays.gd - i64::from(j == 17);'),
    ('a tenth lost in B', 'track.rs', '+ STEPS * columns.clock[j];',
     '+ STEPS * columns.clock[j] - i64::from(j + 1 == n);'),
    # limits
    ('measurement limit up', 'fit.rs', 'i64 = 1_000_000_000_000', 'i64 = 1_000_000_000_001'),
    ('measurement limit down', 'fit.rs', 'i64 = 1_000_000_000_000', 'i64 = 999_999_999_999'),
    ('geometry limit up', 'track.rs', 'i64 = 200_000_000_000', 'i64 = 200_000_000_001'),
    ('geometry limit down', 'track.rs', 'i64 = 200_000_000_000', 'i64 = 199_999_999_999'),
    ('correction limit up', 'track.rs', 'i64 = 10_000_000_000', 'i64 = 10_000_000_001'),
    ('correction limit down', 'track.rs', 'i64 = 10_000_000_000', 'i64 = 9_999_999_999'),
    ('clock without limit', 'track.rs', 'lists[1..].iter()', 'lists[1..4].iter()'),
    ('relativity without limit', 'track.rs', 'lists[1..].iter()', 'lists[2..].iter()'),
    ('GD without limit', 'track.rs', 'delays.refdly, delays.gd]', 'delays.refdly, 0]'),
    ('last measurement without limit', 'track.rs', 'all_within(measurements,', 'all_within(&measurements[..15 * n - 1],',
     'fit.rs', 'measurements.iter().any', 'measurements[..14].iter().any',
     'fit.rs', 'map(|(w, m)| w * m).sum()', 'fold(0i64, |s, (w, m)| s.wrapping_add(w.wrapping_mul(*m)))'),
    ('limit by magnitude', 'lib.rs', '-limit <= v && v <= limit', 'v.wrapping_abs() <= limit'),
    ('limit open below', 'lib.rs', '-limit <= v', '-limit < v'),
    ('a limit of Fit that tracks reach', 'fit.rs', 'i64 = 2_000_000_000_000', 'i64 = 1_600_000_000_000'),
    ('10 for the largest values', 'track.rs', FITS, TEN_AGAIN + FITS),
    ('REFSV one digit more', 'track.rs', 'self.refsv, 9_999_999_999', 'self.refsv, 10_000_000_000'),
    ('REFSYS not tested', 'track.rs', '|| !within(self.refsys, 9_999_999_999)', ''),
    ('SRSV limit up', 'track.rs', 'self.srsv, 99_999', 'self.srsv, 100_000'),
    ('SRSYS limit down', 'track.rs', 'self.srsys, 99_999', 'self.srsys, 99_998'),
    ('SMDT limit up', 'track.rs', 'self.smdt, 999', 'self.smdt, 1000'),
    ('SMDI not tested', 'track.rs', '!within(self.smdi, 999)', 'false'),
    ('MDTR below 0', 'track.rs', '(0..=9999).contains(&self.mdtr)', '(-1..=9999).contains(&self.mdtr)'),
    ('MDIO 10000', 'track.rs', '(0..=9999).contains(&self.mdio)', '(0..=10000).contains(&self.mdio)'),
    ('DSG below 0', 'track.rs', '(0..=MOST_DSG).contains', '(-1..=MOST_DSG).contains'),
    # order
    ('4 before 3', 'track.rs', 'if !within(self.refsv',
     'if !within(self.srsv, 99_999) { return Err(4); }\nif !within(self.refsv'),
    ('5 before 4', 'track.rs', 'let slopes =', 'if self.mdio < 0 { return Err(5); }\nlet slopes ='),
    ('6 before 3 in Track', 'track.rs', 'numbers.check_fits()?;\n    ' + SCATTERED,
     SCATTERED + '\n    numbers.check_fits()?;'),
    ('6 before 3 in Line', 'line.rs', 'numbers.check_fits()?;\n',
     'numbers.check_dsg()?;\n    numbers.check_fits()?;\n'),
    ('3 before 8 in Line', 'line.rs', 'if start(labels.mjd', 'numbers.check_fits()?;\n    if start(labels.mjd'),
    ('track length after the start', 'line.rs', LABELS, 'if !labels.in_range() {', 'line.rs', 'numbers.check_fits()?;',
     'if !numbers.length_fits() { return Err(7); }\n    numbers.check_fits()?;'),
    ('9 first in Line', 'line.rs', LABELS, 'if lent < LINE_BYTES { return Err(9); }\n    ' + LABELS),
    ('9 before Track', 'block.rs', 'match tracked {', 'if lent.len() < 113 { return 9; }\n    match tracked {'),
    ('9 never', 'line.rs', 'return Err(9);', 'return Ok(());', 'line.rs', COPY,
     'let n = lent.len().min(113); lent[..n].copy_from_slice(&line_text(labels, numbers)[..n]);'),
    ('9 at 113', 'line.rs', 'lent < LINE_BYTES', 'lent <= LINE_BYTES'),
    ('labels before Track', 'block.rs', 'match tracked {', 'let zero = crate::Numbers { trkl: 780, ..Default::default() };\n'
     'let r = line(&labels(block), &zero, &mut [0; 113]); if r != 0 { return r; }\n    match tracked {'),
    ('11 before 1', 'block.rs', HEAD, 'if block.len() < 698 || (block.len() - 58) % 160 != 0 {\n        return Err(11);'),
    ('1 for a block without sizes', 'block.rs', HEAD, 'if block.len() < 4 {\n        return Err(1);'),
    ('11 under 58 bytes', 'block.rs', HEAD, 'if block.len() < 58 {\n        return Err(11);'),
    ('longer blocks taken', 'block.rs', LENGTH, 'block.len() < block_bytes(n)'),
    ('first size not tested', 'block.rs', ' || seconds != BLOCK_SECONDS * n', ''),
    ('sizes added', 'block.rs', SIZES,
     'let (n, rest) = ((seconds + n) / 16, (seconds + n) % 16);\n    if !blocks_fit(n) || rest != 0 {'),
    # labels
    ('satellite 100', 'line.rs', '(1..=99).contains(&self.sat', '(1..=100).contains(&self.sat'),
    ('satellite 0', 'line.rs', '(1..=99).contains(&self.sat', '(0..=99).contains(&self.sat'),
    ('HC 100', 'line.rs', 'self.hc <= 99', 'self.hc <= 100'),
    ('ELV 901', 'line.rs', 'self.elv <= 900', 'self.elv <= 901'),
    ('AZTH 3600', 'line.rs', 'self.azth <= 3599', 'self.azth <= 3600'),
    ('AZTH not 3599', 'line.rs', 'self.azth <= 3599', 'self.azth <= 3598'),
    ('IOE 0 for R', 'line.rs', "b'R' => 1..=96", "b'R' => 0..=96"),
    ('IOE 97 for R', 'line.rs', "b'R' => 1..=96", "b'R' => 1..=97"),
    ('IOE 24 for C', 'line.rs', '0..=23', '0..=24'),
    ('IOE 256 for G and J', 'line.rs', '0..=255', '0..=256'),
    ('IOE 1000 for E', 'line.rs', '0..=999', '0..=1000'),
    ('FR 25', 'line.rs', '1..=24', '1..=25'),
    ('FR 0 for R', 'line.rs', '1..=24', '0..=24'),
    ('FR 1 for the others', 'line.rs', '0..=0', '0..=1'),
    ('small letters in FRC', 'line.rs', 'is_ascii_uppercase', 'is_ascii_alphabetic'),
    ('letter S', 'line.rs', "b'G' | b'J' =>", "b'G' | b'J' | b'S' =>"),
    ('MJD 50721', 'schedule.rs', 'u32 = 50722', 'u32 = 50721'),
    ('MJD not 99999', 'schedule.rs', 'u32 = 99999', 'u32 = 99998'),
    # schedule
    ('days of 1440 minutes', 'schedule.rs', 'i64 = 1436', 'i64 = 1440'),
    ('whole days first', 'schedule.rs', '.rem_euclid(', '.rem_euclid(1440).rem_euclid('),
    ('starts in the last four minutes', 'schedule.rs', 'i64::from(second) ==',
     'i64::from(if second < 86400 { second % 86160 } else { second }) =='),
    ('90 tracks', 'schedule.rs', '1..=89', '1..=90'),
    ('88 tracks', 'schedule.rs', '1..=89', '1..=88'),
    ('later each day', 'schedule.rs', '- 4 * n', '+ 4 * n'),
    ('seconds of the minute ignored', 'schedule.rs', 'i64::from(second) == 60 * minute',
     'i64::from(second) / 60 == minute'),
    ('seconds past the day', 'schedule.rs', 'i64::from(second) ==', 'i64::from(second) % 86400 =='),
    # text
    ('blank fill', 'line.rs', "self.bytes[i] = b'0' + (rest % 10) as u8;",
     "self.bytes[i] = if rest == 0 && i + 1 < self.len + width { b' ' } else { b'0' + (rest % 10) as u8 };"),
    ('minus before zero', 'line.rs', 'if value < 0', 'if value <= 0'),
    ('blank for plus', 'line.rs', "else { b'+' }", "else { b' ' }"),
    ('small hexadecimal', 'line.rs', 'ABCDEF', 'abcdef'),
    ('hexadecimal digits exchanged', 'line.rs', 'value >> 4', 'value & 15',
     'line.rs', 'usize::from(value & 15)]);\n    }', 'usize::from(value >> 4)]);\n    }'),
    ('checksum to column 110', 'line.rs', 'self.bytes[..self.len].iter()', 'self.bytes[..self.len - 1].iter()'),
    ('REFSV twice', 'line.rs', 'text.signed(10, numbers.refsys)', 'text.signed(10, numbers.refsv)'),
    ('MDTR twice', 'line.rs', 'text.decimal(4, numbers.mdio', 'text.decimal(4, numbers.mdtr'),
    ('HC twice', 'line.rs', 'text.decimal(2, labels.fr', 'text.decimal(2, labels.hc'),
    ('minutes of the day', 'line.rs', 'labels.start / 60 % 60', 'labels.start / 60 % 100'),
    ('FRC backwards', 'line.rs', 'labels.frc.iter().for_each', 'labels.frc.iter().rev().for_each'),
    # the lent line
    ('a 114th byte', 'line.rs', COPY, COPY + ' if lent.len() > 113 { lent[113] = 0; }'),
    ('a line end', 'line.rs', COPY, COPY + ' if lent.len() > 114 { lent[113] = 13; lent[114] = 10; }'),
    ('the rest cleared', 'line.rs', COPY, COPY + ' lent[LINE_BYTES..].fill(0);'),
    ('nothing written', 'line.rs', COPY, 'let _ = line_text(labels, numbers);'),
    ('written on a refusal', 'line.rs', JUDGED, JUDGED + " if let Some(b) = lent.first_mut() { *b = b'?'; }"),
    ('written on 9', 'line.rs', JUDGED, JUDGED + ' if refusal == 9 { let n = lent.len(); '
     'lent.copy_from_slice(&line_text(labels, numbers)[..n]); }'),
    ('a byte past the lent line', 'EXPORTS', '    let frc = [',
     '    if line_len == 113 { *line.add(113) = 7; }\n    let frc = ['),
    ('a byte before the lent line', 'EXPORTS', '    reference::block(',
     '    if line_len == 4096 { *line.sub(1) = 7; }\n    reference::block('),
    # the block's bytes
    ('start of 16 bits', 'block.rs', 'start: u32_at(block, 16)', 'start: u16_at(block, 16).into()'),
    ('MJD of 17 bits', 'block.rs', 'mjd: u32_at(block, 12)', 'mjd: u32_at(block, 12) & 0x1ffff'),
    ('sizes with the high byte first', 'block.rs', 'u16_at(block, 0))', 'u16_at(block, 0).swap_bytes())'),
    ('REF and GD exchanged', 'block.rs', 'refdly: i64_at(block, 42), gd: i64_at(block, 50)',
     'refdly: i64_at(block, 50), gd: i64_at(block, 42)'),
    ('clock and troposphere exchanged', 'block.rs', 'troposphere: &column(block, n, 3)',
     'troposphere: &column(block, n, 4)', 'block.rs', 'clock: &column(block, n, 4)', 'clock: &column(block, n, 3)'),
    ('columns for groups', 'block.rs', 'as_chunks::<40>()', 'as_chunks::<8>()',
     'block.rs', '.zip(groups)', '.zip(groups.iter().skip(n * which))',
     'block.rs', 'i64_at(group, 8 * which)', 'i64_at(group, 0)'),
    ('ELV and AZTH exchanged', 'block.rs', 'elv: u16_at(block, 20)', 'elv: u16_at(block, 22)',
     'block.rs', 'azth: u16_at(block, 22)', 'azth: u16_at(block, 20)'),
    # a line read back: lengths and checksum
    ('length 141 read', 'reader.rs', 'usize = 140', 'usize = 141'),
    ('length 140 not read', 'reader.rs', 'usize = 140', 'usize = 139'),
    ('CK in small letters', 'reader.rs', 'field(columns, (112, 113)) == [DIGITS[usize::from(sum >> 4)],',
     'field(columns, (112, 113)).to_ascii_uppercase() == [DIGITS[usize::from(sum >> 4)],'),
    ('CK by its second digit', 'reader.rs', 'field(columns, (112, 113)) == [DIGITS[usize::from(sum >> 4)],',
     'field(columns, (112, 113)) == [columns[111],'),
    ('CK read of columns 1 to 110', 'reader.rs', 'columns[..111].iter().fold', 'columns[..110].iter().fold'),
    # characters
    ('blank read as a zero', 'reader.rs', "b'd' => byte.is_ascii_digit()",
     "b'd' => byte.is_ascii_digit() || byte == b' '", 'reader.rs', "digit - b'0')", 'digit & 15)'),
    ('small letters in CL', 'reader.rs', "b'0'..=b'9' | b'A'..=b'F')", "b'0'..=b'9' | b'A'..=b'F' | b'a'..=b'f')",
     'reader.rs', "digit - b'A' + 10", "digit.to_ascii_uppercase() - b'A' + 10"),
    ('minus before a zero read', 'reader.rs', "field[0] == b'-' &&", 'false &&'),
    ('minus before a zero of SMDI read', 'reader.rs', '!SIGNED.iter().any', '!SIGNED[..5].iter().any'),
    ('minus before one digit of zero', 'reader.rs', 'field[1..].iter().all', 'field[1..].iter().take(1).all'),
    ('comment byte 7F', 'reader.rs', '0x20..=0x7E', '0x20..=0x7F'),
    ('comment byte 1F', 'reader.rs', '0x20..=0x7E', '0x1F..=0x7E'),
    ('last comment byte not looked at', 'reader.rs', 'comment.iter().all(', 'comment.iter().take(26).all('),
    ('small letters in FRC as a label', 'reader.rs', "b'c' => byte.is_ascii_digit() || byte.is_ascii_uppercase()",
     "b'c' => byte.is_ascii_alphanumeric()"),
    # labels and clock
    ('24:02:00 for 00:02:00', 'reader.rs', CLOCK,
     'hour <= 24 && minute <= 59 && second <= 59 && start(labels.mjd, labels.start % 86400) == 0'),
    ('00:62:00 for 01:02:00', 'reader.rs', CLOCK, 'hour <= 23 && second <= 59 && start(labels.mjd, labels.start) == 0'),
    ('00:01:60 for 00:02:00', 'reader.rs', CLOCK, 'hour <= 23 && minute <= 59 && start(labels.mjd, labels.start) == 0'),
    ('labels not looked at', 'reader.rs', '!labels.in_range()', 'labels.mjd < 50722'),
    # order
    ('13 before 14', 'reader.rs', CHECK, CHARACTERS + ' return Err(13); }\n    ' + CHECK),
    ('7 before 13', 'reader.rs', CHARACTERS,
     'if &columns[1..3] == b"00" { return Err(7); }\n    ' + CHARACTERS),
    ('clock before the labels', 'reader.rs', LABELS, 'if labels.start >= 86400 { return Err(8); }\n    ' + LABELS),
    # what is read
    ('REFSYS for REFSV', 'reader.rs', '(35, 45), (47, 52), (54, 64)', '(54, 64), (47, 52), (35, 45)'),
    ('sign lost', 'reader.rs', '        -size\n', '        size\n'),
    ('CL read in decimal', 'reader.rs', '16 * value(digits[0])', '10u8.wrapping_mul(value(digits[0]))'),
    ('FR and HC exchanged', 'reader.rs', 'satellite, cl, fr, hc, frc1', 'satellite, cl, hc, fr, frc1'),
    # the comment
    ('comment from column 113', 'reader.rs', 'is_ok() { LINE_BYTES }', 'is_ok() { LINE_BYTES - 1 }'),
    ('comment of a refused line', 'reader.rs', 'else { line.len() };', 'else { line.len().min(LINE_BYTES) };'),
    ('comment of a line without a start', 'reader.rs', 'if read(line).is_ok()',
     'if matches!(read(line), Ok(_) | Err(8))'),
    # the lent values
    ('9 before 12', 'reader.rs', '    let (labels, numbers) = match read(line) {',
     '    ' + FEW + ' return 9; }\n    let (labels, numbers) = match read(line) {'),
    ('a 24th value', 'reader.rs', VALUES, VALUES + ' if let Some(v) = lent.get_mut(23) { *v = 0; }'),
    ('values cleared on a refusal', 'reader.rs', 'Err(refusal) => return refusal,',
     'Err(refusal) => { lent.fill(0); return refusal; }'),
    ('a value past the lent ones', 'EXPORTS', '    reference::read_values(',
     '    if values_len == 23 { *values.add(23) = 7; }\n    reference::read_values('),
    # short tracks: how many blocks
    ('tracks of 3 blocks', 'fit.rs', 'LEAST_BLOCKS: usize = 4;', 'LEAST_BLOCKS: usize = 3;'),
    ('tracks of 53 blocks', 'fit.rs', 'MOST_BLOCKS: usize = 52;', 'MOST_BLOCKS: usize = 53;'),
    ('no tracks of 4 blocks', 'fit.rs', 'LEAST_BLOCKS: usize = 4;', 'LEAST_BLOCKS: usize = 5;'),
    ('full tracks alone', 'fit.rs', 'LEAST_BLOCKS: usize = 4;', 'LEAST_BLOCKS: usize = 52;'),
    ('sizes exchanged', 'block.rs', '(usize::from(u16_at(block, 0)), usize::from(u16_at(block, 2)))',
     '(usize::from(u16_at(block, 2)), usize::from(u16_at(block, 0)))'),
    ('length 8378 for every track', 'block.rs', LENGTH, 'block.len() != 8378'),
    ('corrections from byte 6298 for every track', 'block.rs', '[corrections_at(n)..]',
     '[6298.min(block.len() - 40 * n - 8)..]'),
    ('all 52 places fitted', 'track.rs', '(fit(&a[..n])?, fit(&b[..n])?, fit(&c[..n])?, fit(&d[..n])?)',
     '(fit(&a)?, fit(&b)?, fit(&c)?, fit(&d)?)'),
    ('all 52 places scattered', 'track.rs', 'scatter_in::<STEPS>(&b[..n])?', 'scatter_in::<STEPS>(&b)?'),
    ('last block of a short track left out', 'track.rs', 'for j in 0..n {', 'for j in 0..n - usize::from(n < 52) {'),
    # the rules of 52 for every track
    ('weights of 52', 'fit.rs', PLACE, '2 * j as i64 - 51'),
    ('weights of an even number', 'fit.rs', PLACE, '2 * j as i64 - (n / 2 * 2 - 1)'),
    ('midpoint over 52000', 'fit.rs', MIDPOINT, 'nearest(s, 52000)'),
    ('slope over 351390', 'fit.rs', SLOPE, 'nearest(t, 351390)'),
    ('slope over a whole quarter', 'fit.rs', SLOPE, 'nearest(t, STEPS * (n * (n * n - 1) / 4))'),
    ('slope by n cubed', 'fit.rs', SLOPE, 'nearest(4 * t, STEPS * n * n * n)'),
    ('residual over 46852', 'fit.rs', RESIDUAL, 'let residual = nearest(46852 * v - 901 * s - place(n, j) * t, 46852);'),
    ('residual over a whole third', 'fit.rs', RESIDUAL, 'let third = n * (n * n - 1) / 3; '
     'let residual = nearest(third * v - (n * n - 1) / 3 * s - place(n, j) * t, third);'),
    ('DSG of 52 values', 'fit.rs', 'n as i128 * root * root', '52 * root * root'),
    ('DSG 0 under 13000000', 'fit.rs', 'if ' + MOST_SQUARES, 'if q < 13_000_000 { return Ok(0); }\n    if ' + MOST_SQUARES),
    ('DSG too high from 52 values on', 'fit.rs', MOST_SQUARES, 'q >= threshold::<STEPS>(52, MOST_DSG + 1)'),
    # tenths of a ps
    ('smoothed values of whole ps', 'fit.rs', SMOOTHED, 'Ok(STEPS * nearest(sum, 1105))'),
    ('smoothed values of half a ps', 'fit.rs', SMOOTHED, 'Ok(5 * nearest(2 * sum, 1105))'),
    ('smoothed values in ps', 'fit.rs', SMOOTHED, 'Ok(nearest(sum, 1105))'),
    ('C in ps', 'track.rs', TROPOSPHERE, TROPOSPHERE.replace('STEPS * ', '')),
    ('D in ps', 'track.rs', IONOSPHERE, IONOSPHERE.replace('STEPS * ', '')),
    ('INT, CAB and REF added in ps', 'track.rs', DELAYS, DELAYS.replace('STEPS * ', '')),
    ('REF alone added in ps', 'track.rs', DELAYS, 'smoothed - STEPS * (delays.int + delays.cab) + delays.refdly'),
    ('GD added in ps', 'track.rs', '- STEPS * delays.gd;', '- delays.gd;'),
    ('geometry added in ps', 'track.rs', '- STEPS * columns.geometry[j]', '- columns.geometry[j]'),
    ('relativity added in ps', 'track.rs', '+ STEPS * columns.relativity[j]', '+ columns.relativity[j]'),
    ('ionosphere added in ps', 'track.rs', '- STEPS * columns.ionosphere[j]', '- columns.ionosphere[j]'),
    ('troposphere added in ps', 'track.rs', '- STEPS * columns.troposphere[j]', '- columns.troposphere[j]'),
    ('clock added in ps', 'track.rs', 'a[j] + STEPS * columns.clock[j]', 'a[j] + columns.clock[j]'),
    ('A and B rounded to ps', 'track.rs', 'c[j] = STEPS *', 'a[j] = 10 * crate::nearest(a[j], 10);\n'
     '        b[j] = 10 * crate::nearest(b[j], 10);\n        c[j] = STEPS *'),
    ('midpoint over 100n', 'fit.rs', MIDPOINT, 'nearest(s, 100 * n)'),
    ('slope over n(n^2 - 1)', 'fit.rs', SLOPE, 'nearest(4 * t, n * (n * n - 1))'),
    ('midpoint of whole ps', 'fit.rs', MIDPOINT, 'nearest(nearest(s, STEPS), 100 * n)'),
    ('slope of whole ps', 'fit.rs', SLOPE, 'nearest(4 * nearest(t, STEPS), n * (n * n - 1))'),
    ('a residual over ten times its divisor', 'fit.rs', RESIDUAL,
     RESIDUAL.replace('t, n * (n', 't, TENTHS * n * (n')),
    ('residuals of whole ps', 'fit.rs', RESIDUAL, 'let residual = TENTHS * nearest(%s, TENTHS * n * (n * n - 1));' % LEFT),
    ('thresholds in ps', 'fit.rs', 'STEPS * (100 * d - 50)', '100 * d - 50'),
    ('first threshold in ps', 'fit.rs', 'if ' + MOST_SQUARES,
     'if q >= 2500 * n as i128 && q < threshold::<STEPS>(n, 1) { return Ok(1); }\n    if ' + MOST_SQUARES),
    ('last threshold in ps', 'fit.rs', MOST_SQUARES, 'q >= threshold::<1>(n, MOST_DSG + 1)'),
    ('too high from a residual of 10^7 on', 'fit.rs', SQUARE,
     'if residual.abs() > 10_000_000 { return i128::MAX; }\n        ' + SQUARE),
    ('too high from a residual of 7 x 10^7 on', 'fit.rs', SQUARE,
     'if residual.abs() > 70_000_000 { return i128::MAX; }\n        ' + SQUARE),
    ('limit of Fit and Scatter in ps', 'fit.rs', 'within(v, STEPS * VALUE_LIMIT)', 'within(v, VALUE_LIMIT)'),
    ('measurements up to 10^12 tenths', 'track.rs', 'all_within(measurements, MEASUREMENT_LIMIT)',
     'all_within(measurements, MEASUREMENT_LIMIT / STEPS_OF_A_PS)',
     'track.rs', 'const GEOMETRY_LIMIT', 'const STEPS_OF_A_PS: i64 = TENTHS;\nconst GEOMETRY_LIMIT'),
    # the track length
    ('track length of 780', 'track.rs', 'trkl: measurements.len() as i64', 'trkl: 780'),
    ('0780 written', 'line.rs', 'text.decimal(4, numbers.trkl as u64)', 'text.decimal(4, 780)'),
    ('0780 read', 'reader.rs', 'trkl: unsigned(21, 24)', 'trkl: 780'),
    ('track length of 45', 'track.rs', 'blocks_fit(blocks) &&', '(3..=52).contains(&blocks) &&'),
    ('track length of 795', 'track.rs', 'blocks_fit(blocks) &&', '(4..=53).contains(&blocks) &&'),
    ('track length of no whole blocks', 'track.rs', ' && self.trkl % BLOCK_SECONDS as i64 == 0', ''),
    ('track length below 0', 'track.rs', TRKL, TRKL.replace('self.trkl', 'self.trkl.wrapping_abs()')),
    ('track length of 32 bits', 'track.rs', TRKL, TRKL.replace('self.trkl', 'i64::from(self.trkl as u32)')),
    ('any track length in Line', 'line.rs', ' || !numbers.length_fits()', ''),
    ('any track length read', 'reader.rs', ' || !numbers.length_fits()', ''),
    ('13 for a track length', 'reader.rs', LABELS, 'if !numbers.length_fits() { return Err(13); }\n    ' + LABELS),
    ('track length after the clock', 'reader.rs', LABELS, 'if !labels.in_range() {', 'reader.rs',
     'Ok((labels, numbers))', 'if numbers.length_fits() { Ok((labels, numbers)) } else { Err(7) }'),
    ('7 for a letter in the track length', 'reader.rs', CHARACTERS,
     'if !columns[20..24].iter().all(u8::is_ascii_digit) { return Err(7); }\n    ' + CHARACTERS),
    # two line files: which lines, and in which order
    ('equal lines written twice', 'files.rs', 'n += usize::from(second_keys <= first_keys)',
     'n += usize::from(second_keys < first_keys)'),
    ('a line of the second file lost behind an equal one', 'files.rs', 'n += usize::from(second_keys <= first_keys)',
     'n += usize::from(second_keys <= first_keys) + usize::from(second_keys == first_keys)', 'files.rs', 'second[n..]',
     'second[n.min(second.len())..]'),
    ('last line lost', 'files.rs', 'Ok(lines)\n}\n\n/// Merge', 'lines.pop();\n    Ok(lines)\n}\n\n/// Merge'),
    ('satellites before the letter', 'files.rs', KEYS,
     '(labels.mjd, labels.start, labels.satellite, labels.constellation)'),
    ('start before MJD', 'files.rs', KEYS,
     '(labels.start, labels.mjd, labels.constellation, labels.satellite)'),
    ('letters in the order G, R, E, C, J', 'files.rs', KEYS, '(labels.mjd, labels.start, '
     'b"GRECJ".iter().position(|b| *b == labels.constellation).unwrap() as u8, labels.satellite)'),
    ('satellites not compared', 'files.rs', KEYS, '(labels.mjd, labels.start, labels.constellation, 0)'),
    ('lines in the order of the files', 'files.rs', 'm < first.len() && n < second.len()',
     'm < first.len() && n < second.len() && first[m].0 == second[n].0'),
    # what a file is refused for
    ('equal keys accepted', 'files.rs', '*before >= keys', '*before > keys'),
    ('order not looked at', 'files.rs', '*before >= keys', '*before >= keys && false'),
    ('order against the first line', 'files.rs', 'lines.last()', 'lines.first()'),
    ('tail of 114 ignored', 'files.rs', CONTENT, 'if line.len() == 114 { break; }\n        ' + CONTENT),
    ('tail ignored', 'files.rs', 'file.chunks(FILE_LINE_BYTES)', 'file.chunks_exact(FILE_LINE_BYTES)'),
    ('tail before the lines', 'files.rs', KEPT,
     'if file.len() % FILE_LINE_BYTES != 0 { return Err(12); }\n    ' + KEPT),
    ('line feed alone looked at', 'files.rs', "line[LINE_BYTES..] != *b\"\\r\\n\"", "line[LINE_BYTES + 1] != b'\\n'"),
    ('carriage return alone looked at', 'files.rs', "line[LINE_BYTES..] != *b\"\\r\\n\"", "line[LINE_BYTES] != b'\\r'"),
    ('line end before the reading', 'files.rs', READING,
     "if line[LINE_BYTES..] != *b\"\\r\\n\" { return Err(13); }\n    " + READING),
    ('16 before the line end', 'files.rs', CONTENT,
     'let early = read(&line[..line.len().min(113)]).map(|(labels, _)| keys(&labels));\n'
     '        if lines.last().is_some_and(|(before, _)| early.is_ok_and(|keys| *before >= keys)) { return Err(16); }\n'
     '        ' + CONTENT),
    ('16 when all lines are read', 'files.rs', KEPT,
     'file.chunks(FILE_LINE_BYTES).try_for_each(|line| judged(line).map(|_| ()))?;\n    ' + KEPT),
    # order of the refusals, and the lent file
    ('second file judged first', 'files.rs', 'let first = file_lines(first)?;\n    let second = file_lines(second)?;',
     'let second = file_lines(second)?;\n    let first = file_lines(first)?;'),
    ('second file not judged', 'files.rs', 'let second = file_lines(second)?;',
     'let second = file_lines(second).or_else(|r| if r == 16 { Err(r) } else { Ok(Vec::new()) })?;'),
    ('15 unnoticed', 'files.rs', 'first_keys == second_keys && line != other', 'false'),
    ('15 by the columns before the last', 'files.rs', 'line != other', 'line[..109] != other[..109]'),
    ('15 for equal lines', 'files.rs', '&& line != other', ''),
    ('17 before 15', 'files.rs', LINES,
     'if lent.is_empty() && first.len() + second.len() > 0 { return Err(17); }\n    ' + LINES),
    ('17 before the second file', 'files.rs', 'let second = file_lines(second)?;',
     'if lent.is_empty() && !first.is_empty() { return Err(17); }\n    let second = file_lines(second)?;'),
    ('17 by both lengths', 'files.rs', ROOM,
     'if lent.len() < FILE_LINE_BYTES * (first.len() + second.len()) {'),
    ('17 where the room is just enough', 'files.rs', ROOM, 'if lent.len() <= length && length > 0 {'),
    ('17 never', 'files.rs', ROOM, 'if false {'),
    ('an empty result refused', 'files.rs', ROOM, 'if lent.len() < length.max(1) {'),
    ('written where the room is too short', 'files.rs', ROOM,
     ROOM + ' lent.chunks_exact_mut(115).zip(lines).for_each(|(to, line)| to.copy_from_slice(line));'),
    ('the rest of the lent file cleared', 'files.rs', 'Ok(length)\n}', 'lent[length..].fill(0);\n    Ok(length)\n}'),
    ('a byte of zero behind the result', 'files.rs', 'Ok(length)\n}',
     'if let Some(byte) = lent.get_mut(length) { *byte = 0; }\n    Ok(length)\n}'),
    ('lines counted, not bytes', 'files.rs', 'Ok(length)\n}', 'Ok(length / FILE_LINE_BYTES)\n}'),
    ('the number of bytes set on a refusal', 'EXPORTS', '        Err(refusal) => refusal,\n    }\n}',
     '        Err(refusal) => { *written = 0; refusal }\n    }\n}'),
    # a common view: which lines make a pair
    ('TRKL left out of a pair', 'view.rs', PAIR, 'first_keys == second_keys'),
    ('MJD left out of a pair', 'view.rs', PAIR, '(first_keys.1, first_keys.2, first_keys.3) == '
     '(second_keys.1, second_keys.2, second_keys.3) && trkl == other_trkl'),
    ('start left out of a pair', 'view.rs', PAIR, '(first_keys.0, first_keys.2, first_keys.3) == '
     '(second_keys.0, second_keys.2, second_keys.3) && trkl == other_trkl'),
    ('letter left out of a pair', 'view.rs', PAIR, '(first_keys.0, first_keys.1, first_keys.3) == '
     '(second_keys.0, second_keys.1, second_keys.3) && trkl == other_trkl'),
    ('satellite left out of a pair', 'view.rs', PAIR, '(first_keys.0, first_keys.1, first_keys.2) == '
     '(second_keys.0, second_keys.1, second_keys.2) && trkl == other_trkl'),
    ('REFSYS the same in a pair', 'view.rs', PAIR, PAIR + ' && refsys == other_refsys'),
    ('lines of the same REFSYS no pair', 'view.rs', PAIR, PAIR + ' && refsys != other_refsys'),
    ('TRKL by whole minutes in a pair', 'view.rs', 'trkl == other_trkl', 'trkl / 60 == other_trkl / 60'),
    ('no pair behind another TRKL', 'view.rs', 'if ' + PAIR + ' {',
     'if first_keys == second_keys && trkl != other_trkl {\n            break;\n        }\n        if ' + PAIR + ' {'),
    ('lines paired by their place', 'view.rs', 'm += usize::from(first_keys <= second_keys);', 'm += 1;',
     'view.rs', 'n += usize::from(second_keys <= first_keys);', 'n += 1;'),
    ('a line of the first file passed over behind a pair', 'view.rs', 'm += usize::from(first_keys <= second_keys);',
     'm += usize::from(first_keys <= second_keys) + usize::from(first_keys == second_keys);'),
    ('a line of the second file passed over behind a pair', 'view.rs', 'n += usize::from(second_keys <= first_keys);',
     'n += usize::from(second_keys <= first_keys) + usize::from(first_keys == second_keys);'),
    ('last line of the first file not looked at', 'view.rs', 'm < first.len() &&', 'm + 1 < first.len() &&'),
    ('last line of the second file not looked at', 'view.rs', 'n < second.len()', 'n + 1 < second.len()'),
    ('5,000 lines looked at', 'view.rs', 'm < first.len() &&', 'm < first.len().min(5_000) &&'),
    # what is reported
    ('second minus first', 'view.rs', DIFFERENCE, 'differences.push(other_refsys - refsys);'),
    ('differences without a sign', 'view.rs', DIFFERENCE, 'differences.push((refsys - other_refsys).abs());'),
    ('differences of 32 bits', 'view.rs', DIFFERENCE, 'differences.push(i64::from((refsys - other_refsys) as i32));'),
    ('a sum for a difference', 'view.rs', DIFFERENCE, 'differences.push(refsys + other_refsys);'),
    ('REFSV for REFSYS in a view', 'view.rs', '(numbers.trkl, numbers.refsys)', '(numbers.trkl, numbers.refsv)'),
    ('first pair lost', 'view.rs', DIFFERENCES, DIFFERENCES.replace('let', 'let mut') +
     '\n    differences.drain(..differences.len().min(1));'),
    ('last pair lost', 'view.rs', DIFFERENCES, DIFFERENCES.replace('let', 'let mut') + '\n    differences.pop();'),
    ('a pair counted twice', 'view.rs', DIFFERENCES, DIFFERENCES.replace('let', 'let mut') +
     '\n    differences.extend(differences.last().copied());'),
    ('lines counted, not pairs', 'view.rs', 'pairs: differences.len() as i64', 'pairs: first.len() as i64'),
    ('pairs of 8 bits', 'view.rs', 'pairs: differences.len() as i64', 'pairs: (differences.len() as u8).into()'),
    ('pairs of 13 bits', 'view.rs', 'pairs: differences.len() as i64', 'pairs: differences.len() as i64 % 8192'),
    ('the mean for the sum', 'view.rs', SUM, 'sum: differences.iter().sum::<i64>() / differences.len() as i64'),
    ('sum of 32 bits', 'view.rs', SUM, 'sum: i64::from(differences.iter().sum::<i64>() as i32)'),
    ('sum of 47 bits', 'view.rs', SUM, 'sum: differences.iter().sum::<i64>() << 17 >> 17'),
    ('sum of the sizes', 'view.rs', SUM, 'sum: differences.iter().map(|d| d.abs()).sum()'),
    ('smallest and largest exchanged', 'view.rs', '(Some(&smallest), Some(&largest))', '(Some(&largest), Some(&smallest))'),
    ('smallest never above 0', 'view.rs', 'smallest, largest })\n', 'smallest: smallest.min(0), largest })\n'),
    ('largest never below 0', 'view.rs', 'smallest, largest })\n', 'smallest, largest: largest.max(0) })\n'),
    ('smallest and largest by size', 'view.rs', 'differences.iter().min(), differences.iter().max()',
     'differences.iter().min_by_key(|d| d.abs()), differences.iter().max_by_key(|d| d.abs())'),
    ('first and last for smallest and largest', 'view.rs', 'differences.iter().min(), differences.iter().max()',
     'differences.first(), differences.last()'),
    # order of its refusals
    ('1,150,001 bytes taken', 'view.rs', 'usize = 1_150_000;', 'usize = 1_150_001;'),
    ('10,001 lines taken', 'view.rs', 'usize = 1_150_000;', 'usize = 1_150_115;'),
    ('1,150,000 bytes too long', 'view.rs', 'usize = 1_150_000;', 'usize = 1_149_999;'),
    ('19 by whole lines', 'view.rs', LONG,
     'if first.len() / 115 > LONGEST_FILE / 115 || second.len() / 115 > LONGEST_FILE / 115 {'),
    ('19 for the first file alone', 'view.rs', ' || second.len() > LONGEST_FILE', ''),
    ('19 for the second file alone', 'view.rs', 'first.len() > LONGEST_FILE || ', ''),
    ('19 where both are too long', 'view.rs', LONG, LONG.replace('||', '&&')),
    ('19 for both together', 'view.rs', LONG, 'if first.len() + second.len() > LONGEST_FILE {'),
    ('19 for each file before it is read', 'view.rs', LONG + '\n        return Err(19);\n    }\n    ' + BOTH,
     'if first.len() > LONGEST_FILE { return Err(19); }\n    let first = sights(first)?;\n'
     '    if second.len() > LONGEST_FILE { return Err(19); }\n    let second = sights(second)?;'),
    ('19 after the files', 'view.rs', LONG + '\n        return Err(19);\n    }\n    ' + BOTH,
     'let long = first.len().max(second.len()) > LONGEST_FILE;\n    ' + BOTH + '\n    if long { return Err(19); }'),
    ('19 after 18', 'view.rs', LONG, LONG.replace('if ', 'if !first.is_empty() && !second.is_empty() && (')
     .replace(' {', ') {')),
    ('18 before the files', 'view.rs', BOTH,
     'if first.is_empty() || second.is_empty() { return Err(18); }\n    ' + BOTH),
    ('18 before the second file', 'view.rs', 'let second = sights(second)?;',
     'if first.is_empty() { return Err(18); }\n    let second = sights(second)?;'),
    ('18 never', 'view.rs', 'return Err(18);', 'return Ok(View { pairs: 0, sum: 0, smallest: 0, largest: 0 });'),
    ('18 for one pair', 'view.rs', DIFFERENCES, DIFFERENCES + '\n    if differences.len() == 1 { return Err(18); }'),
    ('second file of a view judged first', 'view.rs', BOTH,
     'let second = sights(second)?;\n    let first = sights(first)?;'),
    ('second file of a view not judged', 'view.rs', 'let second = sights(second)?;',
     'let second = sights(second).unwrap_or_default();'),
    ('15 in a view', 'view.rs', DIFFERENCES, 'if first.iter().any(|(keys, seen)| second.binary_search_by_key(keys, |s| s.0)'
     '.is_ok_and(|i| second[i].1 .0 != seen.0)) { return Err(15); }\n    ' + DIFFERENCES),
    # the lent report
    ('9 before 19', 'view.rs', FOUND, '    ' + FEW_LENT + ' return 9; }\n' + FOUND),
    ('9 before 18', 'view.rs', '        Err(refusal) => return refusal,',
     '        Err(18) if lent.len() < REPORT_VALUES => return 9,\n        Err(refusal) => return refusal,'),
    ('9 before the files', 'view.rs', '        Err(refusal) => return refusal,',
     '        Err(refusal) if refusal != 19 && lent.len() < REPORT_VALUES => return 9,\n'
     '        Err(refusal) => return refusal,'),
    ('9 for four lent values', 'view.rs', FEW_LENT, 'if lent.len() <= REPORT_VALUES {'),
    ('three lent values taken', 'view.rs', FEW_LENT, 'if lent.len() == 3 { lent.copy_from_slice(&[pairs, sum, smallest]); '
     'return 0; }\n    ' + FEW_LENT),
    ('pairs written on 9', 'view.rs', FEW_LENT, FEW_LENT + ' if let Some(first) = lent.first_mut() { *first = pairs; }'),
    ('a report of zeros on a refusal', 'view.rs', 'Err(refusal) => return refusal,',
     'Err(refusal) => { lent.fill(0); return refusal; }'),
    ('a fifth value', 'view.rs', REPORT, REPORT + ' if let Some(v) = lent.get_mut(4) { *v = 0; }'),
    ('smallest before sum', 'view.rs', '&[pairs, sum, smallest, largest]', '&[pairs, smallest, sum, largest]'),
    ('nothing reported', 'view.rs', REPORT, 'let _ = (pairs, sum, smallest, largest);'),
    ('a value past the lent report', 'EXPORTS', '    reference::view_values(',
     '    if report_len == 4 { *report.add(4) = 7; }\n    reference::view_values('),
    ('a value before the lent report', 'EXPORTS', '    reference::view_values(',
     '    if report_len == 5 { *report.sub(1) = 7; }\n    reference::view_values('),
    # stores of delays: what one is
    ('delays: version 3 taken', 'delays.rs', VERSIONS, VERSIONS.replace('2 => 4', '2 | 3 => 4')),
    ('delays: version 0 taken', 'delays.rs', VERSIONS, VERSIONS.replace('1 => 3', '0 | 1 => 3')),
    ('delays: version 2 alone', 'delays.rs', VERSIONS, VERSIONS.replace('        1 => 3,\n', '')),
    ('delays: version in one byte', 'delays.rs', 'u16::from_le_bytes([low, high]);', 'u16::from_le_bytes([low, high]) & 0xFF;'),
    ('delays: version big-endian', 'delays.rs', 'u16::from_le_bytes([low, high]);', 'u16::from_be_bytes([low, high]);'),
    ('delays: count in one byte', 'delays.rs', '[count_low, count_high]))', '[count_low, count_high]) & 0xFF)'),
    ('delays: count big-endian', 'delays.rs', 'u16::from_le_bytes([count_low', 'u16::from_be_bytes([count_low'),
    ('delays: 1001 entries', 'delays.rs', COUNTED, COUNTED.replace('MOST_ENTRIES', 'MOST_ENTRIES + 1')),
    ('delays: 999 entries', 'delays.rs', COUNTED, COUNTED.replace('count > MOST_ENTRIES', 'count >= MOST_ENTRIES')),
    ('delays: any number of entries', 'delays.rs', COUNTED, 'bytes.len() != store_bytes(count, in_group)'),
    ('delays: bytes over taken', 'delays.rs', COUNTED, COUNTED.replace('!= store_bytes', '< store_bytes')),
    ('delays: a byte over taken', 'delays.rs', COUNTED, COUNTED.replace('bytes.len() !=', 'bytes.len() & !1 !=')),
    ('delays: groups of four in version 1', 'delays.rs', VERSIONS, VERSIONS.replace('1 => 3', '1 => 4')),
    ('delays: groups of three in version 2', 'delays.rs', VERSIONS, VERSIONS.replace('2 => 4', '2 => 3'),
     'delays.rs', 'let gd = if self.version == 1 { 0 }', 'let gd = if self.in_group == 3 { 0 }'),
    ('delays: equal starts taken', 'delays.rs', 'before < start', 'before <= start'),
    ('delays: falling starts', 'delays.rs', 'before < start', 'before > start'),
    ('delays: starts in any order', 'delays.rs', SOUND, '!store.delays_fit()'),
    ('delays: the last start not compared', 'delays.rs', 'zip(self.starts().skip(1))',
     'zip(self.starts().skip(1).take(self.count.saturating_sub(2)))'),
    ('delays: the second start not compared', 'delays.rs', 'self.starts().zip(self.starts().skip(1))',
     'self.starts().skip(1).zip(self.starts().skip(2))'),
    ('delays: starts big-endian', 'delays.rs', 'u32::from_le_bytes(bytes', 'u32::from_be_bytes(bytes'),
    ('delays: starts of 16 bits', 'delays.rs', 'u32::from_le_bytes(bytes.try_into().expect("four bytes"))',
     'u32::from(u16::from_le_bytes([bytes[0], bytes[1]]))'),
    ('delays: starts compared as signed', 'delays.rs', 'before < start', '(before as i32) < start as i32'),
    ('delays: delays of any size', 'delays.rs', SOUND, '!store.rises()'),
    ('delays: a delay one beyond', 'delays.rs', 'delay_in(delay), CORRECTION_LIMIT', 'delay_in(delay), CORRECTION_LIMIT + 1'),
    ('delays: a delay at its limit refused', 'delays.rs', 'delay_in(delay), CORRECTION_LIMIT', 'delay_in(delay), CORRECTION_LIMIT - 1'),
    ('delays: no limit below 0', 'delays.rs', 'within(delay_in(delay), CORRECTION_LIMIT)', '(delay_in(delay) <= CORRECTION_LIMIT)'),
    ('delays: the last delay not tested', 'delays.rs', 'self.groups.chunks_exact(DELAY).all(',
     'self.groups.chunks_exact(DELAY).take((self.in_group * self.count).saturating_sub(1)).all('),
    ('delays: the first delay not tested', 'delays.rs', 'self.groups.chunks_exact(DELAY).all(',
     'self.groups.chunks_exact(DELAY).skip(1).all('),
    ('delays: GD not tested', 'delays.rs', 'self.groups.chunks_exact(DELAY).all(|delay| ',
     'self.groups.chunks_exact(DELAY).enumerate().all(|(i, delay)| (self.in_group == 4 && i % 4 == 3) || '),
    ('delays: delays tested in the entry in force alone', 'delays.rs', SOUND, '!store.rises()', 'delays.rs',
     '    Ok(store.set(entry))', '    let set = store.set(entry);\n    if [set.int, set.cab, set.refdly, set.gd].iter().any('
     '|d| !within(*d, CORRECTION_LIMIT)) { return Err(20); }\n    Ok(set)'),
    ('delays: an empty store refused', 'delays.rs', 'if ' + COUNTED, 'if count == 0 || ' + COUNTED),
    # which set is in force
    ('delays: a start on the date not taken', 'delays.rs', IN_FORCE, 'rposition(|start| start < mjd)'),
    ('delays: the first set always', 'delays.rs', IN_FORCE, 'position(|start| start <= mjd)'),
    ('delays: the last set always', 'delays.rs', IN_FORCE, 'rposition(|_| true)'),
    ('delays: the set before', 'delays.rs', 'Ok(store.set(entry))', 'Ok(store.set(entry.saturating_sub(1)))'),
    ('delays: the nearest start, later or not', 'delays.rs', 'store.starts().' + IN_FORCE,
     'store.starts().enumerate().min_by_key(|(_, start)| start.abs_diff(mjd)).map(|(i, _)| i)'),
    ('delays: dates compared as signed', 'delays.rs', IN_FORCE, 'rposition(|start| start as i32 <= mjd as i32)'),
    ('delays: the first set for an early date', 'delays.rs', '.ok_or(21u32)?', '.unwrap_or(0)', 'delays.rs',
     '    Ok(store.set(entry))', '    if store.count == 0 { return Err(21); }\n    Ok(store.set(entry))'),
    ('delays: 20 for an early date', 'delays.rs', '.ok_or(21u32)?', '.ok_or(20u32)?'),
    ('delays: 21 before 20', 'delays.rs', 'pub fn lookup(store: &[u8], mjd: u32) -> Result<Delays, u32> {\n',
     'pub fn lookup(store: &[u8], mjd: u32) -> Result<Delays, u32> {\n'
     '    if store.len() >= 8 && start_in(&store[4..8]) > mjd { return Err(21); }\n'),
    ('delays: CAB and REF exchanged', 'delays.rs', OF_ENTRY, OF_ENTRY.replace('delay(1)', 'delay(9)').replace('delay(2)', 'delay(1)').replace('delay(9)', 'delay(2)')),
    ('delays: INT for CAB', 'delays.rs', OF_ENTRY, OF_ENTRY.replace('delay(1)', 'delay(0)')),
    ('delays: GD read as 0 in version 2', 'delays.rs', 'if self.version == 1 { 0 }', 'if self.version <= 2 { 0 }'),
    ('delays: GD of version 1 read as REF', 'delays.rs', 'if self.version == 1 { 0 }', 'if self.version == 1 { delay(2) }'),
    ('delays: groups of three read as four', 'delays.rs', FROM, 'let from = (DELAY * 4 * entry).min(self.groups.len() - DELAY * self.in_group);'),
    ('delays: delays unsigned in 32 bits', 'delays.rs', 'i64::from_le_bytes(bytes.try_into().expect("eight bytes"))',
     'i64::from(u32::from_le_bytes([bytes[0], bytes[1], bytes[2], bytes[3]]))'),
    ('delays: delays big-endian', 'delays.rs', 'i64::from_le_bytes(bytes', 'i64::from_be_bytes(bytes'),
    # the lent delays
    ('delays: 9 before 20', 'delays.rs', LOOKED, '    ' + FEW_DELAYS + ' return 9; }\n' + LOOKED),
    ('delays: 9 before 21', 'delays.rs', LOOKED, LOOKED.replace('        Err(refusal)', '        Err(21) if lent.len() < SET_VALUES => return 9,\n        Err(refusal)')),
    ('delays: 9 for four lent', 'delays.rs', FEW_DELAYS, 'if lent.len() <= SET_VALUES {'),
    ('delays: three lent taken', 'delays.rs', FEW_DELAYS, 'if lent.len() == 3 { lent.copy_from_slice(&[int, cab, refdly]); return 0; }\n    ' + FEW_DELAYS),
    ('delays: INT written on 9', 'delays.rs', FEW_DELAYS, FEW_DELAYS + ' if let Some(first) = lent.first_mut() { *first = int; }'),
    ('delays: zeros on a refusal', 'delays.rs', LOOKED, LOOKED.replace('return refusal,', '{ lent.fill(0); return refusal; }')),
    ('delays: a fifth number', 'delays.rs', IN_LENT, IN_LENT + ' if let Some(v) = lent.get_mut(4) { *v = 0; }'),
    ('delays: nothing lent written', 'delays.rs', IN_LENT, 'let _ = (int, cab, refdly, gd);'),
    # one entry more
    ('append to delays: a new delay of any size', 'delays.rs', NEW_FITS, 'store.version == 1 && set.gd != 0'),
    ('append to delays: a new GD not tested', 'delays.rs', '[set.int, set.cab, set.refdly, set.gd].iter().all(', '[set.int, set.cab, set.refdly].iter().all('),
    ('append to delays: a new delay one beyond', 'delays.rs', 'within(*delay, CORRECTION_LIMIT)', 'within(*delay, CORRECTION_LIMIT + 1)'),
    ('append to delays: GD in version 1 taken', 'delays.rs', NEW_FITS, '!fits'),
    ('append to delays: GD refused in version 2', 'delays.rs', NEW_FITS, '!fits || set.gd != 0'),
    ('append to delays: the same date taken', 'delays.rs', LATER, LATER.replace('mjd <= last', 'mjd < last')),
    ('append to delays: any date taken', 'delays.rs', LATER, 'store.count == MOST_ENTRIES'),
    ('append to delays: later than the first', 'delays.rs', LATER, LATER.replace('next_back()', 'next()')),
    ('append to delays: at 1000', 'delays.rs', LATER, LATER.replace(' || store.count == MOST_ENTRIES', '')),
    ('append to delays: at 999 refused', 'delays.rs', LATER, LATER.replace('== MOST_ENTRIES', '>= MOST_ENTRIES - 1')),
    ('append to delays: date 0 refused', 'delays.rs', LATER, 'mjd == 0 || ' + LATER),
    ('append to delays: 22 before 20', 'delays.rs', '    let fits = ', '    if ' + LATER + ' { return Err(22); }\n    let fits = '),
    ('append to delays: 9 before 22', 'delays.rs', '    if ' + LATER, '    if lent.len() < store_bytes(store.count + 1, store.in_group) { return Err(9); }\n    if ' + LATER),
    ('append to delays: 9 for the room it takes', 'delays.rs', NO_ROOM, 'if lent.len() <= bytes.len() {'),
    ('append to delays: 17 for the room', 'delays.rs', NO_ROOM + '\n        return Err(9);', NO_ROOM + '\n        return Err(17);'),
    ('append to delays: a cut store written', 'delays.rs', NO_ROOM, NO_ROOM + ' let n = lent.len(); lent.copy_from_slice(&bytes[..n]);'),
    ('append to delays: the count as it was', 'delays.rs', NEW_COUNT, '(store.count as u16)'),
    ('append to delays: count big-endian', 'delays.rs', NEW_COUNT + '.to_le_bytes()', NEW_COUNT + '.to_be_bytes()'),
    ('append to delays: version 2 always', 'delays.rs', 'bytes.extend(store.version.to_le_bytes());', 'bytes.extend(2u16.to_le_bytes());'),
    ('append to delays: the date behind the groups', 'delays.rs', NEW_START, '', 'delays.rs', '    let set = [set.int, set.cab, set.refdly, set.gd];\n    set[',
     NEW_START + '    let set = [set.int, set.cab, set.refdly, set.gd];\n    set['),
    ('append to delays: the new group first', 'delays.rs', '    bytes.extend(store.groups);\n', '', 'delays.rs', 'bytes.extend(delay.to_le_bytes()));\n    bytes\n',
     'bytes.extend(delay.to_le_bytes()));\n    bytes.extend(store.groups);\n    bytes\n'),
    ('append to delays: the new date first', 'delays.rs', '    bytes.extend(store.starts);\n' + NEW_START, NEW_START + '    bytes.extend(store.starts);\n'),
    ('append to delays: CAB and REF exchanged', 'delays.rs', NEW_SET, NEW_SET.replace('set.cab, set.refdly', 'set.refdly, set.cab')),
    ('append to delays: bytes beyond cleared', 'delays.rs', WRITTEN, WRITTEN + ' lent[bytes.len()..].fill(0);'),
    ('append to delays: a byte beyond', 'delays.rs', WRITTEN, WRITTEN + ' if let Some(v) = lent.get_mut(bytes.len()) { *v = 0; }'),
    ('append to delays: nothing written', 'delays.rs', WRITTEN, ''),
    ('append to delays: the length as it was', 'delays.rs', '    Ok(bytes.len())', '    Ok(bytes.len() - START - DELAY * store.in_group)'),
    ('append to delays: written on a refusal', 'EXPORTS', '    match reference::append(', '    *written = 0;\n    match reference::append('),
    ('append to delays: a byte past the lent store', 'EXPORTS', '    match reference::append(',
     '    if longer_len == 40 { *longer.add(40) = 7; }\n    match reference::append('),
    ('delays: a value past the lent ones', 'EXPORTS', '    reference::lookup_values(',
     '    if delays_len == 4 { *delays.add(4) = 7; }\n    reference::lookup_values('),
    # a day at once: where a block ends, and where the set does
    ('day of full blocks alone', 'day.rs', DAY_LENGTH, '8378.min(bytes.len())'),
    ('day whose blocks are 8 bytes longer', 'day.rs', DAY_LENGTH, '(block_bytes(n) + 8).min(bytes.len())'),
    ('day that ends with up to three bytes', 'day.rs', DAY_END, 'while rest.len() >= 4 {'),
    ('day that ends with a cut block', 'day.rs', DAY_END,
     'while !rest.is_empty() && sizes(rest).map_or(true, |n| block_bytes(n) <= rest.len()) {'),
    ('day that ends with bytes of no sizes', 'day.rs', DAY_END, 'while !rest.is_empty() && sizes(rest) != Err(1) {'),
    ('day without its last block', 'day.rs', DAY_END, 'while rest.len() > own_length(rest) || count == 0 && !rest.is_empty() {'),
    ('day without its first block', 'day.rs', DAY_COPY, 'let lines = &lines[lines.len().min(115)..];\n    ' + DAY_COPY),
    ('day of 10,000 blocks', 'day.rs', DAY_END, 'while !rest.is_empty() && count < 10_000 {'),
    # its order
    ('day with equal keys', 'day.rs', DAY_KEYS, 'if before.is_some_and(|before| before > keys) {'),
    ('day in any order', 'day.rs', DAY_KEYS, 'if before.is_some_and(|before| before == keys) {'),
    ('day by date and start alone', 'day.rs', DAY_KEYS,
     'if before.is_some_and(|before| before == keys || (before.0, before.1) > (keys.0, keys.1)) {'),
    ('day by the letter before the start', 'day.rs', DAY_KEYS,
     'if before.is_some_and(|before| (before.0, before.2, before.1, before.3) >= (keys.0, keys.2, keys.1, keys.3)) {'),
    ('day by the satellite before the letter', 'day.rs', DAY_KEYS,
     'if before.is_some_and(|before| (before.0, before.1, before.3, before.2) >= (keys.0, keys.1, keys.3, keys.2)) {'),
    ('day behind its first block alone', 'day.rs', 'Some(keys), count + 1', 'before.or(Some(keys)), count + 1'),
    ('day in any order from 10,000 on', 'day.rs', DAY_KEYS, DAY_KEYS.replace('if ', 'if lines.len() != 10_000 * 115 && ')),
    ('day in any order from 1024 on', 'day.rs', DAY_KEYS, DAY_KEYS.replace('if ', 'if lines.len() != 1024 * 115 && ')),
    ('day in any order from 32 on', 'day.rs', DAY_KEYS, DAY_KEYS.replace('if ', 'if lines.len() != 32 * 115 && ')),
    ('day with 16 before the block', 'day.rs', DAY_BLOCK,
     'if bytes.len() > 58 && before.is_some_and(|before| before >= keys(&labels(bytes))) { return Err(16); }\n    ' + DAY_BLOCK),
    ('day with 15 for 16', 'day.rs', 'return Err(16);', 'return Err(15);'),
    # the block that is named
    ('day counted from 1', 'day.rs', DAY_FOLLOW, DAY_FOLLOW.replace('block: count', 'block: count + 1')),
    ('day that names the block before', 'day.rs', DAY_FOLLOW, DAY_FOLLOW.replace('block: count', 'block: count.max(1) - 1')),
    ('day counted to 255', 'day.rs', DAY_FOLLOW, DAY_FOLLOW.replace('block: count', 'block: count % 256')),
    ('day counted to 9999', 'day.rs', DAY_FOLLOW, DAY_FOLLOW.replace('block: count', 'block: count % 10_000')),
    ('day that names the last offending block', 'day.rs', DAY_END,
     'let mut found = None;\n    ' + DAY_END, 'day.rs', DAY_FOLLOW,
     'let keys = match follow(first, before, &mut lines) { Ok(keys) => keys, Err(number) => { found = Some(Offence { number, block: '
     'count }); (rest, count) = (behind, count + 1); continue; } };', 'day.rs', DAY_ROOM,
     'if let Some(offence) = found { return Err(offence); }\n    ' + DAY_ROOM),
    # its room
    ('day with 9 for the room it needs', 'day.rs', DAY_ROOM, 'if lent.len() <= lines.len() && count > 0 {'),
    ('day with 9 for no blocks', 'day.rs', DAY_ROOM, 'if lent.len() < lines.len() || lent.is_empty() {'),
    ('day with 9 before a later block', 'day.rs', DAY_FOLLOW, DAY_FOLLOW +
     '\n        if lent.len() < lines.len() { return Err(Offence { number: 9, block: count + 1 }); }'),
    ('day with 9 before the blocks', 'day.rs', DAY_END, 'if lent.len() < 115 && blocks.len() >= 698 { return Err(Offence { number: 9, '
     'block: blocks.len() / 698 }); }\n    ' + DAY_END),
    ('day with 9 of the last block', 'day.rs', DAY_LENT, DAY_LENT.replace('block: count', 'block: count - 1')),
    ('day with 9 of block 0', 'day.rs', DAY_LENT, DAY_LENT.replace('block: count', 'block: 0')),
    ('day with 17 for 9', 'day.rs', DAY_LENT, DAY_LENT.replace('9', '17')),
    # what is written
    ('day written before a refusal', 'day.rs', DAY_FOLLOW, 'if lines.len() <= lent.len() { ' + DAY_COPY + ' }\n        ' + DAY_FOLLOW),
    ('day with the rest cleared', 'day.rs', DAY_COPY, DAY_COPY + '\n    lent[lines.len()..].fill(0);'),
    ('day with its last line lost', 'day.rs', DAY_COPY,
     'let few = lines.len().saturating_sub(115);\n    lent[..few].copy_from_slice(&lines[..few]);'),
    ('day with line feed before return', 'day.rs', 'b"\\r\\n"', 'b"\\n\\r"'),
    ('day with line feed alone', 'day.rs', 'b"\\r\\n"', 'b" \\n"'),
    ('day in lines for bytes', 'day.rs', 'Ok(lines.len())', 'Ok(lines.len() / 115)'),
    ('day in columns for bytes', 'day.rs', 'Ok(lines.len())', 'Ok(113 * count)'),
    ('day with the first line from 10,000 on', 'day.rs', DAY_COPY,
     'for i in 10_000..count { lines.copy_within(..115, 115 * i); }\n    ' + DAY_COPY),
    ('day with the first line from 1024 on', 'day.rs', DAY_COPY,
     'for i in 1024..count { lines.copy_within(..115, 115 * i); }\n    ' + DAY_COPY),
    ('day with written set on a refusal', 'EXPORTS', '*block = offence.block; offence.number', '*block = offence.block; *written = 0; offence.number'),
    ('day with block set where it accepts', 'EXPORTS', 'reference::day(bytes(blocks, blocks_len), lent(file, file_len)) {\n        Ok(length) => {',
     'reference::day(bytes(blocks, blocks_len), lent(file, file_len)) {\n        Ok(length) => { *block = 0;'),
    ('day that names no block for 9', 'EXPORTS', '*block = offence.block; offence.number',
     'if offence.number != 9 { *block = offence.block; } offence.number'),
    ('a byte past the lent day', 'EXPORTS', 'match reference::day(', 'if file_len == 345 { *file.add(345) = 7; }\n    match reference::day('),
    ('a byte before the lent day', 'EXPORTS', 'match reference::day(', 'if file_len == 346 { *file.sub(1) = 7; }\n    match reference::day('),
    # a path: its length
    ('the nearest length for the floor', 'path.rs', ROOT,
     'let floor = u128::from(root(sum)); Ok((floor + u128::from(floor * (floor + 1) < sum)) as f64)'),
    ('a length rounded up', 'path.rs', ROOT, 'let floor = u128::from(root(sum)); Ok((floor + u128::from(floor * floor < sum)) as f64)'),
    ('a length below a perfect square', 'path.rs', 'u128::from(longer) <= sum', 'u128::from(longer) < sum'),
    ('a length by the root of a float', 'path.rs', ROOT, 'Ok((sum as f64).sqrt().floor())'),
    ('a length from a sum of floats', 'path.rs', ROOT, 'let _ = sum; let d = [0, 1, 2].map(|i| (numbers[i] - numbers[i + 3]) as f64);\n'
     '    Ok((d[0] * d[0] + d[1] * d[1] + d[2] * d[2]).sqrt().floor())'),
    ('a length mended upward alone', 'path.rs', ROOT, 'let near = (sum as f64).sqrt() as u128;\n'
     '    Ok((if (near + 1) * (near + 1) <= sum { near + 1 } else { near }) as f64)'),
    ('a length of 37 bits', 'path.rs', '(0..38).rev()', '(0..37).rev()'),
    ('a length as a single float', 'path.rs', ROOT, 'Ok(f64::from(root(sum) as f32))'),
    ('a length with its fraction', 'path.rs', ROOT, 'let _ = root; Ok((sum as f64).sqrt())'),
    ('the sum of squares in 64 bits', 'path.rs', ROOT, 'Ok(root(u128::from(sum as u64)) as f64)'),
    ('the sum of squares in 74 bits', 'path.rs', ROOT, 'Ok(root(sum & ((1 << 74) - 1)) as f64)'),
    ('Z left out of a path', 'path.rs', ' + square(2);', ';'),
    ('X left out of a path', 'path.rs', 'square(0) + ', ''),
    ('coordinates of a path added', 'path.rs', SQUARES, SQUARES.replace('abs_diff(numbers[i + 3])', 'abs_diff(-numbers[i + 3])')),
    ('Z of the satellite for that of the antenna', 'path.rs', SQUARES, 'numbers[5] = numbers[2];\n    ' + SQUARES),
    ('X and Y of the antenna exchanged', 'path.rs', SQUARES, 'numbers.swap(3, 4);\n    ' + SQUARES),
    ('X and Y exchanged in the call', 'EXPORTS', 'Point { x: xs, y: ys, z: zs }', 'Point { x: ys, y: xs, z: zs }'),
    ('differences added up', 'path.rs', SQUARES, SQUARES.replace('.pow(2)', ''), 'path.rs', SUM_OF_SQUARES,
     SUM_OF_SQUARES.replace('= ', '= (').replace(';', ').pow(2);')),
    ('a length of minus zero', 'path.rs', ROOT, 'Ok(if sum == 0 { -0.0 } else { root(sum) as f64 })'),
    ('minus zero of a minus zero', 'path.rs', ROOT, 'let zero = if given[0].is_sign_negative() { -0.0 } else { 0.0 };\n'
     '    Ok(if sum == 0 { zero } else { root(sum) as f64 })'),
    # a path: what is whole, and within the limit
    ('minus zero is not whole', 'path.rs', '0x7FF => return None,', '0x7FF => return None,\n        0 if bits == 1 << 63 => return None,'),
    ('subnormal floats taken for 0', 'path.rs', SUBNORMAL, '0 => (0, -1074),'),
    ('the least float taken for 0', 'path.rs', SUBNORMAL, '0 => (fraction & !1, -1074),'),
    ('parts of a millimetre cut', 'path.rs', 'significand.trailing_zeros() as i32 >= -power {\n        significand >> -power',
     'true {\n        significand >> (-power).min(120)'),
    ('half a millimetre taken', 'path.rs', 'significand.trailing_zeros() as i32 >= -power',
     'significand.trailing_zeros() as i32 + 1 >= -power'),
    ('a whole number too small by its last bit', 'path.rs', 'significand.trailing_zeros() as i32 >= -power',
     'significand.trailing_zeros() as i32 > -power'),
    ('infinity is outside', 'path.rs', '0x7FF => return None,', '0x7FF if fraction == 0 => return Some(i128::MAX),\n        0x7FF => return None,'),
    ('not a number is outside', 'path.rs', '0x7FF => return None,', '0x7FF if fraction != 0 => return Some(i128::MAX),\n        0x7FF => return None,'),
    ('not a number is 0', 'path.rs', '0x7FF => return None,', '0x7FF if fraction != 0 => return Some(0),\n        0x7FF => return None,'),
    ('huge floats are not whole', 'path.rs', TOO_LARGE, 'if power > 70 {\n            return None'),
    ('huge floats are 0', 'path.rs', TOO_LARGE, 'if power > 70 {\n            0'),
    ('coordinates of 64 bits', 'path.rs', WHOLE, '*number = i128::from(whole(coordinate).ok_or(23u32)? as i64);'),
    ('5 x 10^10 refused', 'path.rs', OUTSIDE, OUTSIDE.replace('..=MOST', '..MOST')),
    ('-5 x 10^10 refused', 'path.rs', OUTSIDE, OUTSIDE.replace('(-MOST_COORDINATE', '(1 - MOST_COORDINATE')),
    ('a coordinate one beyond the limit', 'path.rs', OUTSIDE, OUTSIDE.replace('=MOST_COORDINATE)', '=MOST_COORDINATE + 1)')),
    ('a coordinate one below the limit', 'path.rs', OUTSIDE, OUTSIDE.replace('(-MOST', '(-1 - MOST')),
    ('Z of the antenna without a limit', 'path.rs', OUTSIDE, OUTSIDE.replace('numbers.iter()', 'numbers[..5].iter()'),
     'path.rs', SQUARES, 'numbers[5] = numbers[5].clamp(-1 << 40, 1 << 40);\n    ' + SQUARES),
    ('the limit on differences', 'path.rs', OUTSIDE, '(0..3).any(|i| numbers[i].saturating_sub(numbers[i + 3]).abs() > 2 * MOST_COORDINATE)'),
    ('24 for 23', 'path.rs', 'ok_or(23u32)', 'ok_or(24u32)'),
    ('23 and 24 exchanged', 'path.rs', 'ok_or(23u32)', 'ok_or(24u32)', 'path.rs', 'return Err(24);', 'return Err(23);'),
    ('24 before 23', 'path.rs', 'let mut numbers = [0; 6];',
     'if given.iter().any(|v| v.abs() > MOST_COORDINATE as f64 && whole(*v).is_some()) {\n        return Err(24);\n    }\n    let mut numbers = [0; 6];'),
    ('each coordinate judged whole', 'path.rs', WHOLE, WHOLE + '\n        if number.abs() > MOST_COORDINATE {\n            return Err(24);\n        }'),
    ('the satellite judged before the antenna', 'path.rs', 'let mut numbers = [0; 6];',
     'if given[..3].iter().all(|v| whole(*v).is_some()) && given[..3].iter().any(|v| v.abs() > MOST_COORDINATE as f64) {\n'
     '        return Err(24);\n    }\n    let mut numbers = [0; 6];'),
    # the lent length
    ('a length of 0 on a refusal', 'EXPORTS', LENGTH_WRITTEN, '*length = answer.unwrap_or(0.0);'),
    ('no length written', 'EXPORTS', LENGTH_WRITTEN, 'let _ = length;'),
    ('no length of 0 written', 'EXPORTS', LENGTH_WRITTEN, LENGTH_WRITTEN.replace('Ok(found)', 'Ok(found @ 1.0..)')),
    ('a number behind the length', 'EXPORTS', LENGTH_WRITTEN, LENGTH_WRITTEN.replace(' }', ' *length.add(1) = found; }')),
    # down to version 01
    ('down: R goes down', 'version01.rs', DOWN_LETTER, "if labels.constellation != b'G' && labels.constellation != b'R' {"),
    ('down: J goes down', 'version01.rs', DOWN_LETTER, "if labels.constellation != b'G' && labels.constellation != b'J' {"),
    ('down: every letter goes down', 'version01.rs', DOWN_LETTER, DOWN_LETTER.replace("b'G'", 'labels.constellation')),
    ('down: letter kept', 'version01.rs', DOWN_TEXT, DOWN_TEXT.replace('b" ", &line[1..', '&line[..1], &line[1..')),
    ('down: a zero in column 1', 'version01.rs', DOWN_TEXT, DOWN_TEXT.replace('b" "', 'b"0"')),
    ('down: CK of 103 columns', 'version01.rs', DOWN_TEXT, 'let mut old = with_check([b" ", &line[1..103]].concat()); old.drain(101..103); Ok(old)'),
    ('down: CK of 100 columns', 'version01.rs', DOWN_TEXT, 'let mut old = with_check([b" ", &line[1..100]].concat()); old.insert(100, b\' \'); Ok(old)'),
    ('down: CK of columns 2 to 101', 'version01.rs', DOWN_TEXT, 'let mut old = with_check(line[1..SHARED].to_vec()); old.insert(0, b\' \'); Ok(old)'),
    ('down: CK with the letter', 'version01.rs', DOWN_TEXT, 'let mut old = with_check(line[..SHARED].to_vec()); old[0] = b\' \'; Ok(old)'),
    ('down: CK as it stood', 'version01.rs', DOWN_TEXT, 'Ok([b" ", &line[1..SHARED], &line[111..113]].concat())'),
    ('down: CK in small letters', 'version01.rs', DOWN_TEXT, 'let mut old = with_check([b" ", &line[1..SHARED]].concat()); old.make_ascii_lowercase(); old[4] = line[4]; old[5] = line[5]; Ok(old)'),
    ('down: comment kept', 'version01.rs', DOWN_TEXT, 'let mut old = with_check([b" ", &line[1..SHARED]].concat()); old.extend(&line[113..]); Ok(old)'),
    ('down: FR, HC and FRC kept', 'version01.rs', DOWN_TEXT, 'Ok(with_check([b" ", &line[1..111]].concat()))'),
    ('down: the air left out', 'version01.rs', DOWN_TEXT, DOWN_TEXT.replace('&line[1..SHARED]', '&line[1..81], &[b\' \'; 20]')),
    ('down: comments refused', 'version01.rs', DOWN_READ, 'if line.len() > 113 { return Err(12); }\n    ' + DOWN_READ),
    ('down: comment not judged', 'version01.rs', DOWN_READ, 'let (labels, _) = read(&line[..line.len().min(113)])?;'),
    ('down: 25 before the reader', 'version01.rs', DOWN_READ, 'if line.first() != Some(&b\'G\') { return Err(25); }\n    ' + DOWN_READ),
    ('down: 25 before 8', 'version01.rs', DOWN_READ,
     "let (labels, _) = match read(line) { Err(8) if line[0] != b'G' => return Err(25), other => other? };"),
    ('down: 25 before 7', 'version01.rs', DOWN_READ,
     "let (labels, _) = match read(line) { Err(7) if line[0] != b'G' => return Err(25), other => other? };"),
    ('down: 13 for 25', 'version01.rs', 'Err(25)', 'Err(13)'),
    ('down: 7 for 25', 'version01.rs', 'Err(25)', 'Err(7)'),
    ('down: 9 before 25', 'version01.rs', GO_DOWN, '    if lent.len() < 103 && lowered(line) == Err(25) { return 9; }\n' + GO_DOWN),
    ('down: 9 before 8', 'version01.rs', GO_DOWN, '    if lent.len() < 103 && lowered(line) == Err(8) { return 9; }\n' + GO_DOWN),
    ('down: 9 first', 'version01.rs', GO_DOWN, '    if lent.len() < 103 { return 9; }\n' + GO_DOWN),
    ('down: room of 113 asked for', 'version01.rs', GO_DOWN, '    if lent.len() < 113 && lowered(line).is_ok() { return 9; }\n' + GO_DOWN),
    ('down: 9 for the room it takes', 'version01.rs', PUT_ROOM, 'if lent.len() <= text.len() {'),
    ('down: a cut line written', 'version01.rs', PUT_ROOM, 'if lent.len() == 102 { lent.copy_from_slice(&text[..102]); return 0; }\n    ' + PUT_ROOM),
    ('down: a 104th byte', 'version01.rs', PUT_TEXT, PUT_TEXT + ' if text.len() == 103 && lent.len() > 103 { lent[103] = 0; }'),
    ('down: a line end', 'version01.rs', PUT_TEXT, PUT_TEXT + ' if text.len() == 103 && lent.len() > 104 { lent[103] = 13; lent[104] = 10; }'),
    ('down: the rest cleared', 'version01.rs', PUT_TEXT, PUT_TEXT + ' if text.len() == 103 { lent[103..].fill(b\' \'); }'),
    ('down: nothing written', 'version01.rs', PUT_TEXT, 'if text.len() == 113 { lent[..text.len()].copy_from_slice(&text); }'),
    ('down: written on 25', 'version01.rs', PUT_REFUSAL, PUT_REFUSAL.replace('return refusal', '{ if refusal == 25 && !lent.is_empty() { lent[0] = b\' \'; } return refusal; }')),
    ('down: written on 9', 'version01.rs', PUT_ROOM, PUT_ROOM + ' if text.len() == 103 && !lent.is_empty() { lent[0] = b\' \'; }'),
    ('down: a byte past the lent line', 'EXPORTS', '    reference::down(', '    if old_len == 103 { *old.add(103) = 7; }\n    reference::down('),
    ('down: a byte before the lent line', 'EXPORTS', '    reference::down(', '    if old_len == 104 { *old.sub(1) = 7; }\n    reference::down('),
    # up from version 01: lengths, CK and characters
    ('up: 27 comment bytes taken', 'version01.rs', 'usize = 128', 'usize = 130'),
    ('up: 26 comment bytes taken', 'version01.rs', 'usize = 128', 'usize = 129'),
    ('up: 24 comment bytes taken', 'version01.rs', 'usize = 128', 'usize = 127'),
    ('up: no comment taken', 'version01.rs', UP_LENGTH, 'if old.len() != OLD_BYTES {'),
    ('up: CK not looked at', 'version01.rs', UP_CHECK, UP_CHECK.replace('!= columns', '!= columns && false')),
    ('up: CK of 103 columns', 'version01.rs', UP_CHECK, 'if with_check(columns.to_vec())[103..] != columns[101..] {'),
    ('up: CK of columns 2 to 101', 'version01.rs', UP_CHECK, 'if with_check(columns[1..SHARED].to_vec())[100..] != columns[101..] {'),
    ('up: CK with the letter G', 'version01.rs', UP_CHECK, 'if with_check([b"G", &columns[1..SHARED]].concat())[101..] != columns[101..] {'),
    ('up: CK in small letters', 'version01.rs', UP_CHECK, 'if with_check(columns[..SHARED].to_vec())[101..] != columns[101..].to_ascii_uppercase() {'),
    ('up: CK by its first digit', 'version01.rs', UP_CHECK, 'if with_check(columns[..SHARED].to_vec())[101] != columns[101] {'),
    ('up: column 1 not looked at', 'version01.rs', UP_CHARACTERS, 'if !characters_fit(&filled, comment) {'),
    ('up: a G in column 1 taken', 'version01.rs', UP_CHARACTERS, UP_CHARACTERS.replace("columns[0] != b' '", "!b\" G\".contains(&columns[0])")),
    ('up: a digit in column 1 taken', 'version01.rs', UP_CHARACTERS, UP_CHARACTERS.replace("columns[0] != b' '", "!b\" 01\".contains(&columns[0])")),
    ('up: comment not looked at', 'version01.rs', UP_CHARACTERS, UP_CHARACTERS.replace('comment)', 'b"")')),
    ('up: last comment byte not looked at', 'version01.rs', UP_CHARACTERS, UP_CHARACTERS.replace('comment)', '&comment[..comment.len().min(24)])')),
    ('up: first comment byte not looked at', 'version01.rs', UP_CHARACTERS, UP_CHARACTERS.replace('comment)', '&comment[comment.len().min(1)..])')),
    ('up: a satellite of one digit', 'version01.rs', UP_CHARACTERS, "let mut filled = filled; if filled[1] == b' ' { filled[1] = b'0'; }\n    " + UP_CHARACTERS),
    ('up: column 101 not looked at', 'version01.rs', UP_CHARACTERS, "let mut filled = filled; filled[100] = b' ';\n    " + UP_CHARACTERS),
    # what is supplied, labels and start
    ('up: HC above 99 taken', 'version01.rs', UP_SUPPLIED, 'let labels = Labels { hc: 0, frc, ..labels(&filled) };'),
    ('up: HC above 99 cut to two digits', 'version01.rs', UP_SUPPLIED, 'let hc = hc % 100;\n    ' + UP_SUPPLIED),
    ('up: HC of 100 taken as 99', 'version01.rs', UP_SUPPLIED, 'let hc = if hc == 100 { 99 } else { hc };\n    ' + UP_SUPPLIED),
    ('up: HC 99 refused', 'version01.rs', UP_SUPPLIED, 'if hc == 99 { return Err(7); }\n    ' + UP_SUPPLIED),
    ('up: FRC not judged', 'version01.rs', UP_SUPPLIED, 'let labels = Labels { hc, ..labels(&filled) };'),
    ('up: last of FRC not judged', 'version01.rs', UP_SUPPLIED, "let labels = Labels { hc, frc: [frc[0], frc[1], b'C'], ..labels(&filled) };"),
    ('up: small letters in FRC made capital', 'version01.rs', UP_SUPPLIED, 'let frc = frc.map(|c| c.to_ascii_uppercase());\n    ' + UP_SUPPLIED),
    ('up: 13 for a supplied FRC', 'version01.rs', UP_SUPPLIED, 'if !(%s) && hc <= 99 { return Err(13); }\n    ' % SUPPLIED_FITS + UP_SUPPLIED),
    ('up: what is supplied before 13', 'version01.rs', UP_CHARACTERS, 'if !(%s) { return Err(7); }\n    ' % SUPPLIED_FITS + UP_CHARACTERS),
    ('up: what is supplied before 12', 'version01.rs', UP_LENGTH, 'if !(%s) { return Err(7); }\n    ' % SUPPLIED_FITS + UP_LENGTH),
    ('up: what is supplied after the start', 'version01.rs', UP_SUPPLIED, 'let labels = labels(&filled);', 'version01.rs', UP_TEXT,
     'if !(%s) { return Err(7); }\n    ' % SUPPLIED_FITS + UP_TEXT),
    ('up: IOE of E', 'version01.rs', UP_SUPPLIED, UP_SUPPLIED.replace('hc, frc', "constellation: b'E', hc, frc")),
    ('up: IOE of C', 'version01.rs', UP_SUPPLIED, UP_SUPPLIED.replace('hc, frc', "constellation: b'C', hc, frc")),
    ('up: labels not judged', 'version01.rs', UP_LABELS, UP_LABELS.replace('!labels.in_range()', '!(labels.mjd >= 50722 && %s)' % SUPPLIED_FITS)),
    ('up: track length not judged', 'version01.rs', UP_LABELS, 'if !labels.in_range() {'),
    ('up: full tracks alone', 'version01.rs', UP_LABELS, 'if !labels.in_range() || numbers(&filled).trkl != 780 {'),
    ('up: start not judged', 'version01.rs', UP_START, 'if !starts(&filled, &labels) && false {'),
    ('up: 24:02:00 taken', 'version01.rs', UP_START, 'if crate::start(labels.mjd, labels.start % 86400) != 0 {'),
    ('up: 8 before 7', 'version01.rs', UP_LABELS, 'if labels.start >= 86400 { return Err(8); }\n    ' + UP_LABELS),
    ('up: 7 before 13', 'version01.rs', UP_CHARACTERS, 'if &columns[1..3] == b"00" { return Err(7); }\n    ' + UP_CHARACTERS),
    ('up: 13 before 14', 'version01.rs', UP_CHECK, "if columns[0] != b' ' { return Err(13); }\n    " + UP_CHECK),
    ('up: 14 for 13', 'version01.rs', "return Err(13);", "return Err(14);"),
    # what is written
    ('up: FR 1', 'version01.rs', UP_BEHIND, UP_BEHIND.replace('"00 ', '"01 ')),
    ('up: FR by the HC', 'version01.rs', UP_BEHIND, UP_BEHIND.replace('"00 ', '"{hc:02} ')),
    ('up: HC 0 always', 'version01.rs', UP_BEHIND, UP_BEHIND.replace('{hc:02}', '00')),
    ('up: HC in hexadecimal', 'version01.rs', UP_BEHIND, UP_BEHIND.replace('{hc:02}', '{hc:02X}')),
    ('up: HC filled with a blank', 'version01.rs', UP_BEHIND, UP_BEHIND.replace('{hc:02}', '{hc:2}')),
    ('up: FRC backwards', 'version01.rs', UP_BEHIND, UP_BEHIND.replace('&frc', '&[frc[2], frc[1], frc[0]]')),
    ('up: L1C always', 'version01.rs', UP_BEHIND, UP_BEHIND.replace('&frc', 'b"L1C"')),
    ('up: letter E', 'version01.rs', UP_TEXT, UP_TEXT.replace('b"G"', 'b"E"')),
    ('up: column 1 kept', 'version01.rs', UP_TEXT, UP_TEXT.replace('b"G"', 'b" "')),
    ('up: CK as it stood', 'version01.rs', UP_TEXT, 'Ok([b"G", shared, %s.concat())' % UP_BEHIND.replace('b" "]', 'b" ", &columns[101..]]')),
    ('up: comment kept', 'version01.rs', UP_TEXT, 'let mut line = with_check([b"G", shared, %s.concat()); line.extend(comment); Ok(line)' % UP_BEHIND),
    ('up: comment kept where there is room', 'version01.rs', GO_UP, '    let answer = put(raised(old, hc, frc), lent);\n'
     '    if answer == 0 && old.len() > 103 && lent.len() >= 10 + old.len() { lent[113..10 + old.len()].copy_from_slice(&old[103..]); }\n    answer'),
    ('up: 9 before 8', 'version01.rs', GO_UP, '    if lent.len() < 113 && raised(old, hc, frc) == Err(8) { return 9; }\n' + GO_UP),
    ('up: 9 before 7', 'version01.rs', GO_UP, '    if lent.len() < 113 && raised(old, hc, frc) == Err(7) { return 9; }\n' + GO_UP),
    ('up: 9 first', 'version01.rs', GO_UP, '    if lent.len() < 113 { return 9; }\n' + GO_UP),
    ('up: room of 103 enough', 'version01.rs', PUT_ROOM, 'if (103..113).contains(&lent.len()) { let n = lent.len(); lent.copy_from_slice(&text[..n]); return 0; }\n    ' + PUT_ROOM),
    ('up: 9 at 113', 'version01.rs', PUT_ROOM, 'if lent.len() < text.len() + text.len() / 113 {'),
    ('up: a 114th byte', 'version01.rs', PUT_TEXT, PUT_TEXT + ' if text.len() == 113 && lent.len() > 113 { lent[113] = 0; }'),
    ('up: the rest cleared', 'version01.rs', PUT_TEXT, PUT_TEXT + ' if text.len() == 113 { lent[113..].fill(b\' \'); }'),
    ('up: nothing written', 'version01.rs', PUT_TEXT, 'if text.len() == 103 { lent[..text.len()].copy_from_slice(&text); }'),
    ('up: written on a refusal', 'version01.rs', GO_UP, "    if raised(old, hc, frc).is_err() && !lent.is_empty() { lent[0] = b'G'; }\n" + GO_UP),
    ('up: written on 9', 'version01.rs', PUT_ROOM, PUT_ROOM + " if text.len() == 113 && !lent.is_empty() { lent[0] = b'G'; }"),
    ('up: a byte past the lent line', 'EXPORTS', '    reference::up(', '    if line_len == 113 { *line.add(113) = 7; }\n    reference::up('),
    ('up: a byte before the lent line', 'EXPORTS', '    reference::up(', '    if line_len == 114 { *line.sub(1) = 7; }\n    reference::up('),
    ('up: characters of FRC exchanged in the call', 'EXPORTS', '[frc1, frc2, frc3], lent(line', '[frc1, frc3, frc2], lent(line'),
]
# the same, put into both
TWINS = [
    # a number that is retired
    ('10 for the largest values, twice', 'track.rs', FITS, TEN_AGAIN + FITS),
    # a shared offset does not drop out
    ('weights that add up to 1106, twice', 'fit.rs', '162, 167, 162', '162, 168, 162'),
    ('smoothed value cut, twice', 'fit.rs', SMOOTHED, 'Ok(STEPS * sum / 1105)'),
    ('midpoint cut, twice', 'fit.rs', MIDPOINT, '(s + 50 * STEPS * n) / (100 * STEPS * n)'),
    ('midpoint ties away, twice', 'fit.rs', MIDPOINT, 'nearest(s.abs(), 100 * STEPS * n) * s.signum()'),
    ('smoothed values in ps, twice', 'fit.rs', SMOOTHED, 'Ok(nearest(sum, 1105))'),
    ('midpoint over 101 n, twice', 'fit.rs', MIDPOINT, 'nearest(s, 101 * STEPS * n)'),
    ('weights of an even number, twice', 'fit.rs', PLACE, '2 * j as i64 - (n / 2 * 2 - 1)'),
    ('residuals halved below 0, twice', 'fit.rs', SQUARE,
     'let residual = if *v < 0 { residual / 2 } else { residual };\n        ' + SQUARE),
    ('REFSYS of the first for the difference, twice', 'view.rs', DIFFERENCE, 'differences.push(refsys); let _ = other_refsys;'),
    # what the test knows of stores by itself
    ('delays: a start on the date not taken, twice', 'delays.rs', IN_FORCE, 'rposition(|start| start < mjd)'),
    ('delays: CAB and REF exchanged, twice', 'delays.rs', OF_ENTRY, OF_ENTRY.replace('delay(1)', 'delay(9)').replace('delay(2)', 'delay(1)').replace('delay(9)', 'delay(2)')),
    ('delays: 1001 entries, twice', 'delays.rs', COUNTED, COUNTED.replace('MOST_ENTRIES', 'MOST_ENTRIES + 1')),
    ('append to delays: the new date first, twice', 'delays.rs', '    bytes.extend(store.starts);\n' + NEW_START, NEW_START + '    bytes.extend(store.starts);\n'),
    ('append to delays: 9 before 22, twice', 'delays.rs', '    if ' + LATER, '    if lent.len() < store_bytes(store.count + 1, store.in_group) { return Err(9); }\n    if ' + LATER),
    # a day that is wrong in the same way
    ('day with equal keys, twice', 'day.rs', DAY_KEYS, 'if before.is_some_and(|before| before > keys) {'),
    ('day counted from 1, twice', 'day.rs', DAY_FOLLOW, DAY_FOLLOW.replace('block: count', 'block: count + 1')),
    ('day with line feed before return, twice', 'day.rs', 'b"\\r\\n"', 'b"\\n\\r"'),
    ('day with 16 before the block, twice', 'day.rs', DAY_BLOCK,
     'if bytes.len() > 58 && before.is_some_and(|before| before >= keys(&labels(bytes))) { return Err(16); }\n    ' + DAY_BLOCK),
    ('day with 9 before a later block, twice', 'day.rs', DAY_FOLLOW, DAY_FOLLOW +
     '\n        if lent.len() < lines.len() { return Err(Offence { number: 9, block: count + 1 }); }'),
    ('day that ends with a cut block, twice', 'day.rs', DAY_END,
     'while !rest.is_empty() && sizes(rest).map_or(true, |n| block_bytes(n) <= rest.len()) {'),
    # the length of a path is known where the squares are
    ('the nearest length for the floor, twice', 'path.rs', ROOT,
     'let floor = u128::from(root(sum)); Ok((floor + u128::from(floor * (floor + 1) < sum)) as f64)'),
    ('a length below a perfect square, twice', 'path.rs', 'u128::from(longer) <= sum', 'u128::from(longer) < sum'),
    ('Z left out of a path, twice', 'path.rs', ' + square(2);', ';'),
    ('a length of minus zero, twice', 'path.rs', ROOT, 'Ok(if sum == 0 { -0.0 } else { root(sum) as f64 })'),
    ('23 and 24 exchanged, twice', 'path.rs', 'ok_or(23u32)', 'ok_or(24u32)', 'path.rs', 'return Err(24);', 'return Err(23);'),
    ('subnormal floats taken for 0, twice', 'path.rs', SUBNORMAL, '0 => (0, -1074),'),
    # the columns of either form, and which fault decides, are known
    ('down: letter kept, twice', 'version01.rs', DOWN_TEXT, DOWN_TEXT.replace('b" ", &line[1..', '&line[..1], &line[1..')),
    ('down: R goes down, twice', 'version01.rs', DOWN_LETTER, "if labels.constellation != b'G' && labels.constellation != b'R' {"),
    ('down: CK of 103 columns, twice', 'version01.rs', DOWN_TEXT, 'let mut old = with_check([b" ", &line[1..103]].concat()); old.drain(101..103); Ok(old)'),
    ('down: 9 before 25, twice', 'version01.rs', GO_DOWN, '    if lent.len() < 103 && lowered(line) == Err(25) { return 9; }\n' + GO_DOWN),
    ('down: 25 before 8, twice', 'version01.rs', DOWN_READ,
     "let (labels, _) = match read(line) { Err(8) if line[0] != b'G' => return Err(25), other => other? };"),
    ('up: 27 comment bytes taken, twice', 'version01.rs', 'usize = 128', 'usize = 130'),
    ('up: comment not looked at, twice', 'version01.rs', UP_CHARACTERS, UP_CHARACTERS.replace('comment)', 'b"")')),
    ('up: column 1 not looked at, twice', 'version01.rs', UP_CHARACTERS, 'if !characters_fit(&filled, comment) {'),
    ('up: CK of 103 columns, twice', 'version01.rs', UP_CHECK, 'if with_check(columns.to_vec())[103..] != columns[101..] {'),
    ('up: HC above 99 cut to two digits, twice', 'version01.rs', UP_SUPPLIED, 'let hc = hc % 100;\n    ' + UP_SUPPLIED),
    ('up: FRC not judged, twice', 'version01.rs', UP_SUPPLIED, 'let labels = Labels { hc, ..labels(&filled) };'),
    ('up: 13 for a supplied FRC, twice', 'version01.rs', UP_SUPPLIED, 'if !(%s) && hc <= 99 { return Err(13); }\n    ' % SUPPLIED_FITS + UP_SUPPLIED),
    ('up: what is supplied after the start, twice', 'version01.rs', UP_SUPPLIED, 'let labels = labels(&filled);', 'version01.rs', UP_TEXT,
     'if !(%s) { return Err(7); }\n    ' % SUPPLIED_FITS + UP_TEXT),
    ('up: IOE of E, twice', 'version01.rs', UP_SUPPLIED, UP_SUPPLIED.replace('hc, frc', "constellation: b'E', hc, frc")),
    ('up: track length not judged, twice', 'version01.rs', UP_LABELS, 'if !labels.in_range() {'),
    ('up: FR 1, twice', 'version01.rs', UP_BEHIND, UP_BEHIND.replace('"00 ', '"01 ')),
    ('up: 9 before 8, twice', 'version01.rs', GO_UP, '    if lent.len() < 113 && raised(old, hc, frc) == Err(8) { return 9; }\n' + GO_UP),
]
# put into tests/fast alone
FASTS = [
    ('fast: ties go down', 'track.rs', 'floor::<BITS>(x + d / 2, d)', 'floor::<BITS>(x + (d - 1) / 2, d)'),
    ('fast: a day with equal keys', 'day.rs', 'if next <= last {', 'if next < last {'),
    ('fast: a day that names the block before', 'day.rs', 'Offence { number, block: count }', 'Offence { number, block: count.max(1) - 1 }'),
    ('fast: a day with line feed before return', 'text.rs', '00\\r\\n"', '00\\n\\r"'),
    ('fast: a day with one digit of IOE', 'text.rs', 'put3(line, 77, labels.ioe.into());', 'put3(line, 77, u32::from(labels.ioe) % 10);'),
    ('fast: a day written on 9', 'day.rs', 'else {\n        return Err(Offence { number: 9', 'else {\n        let room = lent.len();\n'
     '        lent.copy_from_slice(&lines[..room]);\n        return Err(Offence { number: 9'),
]

KINDS = (MUTANTS, TWINS, FASTS)


def edited(text, old, new):
    if text.count(old) != 1:
        raise SystemExit('mutants: %r stands %d times' % (old, text.count(old)))
    return text.replace(old, new)


def copied(sources, folder):
    shutil.rmtree(folder, ignore_errors=True)
    shutil.copytree(sources, folder, copy_function=shutil.copyfile)


def write_mutant(folder, edits, kind):
    """The implementation, the one written for speed and the exports, with these edits."""
    source, fast = folder / 'mutant' / 'reference' / 'src', folder / 'mutant' / 'fast' / 'src'
    exports = EXPORTS
    copied(REFERENCE / 'src', source)
    if kind is not MUTANTS:
        copied(FAST / 'src', fast)
    for name, old, new in zip(edits[::3], edits[1::3], edits[2::3]):
        if name == 'EXPORTS':
            exports = edited(exports, old, new)
        else:
            path = (fast if kind is FASTS else source) / name
            path.write_text(edited(path.read_text(), old, new))
    if kind is TWINS:
        (fast / 'lib.rs').write_text(SAME)
    (folder / 'line' / 'src' / 'lib.rs').write_text(exports)


def prepare(folder):
    (folder / 'line' / 'src').mkdir(parents=True)
    (folder / 'line' / 'Cargo.toml').write_text(MANIFEST)
    for package in (REFERENCE, FAST):
        (folder / 'mutant' / package.name).mkdir(parents=True)
        shutil.copyfile(package / 'Cargo.toml', folder / 'mutant' / package.name / 'Cargo.toml')
    # the implementation reads the published lines from beside it, and its tests are not built
    shutil.copytree(HERE.parent / 'published', folder / 'mutant' / 'published')
    # the test beside a wrong implementation, for twins and for the one written for speed
    shutil.copytree(HERE, folder / 'mutant' / 'boundary', copy_function=shutil.copyfile)


def cargo(folder, package, target):
    environment = dict(os.environ, CARGO_TARGET_DIR=str(target), RUSTFLAGS='-Awarnings',
                       LINE_ARCHIVE=str(folder / 'target' / 'release' / 'libline.so'),
                       CARGO_INCREMENTAL='1')
    result = subprocess.run(['cargo', 'build', '--release', '--offline', '--quiet', '--manifest-path',
                             str(package / 'Cargo.toml')], env=environment, capture_output=True, text=True)
    if result.returncode:
        raise SystemExit('mutants: no build\n' + result.stderr)


def first_subject(edits, kind):
    """What the test compares first: a twin in the fit of a track shows in shared offsets. Nothing for no edit."""
    if not edits:
        return ''
    part = edits[0].removesuffix('.rs')
    if part == 'EXPORTS':
        part = re.findall(r'trackline_(\w+)', EXPORTS[:EXPORTS.index(edits[1])])[-1]
    return 'offsets' if kind is TWINS and part in ('fit', 'track') else FIRST.get(part, '')


def passes(folder, edits, kind):
    """Whether the boundary test passes with this mutant."""
    write_mutant(folder, edits, kind)
    cargo(folder, folder / 'line', folder / 'target')
    in_library = kind is MUTANTS
    package, target = (HERE, folder / 'test') if in_library else (folder / 'mutant' / 'boundary', folder / 'beside')
    program = target / 'release' / 'boundary'
    # what is wrong in the shared library alone leaves the test as it was built
    if not in_library or not program.exists():
        cargo(folder, package, target)
    environment = dict(os.environ, FIRST_SUBJECT=first_subject(edits, kind))
    ended = subprocess.run([str(program)], env=environment, capture_output=True).returncode
    if -ended in (signal.SIGINT, signal.SIGTERM, signal.SIGKILL):
        raise SystemExit('mutants: the test was ended from outside')
    return ended == 0


def applies():
    """Whether each mutant has a name of its own, and can be made."""
    names = [mutant[0] for kind in KINDS for mutant in kind]
    with tempfile.TemporaryDirectory() as name:
        folder = pathlib.Path(name)
        prepare(folder)
        for kind, mutant in ((kind, mutant) for kind in KINDS for mutant in kind):
            write_mutant(folder, mutant[1:], kind)
    print('mutants: %d, of which %d are put into both and %d into tests/fast; each can be made' % (len(names), len(TWINS), len(FASTS)))
    return 0 if len(names) == len(set(names)) else 1


def tried(folder, kind, chosen):
    """Those of a kind that the test does not notice."""
    if chosen and not passes(folder, (), kind):
        raise SystemExit('mutants: the test fails on the implementation itself')
    missed = []
    for mutant in chosen:
        noticed = not passes(folder, mutant[1:], kind)
        print('%-8s %s' % ('noticed' if noticed else 'MISSED', mutant[0]), flush=True)
        missed += [] if noticed else [mutant[0]]
    return missed


def main(words):
    if words == ['--applies']:
        return applies()
    chosen = [[mutant for mutant in kind if not words or any(word in mutant[0] for word in words)] for kind in KINDS]
    with tempfile.TemporaryDirectory() as name:
        folder = pathlib.Path(name)
        prepare(folder)
        missed = [mutant for kind, several in zip(KINDS, chosen) for mutant in tried(folder, kind, several)]
    count = sum(map(len, chosen))
    print('mutants: %d of %d noticed' % (count - len(missed), count))
    return 1 if missed else 0


if __name__ == '__main__':
    sys.exit(main(sys.argv[1:]))
