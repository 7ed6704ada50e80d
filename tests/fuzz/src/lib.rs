//! The plain Rust implementation's operations, as C functions.

use reference::{Delays, Labels, Numbers};

unsafe fn bytes<'a>(at: *const u8, len: usize) -> &'a [u8] {
    if at.is_null() {
        return &[];
    }
    std::slice::from_raw_parts(at, len)
}

unsafe fn lent<'a, T>(at: *mut T, len: usize) -> &'a mut [T] {
    if at.is_null() {
        return &mut [];
    }
    std::slice::from_raw_parts_mut(at, len)
}

/// What trackline_line is given, field by field as `struct given` of fuzz.c.
#[repr(C)]
pub struct Given {
    constellation: u8,
    satellite: u8,
    cl: u8,
    fr: u8,
    hc: u8,
    frc: [u8; 3],
    mjd: u32,
    start: u32,
    elv: u16,
    azth: u16,
    ioe: u16,
    numbers: [i64; 10],
}

/// # Safety
/// Each pointer has its length behind it, or is NULL with length 0.
#[no_mangle]
pub unsafe extern "C" fn reference_block(block: *const u8, block_len: usize, line: *mut u8, line_len: usize) -> u32 {
    reference::block(bytes(block, block_len), lent(line, line_len))
}

/// # Safety
/// As reference_block.
#[no_mangle]
pub unsafe extern "C" fn reference_line(given: &Given, line: *mut u8, line_len: usize) -> u32 {
    let &Given { constellation, satellite, cl, fr, hc, frc, mjd, start, elv, azth, ioe, numbers } = given;
    let labels = Labels { constellation, satellite, cl, fr, hc, frc, mjd, start, elv, azth, ioe };
    let [refsv, srsv, refsys, srsys, mdtr, smdt, mdio, smdi, dsg, trkl] = numbers;
    let numbers = Numbers { refsv, srsv, refsys, srsys, mdtr, smdt, mdio, smdi, dsg, trkl };
    reference::line(&labels, &numbers, lent(line, line_len))
}

#[no_mangle]
pub extern "C" fn reference_start(mjd: u32, second: u32) -> u32 {
    reference::start(mjd, second)
}

/// # Safety
/// Six coordinates, and one number.
#[no_mangle]
pub unsafe extern "C" fn reference_path(coordinates: &[f64; 6], length: *mut f64) -> u32 {
    let [xs, ys, zs, xa, ya, za] = *coordinates;
    let point = |x, y, z| reference::Point { x, y, z };
    match reference::path(point(xs, ys, zs), point(xa, ya, za)) {
        Ok(found) => {
            *length = found;
            0
        }
        Err(refusal) => refusal,
    }
}

/// # Safety
/// As reference_block.
#[no_mangle]
pub unsafe extern "C" fn reference_read(line: *const u8, line_len: usize, values: *mut i64, values_len: usize) -> u32 {
    reference::read_values(bytes(line, line_len), lent(values, values_len))
}

/// # Safety
/// As reference_block.
#[no_mangle]
pub unsafe extern "C" fn reference_comment(line: *const u8, line_len: usize) -> usize {
    let line = bytes(line, line_len);
    line.len() - reference::comment(line).len()
}

/// # Safety
/// As reference_block, and written points at one number.
#[no_mangle]
pub unsafe extern "C" fn reference_merge(
    first: *const u8,
    first_len: usize,
    second: *const u8,
    second_len: usize,
    file: *mut u8,
    file_len: usize,
    written: *mut usize,
) -> u32 {
    match reference::merge(bytes(first, first_len), bytes(second, second_len), lent(file, file_len)) {
        Ok(length) => {
            *written = length;
            0
        }
        Err(refusal) => refusal,
    }
}

/// # Safety
/// As reference_block.
#[no_mangle]
pub unsafe extern "C" fn reference_view(
    first: *const u8,
    first_len: usize,
    second: *const u8,
    second_len: usize,
    report: *mut i64,
    report_len: usize,
) -> u32 {
    reference::view_values(bytes(first, first_len), bytes(second, second_len), lent(report, report_len))
}

/// # Safety
/// As reference_block.
#[no_mangle]
pub unsafe extern "C" fn reference_delays(
    store: *const u8,
    store_len: usize,
    mjd: u32,
    delays: *mut i64,
    delays_len: usize,
) -> u32 {
    reference::lookup_values(bytes(store, store_len), mjd, lent(delays, delays_len))
}

/// # Safety
/// As reference_block; `set` has four numbers, and `written` is a number.
#[no_mangle]
pub unsafe extern "C" fn reference_append(
    store: *const u8,
    store_len: usize,
    mjd: u32,
    set: &[i64; 4],
    longer: *mut u8,
    longer_len: usize,
    written: &mut usize,
) -> u32 {
    let &[int, cab, refdly, gd] = set;
    let set = Delays { int, cab, refdly, gd };
    match reference::append(bytes(store, store_len), mjd, &set, lent(longer, longer_len)) {
        Ok(length) => {
            *written = length;
            0
        }
        Err(refusal) => refusal,
    }
}

/// # Safety
/// As reference_block; `written` and `block` are numbers.
#[no_mangle]
pub unsafe extern "C" fn reference_day(
    blocks: *const u8,
    blocks_len: usize,
    file: *mut u8,
    file_len: usize,
    written: *mut usize,
    block: *mut usize,
) -> u32 {
    match reference::day(bytes(blocks, blocks_len), lent(file, file_len)) {
        Ok(length) => {
            *written = length;
            0
        }
        Err(offence) => {
            *block = offence.block;
            offence.number
        }
    }
}

/// # Safety
/// As reference_block.
#[no_mangle]
pub unsafe extern "C" fn reference_down(line: *const u8, line_len: usize, old: *mut u8, old_len: usize) -> u32 {
    reference::down(bytes(line, line_len), lent(old, old_len))
}

/// # Safety
/// As reference_block; `frc` has three bytes.
#[no_mangle]
pub unsafe extern "C" fn reference_up(
    old: *const u8,
    old_len: usize,
    hc: u8,
    frc: &[u8; 3],
    line: *mut u8,
    line_len: usize,
) -> u32 {
    reference::up(bytes(old, old_len), hc, *frc, lent(line, line_len))
}
