//! The archive's C functions, called as a C program calls them.

use reference::{Delays, Labels, Numbers};

extern "C" {
    fn trackline_block(block: *const u8, block_len: usize, line: *mut u8, line_len: usize) -> u32;
    #[rustfmt::skip]
    fn trackline_line(
        constellation: u8,
        satellite: u8,
        cl: u8,
        fr: u8,
        hc: u8,
        frc1: u8,
        frc2: u8,
        frc3: u8,
        mjd: u32,
        start: u32,
        elv: u16,
        azth: u16,
        ioe: u16,
        refsv: i64,
        srsv: i64,
        refsys: i64,
        srsys: i64,
        mdtr: i64,
        smdt: i64,
        mdio: i64,
        smdi: i64,
        dsg: i64,
        trkl: i64,
        line: *mut u8,
        line_len: usize,
    ) -> u32;
    fn trackline_start(mjd: u32, second: u32) -> u32;
    fn trackline_path(xs: f64, ys: f64, zs: f64, xa: f64, ya: f64, za: f64, length: *mut f64) -> u32;
    fn trackline_read(line: *const u8, line_len: usize, values: *mut i64, values_len: usize) -> u32;
    fn trackline_comment(line: *const u8, line_len: usize) -> usize;
    #[rustfmt::skip]
    fn trackline_merge(
        first: *const u8,
        first_len: usize,
        second: *const u8,
        second_len: usize,
        file: *mut u8,
        file_len: usize,
        written: *mut usize,
    ) -> u32;
    #[rustfmt::skip]
    fn trackline_view(
        first: *const u8,
        first_len: usize,
        second: *const u8,
        second_len: usize,
        report: *mut i64,
        report_len: usize,
    ) -> u32;
    fn trackline_delays(store: *const u8, store_len: usize, mjd: u32, delays: *mut i64, delays_len: usize) -> u32;
    #[rustfmt::skip]
    fn trackline_append(
        store: *const u8,
        store_len: usize,
        mjd: u32,
        intdly: i64,
        cabdly: i64,
        refdly: i64,
        gd: i64,
        longer: *mut u8,
        longer_len: usize,
        written: *mut usize,
    ) -> u32;
    #[rustfmt::skip]
    fn trackline_day(
        blocks: *const u8,
        blocks_len: usize,
        file: *mut u8,
        file_len: usize,
        written: *mut usize,
        block: *mut usize,
    ) -> u32;
    fn trackline_down(line: *const u8, line_len: usize, old: *mut u8, old_len: usize) -> u32;
    #[rustfmt::skip]
    fn trackline_up(
        old: *const u8,
        old_len: usize,
        hc: u8,
        frc1: u8,
        frc2: u8,
        frc3: u8,
        line: *mut u8,
        line_len: usize,
    ) -> u32;
}

/// A slice, or NULL with length 0.
pub type Bytes<'a> = Option<&'a [u8]>;
pub type LentBytes<'a> = Option<&'a mut [u8]>;
pub type LentValues<'a> = Option<&'a mut [i64]>;

fn as_c(bytes: Bytes) -> (*const u8, usize) {
    bytes.map_or((std::ptr::null(), 0), |b| (b.as_ptr(), b.len()))
}

fn lent_as_c<T>(lent: Option<&mut [T]>) -> (*mut T, usize) {
    lent.map_or((std::ptr::null_mut(), 0), |b| (b.as_mut_ptr(), b.len()))
}

pub fn block(block: Bytes, lent: LentBytes) -> u32 {
    let (block, block_len) = as_c(block);
    let (line, line_len) = lent_as_c(lent);
    // SAFETY: both are live slices, or NULL with length 0, which the interface allows.
    unsafe { trackline_block(block, block_len, line, line_len) }
}

#[rustfmt::skip]
pub fn line(l: &Labels, n: &Numbers, lent: LentBytes) -> u32 {
    let (line, line_len) = lent_as_c(lent);
    // SAFETY: a live slice, or NULL with length 0, which the interface allows.
    unsafe {
        trackline_line(
            l.constellation, l.satellite, l.cl, l.fr, l.hc, l.frc[0], l.frc[1], l.frc[2],
            l.mjd, l.start, l.elv, l.azth, l.ioe,
            n.refsv, n.srsv, n.refsys, n.srsys,
            n.mdtr, n.smdt, n.mdio, n.smdi, n.dsg, n.trkl,
            line, line_len,
        )
    }
}

pub fn start(mjd: u32, second: u32) -> u32 {
    // SAFETY: numbers only.
    unsafe { trackline_start(mjd, second) }
}

/// The satellite's coordinates, then the antenna's.
pub fn path([xs, ys, zs, xa, ya, za]: [f64; 6], length: &mut f64) -> u32 {
    // SAFETY: numbers, and a live one.
    unsafe { trackline_path(xs, ys, zs, xa, ya, za, length) }
}

pub fn read(line: Bytes, values: LentValues) -> u32 {
    let (line, line_len) = as_c(line);
    let (values, values_len) = lent_as_c(values);
    // SAFETY: both are live slices, or NULL with length 0, which the interface allows.
    unsafe { trackline_read(line, line_len, values, values_len) }
}

pub fn comment(line: Bytes) -> usize {
    let (line, line_len) = as_c(line);
    // SAFETY: a live slice, or NULL with length 0, which the interface allows.
    unsafe { trackline_comment(line, line_len) }
}

pub fn merge(first: Bytes, second: Bytes, lent: LentBytes, written: &mut usize) -> u32 {
    let (first, first_len) = as_c(first);
    let (second, second_len) = as_c(second);
    let (file, file_len) = lent_as_c(lent);
    // SAFETY: live slices, or NULL with length 0, which the interface allows, and a live number.
    unsafe { trackline_merge(first, first_len, second, second_len, file, file_len, written) }
}

pub fn view(first: Bytes, second: Bytes, report: LentValues) -> u32 {
    let (first, first_len) = as_c(first);
    let (second, second_len) = as_c(second);
    let (report, report_len) = lent_as_c(report);
    // SAFETY: live slices, or NULL with length 0, which the interface allows.
    unsafe { trackline_view(first, first_len, second, second_len, report, report_len) }
}

pub fn delays(store: Bytes, mjd: u32, delays: LentValues) -> u32 {
    let (store, store_len) = as_c(store);
    let (delays, delays_len) = lent_as_c(delays);
    // SAFETY: live slices, or NULL with length 0, which the interface allows.
    unsafe { trackline_delays(store, store_len, mjd, delays, delays_len) }
}

pub fn append(store: Bytes, mjd: u32, set: &Delays, longer: LentBytes, written: &mut usize) -> u32 {
    let (store, store_len) = as_c(store);
    let (longer, longer_len) = lent_as_c(longer);
    let Delays { int, cab, refdly, gd } = *set;
    // SAFETY: live slices, or NULL with length 0, which the interface allows, and a live number.
    unsafe { trackline_append(store, store_len, mjd, int, cab, refdly, gd, longer, longer_len, written) }
}

pub fn day(blocks: Bytes, lent: LentBytes, written: &mut usize, block: &mut usize) -> u32 {
    let (blocks, blocks_len) = as_c(blocks);
    let (file, file_len) = lent_as_c(lent);
    // SAFETY: live slices, or NULL with length 0, which the interface allows, and two live numbers.
    unsafe { trackline_day(blocks, blocks_len, file, file_len, written, block) }
}

pub fn down(line: Bytes, lent: LentBytes) -> u32 {
    let (line, line_len) = as_c(line);
    let (old, old_len) = lent_as_c(lent);
    // SAFETY: live slices, or NULL with length 0, which the interface allows.
    unsafe { trackline_down(line, line_len, old, old_len) }
}

pub fn up(old: Bytes, hc: u8, [frc1, frc2, frc3]: [u8; 3], lent: LentBytes) -> u32 {
    let (old, old_len) = as_c(old);
    let (line, line_len) = lent_as_c(lent);
    // SAFETY: live slices, or NULL with length 0, which the interface allows.
    unsafe { trackline_up(old, old_len, hc, frc1, frc2, frc3, line, line_len) }
}
