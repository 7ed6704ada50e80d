//! Fields of decimal digits as numbers, up to eight digits at once.

/// Each digit in a byte of its own, the first in the lowest, are added up in pairs, then fours, then eights.
#[inline(always)]
pub fn eight(digits: &[u8; 8]) -> u32 {
    let pairs = (u64::from_le_bytes(*digits) & 0x0F0F_0F0F_0F0F_0F0F).wrapping_mul((10 << 8) + 1) >> 8;
    let fours = (pairs & 0x00FF_00FF_00FF_00FF).wrapping_mul((100 << 16) + 1) >> 16;
    ((fours & 0x0000_FFFF_0000_FFFF).wrapping_mul((10_000 << 32) + 1) >> 32) as u32
}

#[inline(always)]
pub fn four(digits: &[u8; 4]) -> u32 {
    let pairs = (u32::from_le_bytes(*digits) & 0x0F0F_0F0F).wrapping_mul((10 << 8) + 1) >> 8;
    (pairs & 0x00FF_00FF).wrapping_mul((100 << 16) + 1) >> 16
}

#[inline(always)]
pub fn three(&[a, b, c]: &[u8; 3]) -> u32 {
    100 * u32::from(a) + 10 * u32::from(b) + u32::from(c) - 111 * u32::from(b'0')
}

#[inline(always)]
pub fn two(&[a, b]: &[u8; 2]) -> u32 {
    10 * u32::from(a) + u32::from(b) - 11 * u32::from(b'0')
}
