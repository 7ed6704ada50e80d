//! Labels: their ranges, and the keys of a line as one number.

use reference::{Labels, FIRST_MJD, LAST_MJD};

/// The issues of ephemeris and the GLONASS channels of a constellation, as the least and how many more.
#[inline(always)]
fn ranges(constellation: u8) -> Option<(u16, u16, u8, u8)> {
    Some(match constellation {
        b'G' | b'J' => (0, 255, 0, 0),
        b'R' => (1, 95, 1, 23),
        b'E' => (0, 999, 0, 0),
        b'C' => (0, 23, 0, 0),
        _ => return None,
    })
}

#[inline(always)]
fn is_code(byte: u8) -> bool {
    byte.is_ascii_uppercase() | byte.is_ascii_digit()
}

/// Every label is in its range; the start is judged after the labels.
#[inline(always)]
pub fn in_range(labels: &Labels) -> bool {
    let Some((issue, issues, channel, channels)) = ranges(labels.constellation) else {
        return false;
    };
    (labels.ioe.wrapping_sub(issue) <= issues)
        & (labels.fr.wrapping_sub(channel) <= channels)
        & (labels.satellite.wrapping_sub(1) < 99)
        & (labels.hc <= 99)
        & labels.frc.iter().all(|byte| is_code(*byte))
        & (labels.mjd.wrapping_sub(FIRST_MJD) <= LAST_MJD - FIRST_MJD)
        & (labels.elv <= 900)
        & (labels.azth <= 3599)
}

/// MJD, start, letter and satellite of labels that are in their ranges, as one number that rises as they do. None is 0.
#[inline(always)]
pub fn keys(labels: &Labels) -> u64 {
    let date = u64::from(labels.mjd) << 17 | u64::from(labels.start);
    date << 16 | u64::from(labels.constellation) << 8 | u64::from(labels.satellite)
}
