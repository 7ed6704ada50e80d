//! Start test, by the remainder of the schedule and not by a search.

use reference::{FIRST_MJD, LAST_MJD};

/// Tracks begin 16 minutes apart and repeat after 1436, four minutes earlier each day.
const REPEAT_MINUTES: u32 = 1436;
const LAST_TRACK: u32 = 16 * 88;

/// Whether the second is a start of that day, which is one of the schedule.
#[inline(always)]
pub fn is_start(mjd: u32, second: u32) -> bool {
    let minute = second / 60;
    // 2 + 16(i - 1) is the minute on the first day
    let first = (minute + (REPEAT_MINUTES - 2) + 4 * (mjd - FIRST_MJD)) % REPEAT_MINUTES;
    (second % 60 == 0) & (minute < REPEAT_MINUTES) & (first % 16 == 0) & (first <= LAST_TRACK)
}

/// 0 for a start, 7 for a day out of range, 8 for any other second.
pub fn start(mjd: u32, second: u32) -> u32 {
    if !(FIRST_MJD..=LAST_MJD).contains(&mjd) {
        return 7;
    }
    if is_start(mjd, second) {
        0
    } else {
        8
    }
}
