//! Start test: whether a second of the day is one of the day's 89 scheduled starts.

/// The first day of the schedule, on which track 1 starts at 00:02.
pub const FIRST_MJD: u32 = 50722;
/// The last day that five columns hold.
pub const LAST_MJD: u32 = 99999;

/// Tracks repeat after 23 h 56 min.
const REPEAT_MINUTES: i64 = 1436;

/// Start test: 0 for a start of that day, 7 for a day out of range, 8 for any other second.
pub fn start(mjd: u32, second: u32) -> u32 {
    if !(FIRST_MJD..=LAST_MJD).contains(&mjd) {
        return 7;
    }
    let n = i64::from(mjd - FIRST_MJD);
    let is_start = (1..=89).any(|i| {
        let minute = (2 + 16 * (i - 1) - 4 * n).rem_euclid(REPEAT_MINUTES);
        i64::from(second) == 60 * minute
    });
    if is_start {
        0
    } else {
        8
    }
}
