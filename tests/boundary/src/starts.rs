//! Start test: whole days second by second, and every date of the schedule at and beside each of its starts.

use crate::compare::Compare;
use reference::good::track_start;
use reference::seeded::Seeded;
use reference::{FIRST_MJD, LAST_MJD};

pub fn run(compare: &mut Compare, seeded: &mut Seeded, scale: usize) {
    let mut days = vec![50721, 50722, 50723, 51081, 51082, 56842, 57000, 99999, 100_000, 0, u32::MAX];
    days.extend((0..10 * scale).map(|_| seeded.range(FIRST_MJD.into(), LAST_MJD.into()) as u32));
    for mjd in days {
        (0..=2 * 86400).for_each(|second| compare.start(mjd, second));
        (0..1000).for_each(|back| compare.start(mjd, u32::MAX - back));
    }
    (FIRST_MJD - 10..=LAST_MJD + 10).for_each(|mjd| beside_starts(compare, mjd, seeded));
    for _ in 0..100_000 {
        compare.start(seeded.bits() as u32, seeded.bits() as u32);
        compare.start(seeded.range(0, 200_000) as u32, 60 * seeded.range(0, 3000) as u32);
        let (mjd, second) = (seeded.pick(&[50721, 100_000, 0, u32::MAX]), 60 * seeded.range(0, 3000) as u32 + 1);
        compare.start(mjd, second);
        compare.faults("start", &[7, 8], &[7, 8], reference::start(mjd, second));
    }
}

/// All starts of a date, and the place where a ninetieth would be, with the seconds and minutes beside each; the last four
/// minutes of the day, which have none; and about one start more seconds, such as that of the day before or after.
fn beside_starts(compare: &mut Compare, mjd: u32, seeded: &mut Seeded) {
    let place = |i: i64| i64::from(track_start(mjd, i));
    for i in 1..=90 {
        // a second before midnight becomes one of the last that there are
        [-60, -1, 0, 1, 60].iter().for_each(|beside| compare.start(mjd, (place(i) + beside) as u32));
    }
    (1436..1440).for_each(|minute| compare.start(mjd, 60 * minute));
    let second = place(seeded.range(1, 90));
    for off in [2, 30, 59, 120, 240, 480, 720, 960, 86160, 86400] {
        [second - off, second + off].iter().for_each(|second| compare.start(mjd, *second as u32));
    }
}
