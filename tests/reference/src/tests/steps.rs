//! Tracks counted in tenths of a ps beside the same tracks counted in whole ps, as they once were: by one rule over the steps.

use super::exact::seeded_track;
use super::*;
use crate::seeded::Seeded;
use crate::{Numbers, TENTHS};

const WHOLE: i64 = 1;

/// The figures that can differ, and those that can't.
const NAMES: [&str; 9] = ["REFSV", "SRSV", "REFSYS", "SRSYS", "DSG", "MDTR", "SMDT", "MDIO", "SMDI"];
const MOVING: usize = 5;

fn figures(n: &Numbers) -> [i64; 9] {
    [n.refsv, n.srsv, n.refsys, n.srsys, n.dsg, n.mdtr, n.smdt, n.mdio, n.smdi]
}

/// The numbers in whole ps and in tenths.
fn before_and_now(given: &Given) -> [Result<Numbers, u32>; 2] {
    [given.track_in::<WHOLE>(), given.track_in::<TENTHS>()].map(|answer| answer.map(|record| record.numbers))
}

/// Tracks that were compared, those with a figure that differs, and how often each figure does.
#[derive(Debug, Default, PartialEq, Eq)]
struct Seen {
    tracks: u32,
    changed: u32,
    figures: [u32; MOVING],
}

impl Seen {
    /// Compares the two lines of a track: no figure differs by more than one unit, and those of the air do not at all.
    fn compare(&mut self, given: &Given) {
        let [before, now] = before_and_now(given);
        let (Ok(before), Ok(now)) = (&before, &now) else {
            assert_eq!(before, now, "one of the two is refused");
            return;
        };
        assert_eq!(before.trkl, now.trkl);
        let off: [i64; 9] = std::array::from_fn(|i| (figures(now)[i] - figures(before)[i]).abs());
        assert!(off.iter().all(|by| *by <= 1), "{NAMES:?} differ by {off:?}");
        assert_eq!(off[MOVING..], [0; 4], "{before:?} {now:?}");
        self.tracks += 1;
        self.changed += u32::from(off.contains(&1));
        self.figures.iter_mut().zip(off).for_each(|(count, by)| *count += by as u32);
    }
}

/// A track that is accepted, with noise from second to second of 1 to 10 ns either way, and corrections.
fn noisy_track(n: usize, seeded: &mut Seeded) -> Given {
    let mut given = seeded_track(n, seeded);
    given.columns[2..4].iter_mut().flatten().for_each(|v| *v += 5_000);
    let noise = seeded.range(1_000, 10_000);
    let (level, slope) = (seeded.spread(100_000_000_000), seeded.spread(9_000));
    for (i, m) in given.measurements.iter_mut().enumerate() {
        *m = level + slope * i as i64 + seeded.range(-noise, noise);
    }
    given
}

/// So many tracks of these numbers of blocks, one after the other.
fn seen(tracks: usize, blocks: std::ops::RangeInclusive<usize>, seed: u64) -> Seen {
    let (mut seeded, mut seen) = (Seeded::new(seed), Seen::default());
    let lengths: Vec<usize> = blocks.collect();
    (0..tracks).for_each(|i| seen.compare(&noisy_track(lengths[i % lengths.len()], &mut seeded)));
    println!("{seen:?}");
    seen
}

/// How many lines differ, and in which figures: of full tracks 0.34 %, of tracks of 4 to 52 blocks 1.7 %, of the shortest 12 %.
#[test]
fn share_of_full_tracks() {
    let full = seen(100_000, 52..=52, 20);
    assert_eq!(full, Seen { tracks: 100_000, changed: 337, figures: [31, 132, 30, 162, 39] });
}

#[test]
fn share_of_short_tracks() {
    let all = seen(98_000, 4..=52, 21);
    assert_eq!(all, Seen { tracks: 98_000, changed: 1_637, figures: [52, 874, 50, 875, 65] });
    let shortest = seen(100_000, 4..=4, 22);
    assert_eq!(shortest, Seen { tracks: 100_000, changed: 11_889, figures: [132, 6944, 136, 6878, 166] });
}

/// Blocks of one level each, with so many ps more in the middle: 3 there are 501 / 1105 ps, 4 are 668 / 1105 ps.
fn levels(blocks: &[(i64, i64)]) -> Given {
    let mut given = Given::of(blocks.len(), 0);
    for (block, (level, more)) in given.measurements.chunks_mut(BLOCK_SECONDS).zip(blocks) {
        block.fill(*level);
        block[BLOCK_SECONDS / 2] += more;
    }
    given
}

/// Midpoints, slopes and DSG that differ, worked out by hand.
#[test]
fn changed_by_hand() {
    let seen = |blocks: &[(i64, i64)]| before_and_now(&levels(blocks)).map(|answer| answer.expect("accepted"));
    for n in 4..=52 {
        // 49.6045 ps: 50 or 49.6, a tie or less
        let [before, now] = seen(&vec![(49, 4); n]);
        assert_eq!((before.refsv, before.refsys, now.refsv, now.refsys), (1, 1, 0, 0));
        assert_eq!((before.srsv, before.srsys, before.dsg, now.srsv, now.srsys, now.dsg), (0, 0, 0, 0, 0, 0));
        // -50.3955 ps: -50 or -50.4
        let [before, now] = seen(&vec![(-51, 4); n]);
        assert_eq!((before.refsys, now.refsys), (0, -1));
    }
    // T is -1 + 3 x 3 = 8 ps or -1 + 3 x 2.6 = 6.8 ps, a slope T / 15
    let [before, now] = seen(&[(0, 0), (0, 0), (-1, 0), (2, 4)]);
    assert_eq!((before.srsv, before.srsys, now.srsv, now.srsys), (1, 1, 0, 0));
    // a root mean square of 50 or 49.6 ps
    let [before, now] = seen(&[(49, 4), (-49, -4), (-49, -4), (49, 4)].repeat(13));
    assert_eq!((before.dsg, now.dsg), (1, 0));
}

/// Next to a limit a track can be accepted before and not now, or the other way: by a midpoint, a slope and DSG.
#[test]
fn refusals_that_change() {
    let answers = |given: &Given| before_and_now(given).map(|answer| answer.err().unwrap_or(0));
    let large = 999_999_999_949;
    // the mean is 999999999950 or 999999999949.6 ps, of which half a unit is too much
    assert_eq!(answers(&levels(&[(large, 4); 4])), [3, 0]);
    // three of 49 or 49.5 and one of 52: 199 or 200.5 where 200 is too much
    assert_eq!(answers(&levels(&[(large, 3), (large, 3), (large, 3), (large + 3, 0)])), [0, 3]);
    // the last value alone makes a slope of a fifth of it: 499997 or 499997.5 ps, of which the second is a tie
    assert_eq!(answers(&levels(&[(0, 0), (0, 0), (0, 0), (499_997, 3)])), [0, 4]);
    // DSG: 999950 or 999949.6 ps up and down
    let (up, down) = ((999_949, 4), (-999_949, -4));
    assert_eq!(answers(&levels(&[up, down, down, up])), [6, 0]);
}
