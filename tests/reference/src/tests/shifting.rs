//! The same added to every measurement of a track: whole multiples of 100 ps move REFSV and REFSYS by so many units and
//! nothing else, other shifts move them by one of two neighbouring numbers.

use super::exact::seeded_track;
use super::*;
use crate::seeded::Seeded;
use crate::tuned::tune;
use crate::Numbers;

const GEOMETRY: usize = 0;
const CLOCK: usize = 4;

fn shifted(given: &Given, by: i64) -> Given {
    let mut after = given.clone();
    after.measurements.iter_mut().for_each(|m| *m += by);
    after
}

/// REFSV and REFSYS are more by these, and the other eight numbers the same.
fn moved(before: &Numbers, after: &Numbers, refsv: i64, refsys: i64) -> bool {
    let wanted = Numbers { refsv: before.refsv + refsv, refsys: before.refsys + refsys, ..*before };
    *after == wanted
}

/// What is to be added to one value, in tenths, so that the sum of n lies half way between two midpoints.
fn to_a_tie(values: &[i64]) -> i64 {
    let (n, sum) = (values.len() as i64, values.iter().sum::<i64>());
    (500 * n - sum).rem_euclid(1000 * n)
}

/// Raises A of block j by so many tenths.
fn raise(given: &mut Given, j: usize, tenths: i64) {
    let ps = tune(&mut given.measurements[BLOCK_SECONDS * j..BLOCK_SECONDS * (j + 1)], tenths);
    given.columns[GEOMETRY][j] += ps;
}

/// A track of n blocks with delays and a satellite clock, half of them with REFSV and REFSYS on a tie or a tenth from it.
fn any_track(n: usize, seeded: &mut Seeded) -> Given {
    let mut given = seeded_track(n, seeded);
    let mut delay = || seeded.spread(1_000_000);
    given.delays = Delays { int: delay(), cab: delay(), refdly: delay(), gd: delay() };
    let level = seeded.spread(1_000_000_000);
    given.columns[CLOCK].iter_mut().for_each(|v| *v += level);
    if seeded.below(2) == 0 {
        return given;
    }
    let j = seeded.below(n as u64) as usize;
    if let Ok(record) = given.track() {
        raise(&mut given, j, to_a_tie(&record.a[..n]) + seeded.range(-1, 1));
    }
    // what A's sum is from a tie, B's is too when whole ps have brought it there
    if let Ok(record) = given.track() {
        given.columns[CLOCK][j] += (to_a_tie(&record.b[..n]) + 5).div_euclid(10);
    }
    given
}

/// A number of units: few, of any size, so many that REFSYS comes next to 0, or about as many as a line can hold.
fn any_units(before: &Numbers, seeded: &mut Seeded) -> i64 {
    match seeded.below(5) {
        0 => seeded.range(-5, 5),
        1 => -before.refsys + seeded.range(-3, 3),
        2 => seeded.pick(&[1, -1]) * 9_999_999_999 - before.refsys + seeded.range(-3, 3),
        _ => seeded.spread(9_999_999_999),
    }
}

/// The numbers of two tracks.
fn both(first: &Given, second: &Given) -> Result<[Numbers; 2], u32> {
    Ok([first.track()?.numbers, second.track()?.numbers])
}

#[test]
fn a_shared_offset_drops_out() {
    let mut seeded = Seeded::new(10);
    let (mut pairs, mut signs, mut refusals) = ([0; 53], [0; 3], [0; 26]);
    for round in 0..19_600 {
        let n = 4 + round % 49;
        let first = any_track(n, &mut seeded);
        let other = if seeded.below(4) == 0 { 4 + seeded.below(49) as usize } else { n };
        let second = any_track(other, &mut seeded);
        let Ok(before) = both(&first, &second) else { continue };
        let k = any_units(&before[0], &mut seeded);
        let after = match both(&shifted(&first, 100 * k), &shifted(&second, 100 * k)) {
            Ok(after) => after,
            Err(refusal) => {
                refusals[refusal as usize] += 1;
                continue;
            }
        };
        assert!((0..2).all(|i| moved(&before[i], &after[i], k, k)), "{k}: {before:?} {after:?}");
        assert_eq!(after[0].refsys - after[1].refsys, before[0].refsys - before[1].refsys);
        pairs[n] += 1;
        signs[(k.signum() + 1) as usize] += 1;
    }
    assert!(pairs[4..].iter().all(|count| *count > 200), "{pairs:?}");
    assert!(pairs.iter().sum::<i32>() > 13_000 && signs[0] > 5_000 && signs[2] > 5_000, "{signs:?}");
    // only a measurement and a midpoint can get beyond their limits
    assert!(refusals[2] > 100 && refusals[3] > 100, "{refusals:?}");
    assert_eq!(refusals.iter().sum::<i32>(), refusals[2] + refusals[3]);
}

/// Any whole number of ps: REFSV and REFSYS move by the next whole number of units below or above, the others stay.
#[test]
fn other_shifts_move_by_one_of_two() {
    let mut seeded = Seeded::new(11);
    let (mut tried, mut changes) = (0, [0; 3]);
    for round in 0..14_700 {
        let n = 4 + round % 49;
        let tracks = [any_track(n, &mut seeded), any_track(n, &mut seeded)];
        let small = seeded.range(-100, 100);
        let any = seeded.spread(10_000_000_000);
        let by = seeded.pick(&[50, -50, small, any]);
        let [Ok(before), Ok(after)] = [0, by].map(|by| both(&shifted(&tracks[0], by), &shifted(&tracks[1], by))) else {
            continue;
        };
        let least = by.div_euclid(100);
        let steps = if by % 100 == 0 { least..=least } else { least..=least + 1 };
        for (before, after) in before.iter().zip(&after) {
            let (refsv, refsys) = (after.refsv - before.refsv, after.refsys - before.refsys);
            assert!(steps.contains(&refsv) && steps.contains(&refsys), "{by}: {refsv} {refsys}");
            assert!(moved(before, after, refsv, refsys), "{by}: {before:?} {after:?}");
        }
        let change = (after[0].refsys - after[1].refsys) - (before[0].refsys - before[1].refsys);
        changes[(change + 1) as usize] += 1;
        tried += 1;
    }
    // a difference moves by one at most, and each way it does
    assert!(tried > 10_000 && changes.iter().all(|count| *count > 500), "{tried} {changes:?}");
}

/// Half a unit is noticed: for every number of blocks, a track below a tie moves and one above it stays.
#[test]
fn fifty_ps_do_not_drop_out() {
    for n in 4..=52 {
        let [below, above] = [49, 50].map(|level| Given::of(n, level));
        let [before, after] = [0, 50].map(|by| both(&shifted(&below, by), &shifted(&above, by)).expect("accepted"));
        assert_eq!(before.map(|numbers| numbers.refsys), [0, 1]);
        assert_eq!(after.map(|numbers| numbers.refsys), [1, 1]);
        assert!((0..=1).all(|k| !(moved(&before[0], &after[0], k, k) && moved(&before[1], &after[1], k, k))));
    }
}

/// Nor do ten, which is a whole number of tenths and no whole number of units.
#[test]
fn ten_ps_do_not_drop_out() {
    for n in 4..=52 {
        let [below, far] = [45, 35].map(|level| Given::of(n, level));
        let [before, after] = [0, 10].map(|by| both(&shifted(&below, by), &shifted(&far, by)).expect("accepted"));
        assert_eq!(before.map(|numbers| numbers.refsys), [0, 0]);
        assert_eq!(after.map(|numbers| numbers.refsys), [1, 0]);
    }
}

/// The two tracks of docs/SHARED-OFFSET.md, each block with one value of B.
#[test]
fn two_tracks_by_hand() {
    let track = |values: [i64; 4]| {
        let mut given = Given::of(4, 0);
        given.measurements.iter_mut().enumerate().for_each(|(i, m)| *m = values[i / 15]);
        given
    };
    let (one, two) = (track([31_020, 31_410, 31_180, 31_387]), track([18_940, 18_620, 18_815, 18_655]));
    for (by, refsys) in [(0, [312, 188]), (50, [313, 188]), (100, [313, 189]), (300, [315, 191]), (-200, [310, 186])] {
        let numbers = both(&shifted(&one, by), &shifted(&two, by)).expect("accepted");
        assert_eq!(numbers.map(|n| n.refsys), refsys);
        assert_eq!(numbers.map(|n| (n.srsys, n.dsg, n.trkl)), [(58, 1, 60), (-44, 1, 60)]);
    }
}

/// What is added to the measurements and to CAB is in none of the numbers, whatever it is.
#[test]
fn entered_in_cab_it_is_gone() {
    let mut seeded = Seeded::new(12);
    for n in 4..=52 {
        let given = any_track(n, &mut seeded);
        let by = seeded.spread(1_000_000);
        let mut entered = shifted(&given, by);
        entered.delays.cab += by;
        assert_eq!(entered.track(), given.track());
    }
}
