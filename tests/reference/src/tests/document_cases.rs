//! The papers' cases: what the technician tries, in tenths as document 02 has them, and the sample line.

use super::*;
use crate::{fit, line, scatter, smooth, start, Fitted, Numbers};

fn middle(value: i64) -> [i64; 15] {
    let mut m = [0; 15];
    m[7] = value;
    m
}

/// a, -a, -a, a, thirteen times.
fn waves(a: i64) -> Vec<i64> {
    [a, -a, -a, a].repeat(13)
}

fn last(value: i64) -> Vec<i64> {
    let mut v = vec![0; 52];
    v[51] = value;
    v
}

#[test]
fn smooth_cases() {
    assert_eq!(smooth(&[-7; 15]), Ok(-70));
    assert_eq!(smooth(&middle(1105)), Ok(1670));
    let mut end = [0; 15];
    end[14] = 1105;
    assert_eq!(smooth(&end), Ok(-780));
    assert_eq!(smooth(&middle(3)), Ok(5));
    assert_eq!(smooth(&middle(4)), Ok(6));
    assert_eq!(smooth(&middle(-4)), Ok(-6));
    // ten times 167 over 1105 is 1.511: twice and three times as much is 3.02 and 4.53
    assert_eq!((smooth(&middle(1)), smooth(&middle(2)), smooth(&middle(-3))), (Ok(2), Ok(3), Ok(-5)));
    assert_eq!(smooth(&[1_000_000_000_000; 15]), Ok(10_000_000_000_000));
    assert_eq!(smooth(&[-1_000_000_000_000; 15]), Ok(-10_000_000_000_000));
    for at in 0..15 {
        let mut m = [1_000_000_000_000; 15];
        m[at] += 1;
        assert_eq!(smooth(&m), Err(2));
        m[at] = i64::MIN;
        assert_eq!(smooth(&m), Err(2));
    }
    assert_eq!(smooth(&[i64::MAX; 14]), Err(1));
    assert_eq!(smooth(&[0; 16]), Err(1));
    assert_eq!(smooth(&[]), Err(1));
}

#[test]
fn fit_cases() {
    assert_eq!(fit(&[500; 52]), Ok(Fitted { midpoint: 1, slope: 0 }));
    assert_eq!(fit(&[499; 52]), Ok(Fitted { midpoint: 0, slope: 0 }));
    assert_eq!(fit(&[-500; 52]), Ok(Fitted { midpoint: 0, slope: 0 }));
    assert_eq!(fit(&[-501; 52]), Ok(Fitted { midpoint: -1, slope: 0 }));
    assert_eq!(fit(&[-510; 52]), Ok(Fitted { midpoint: -1, slope: 0 }));
    let ramp: Vec<i64> = (0..52).map(|j| 150 * j).collect();
    assert_eq!(fit(&ramp), Ok(Fitted { midpoint: 4, slope: 10 }));
    assert_eq!(fit(&last(3450)).map(|f| f.slope), Ok(1));
    assert_eq!(fit(&last(3440)).map(|f| f.slope), Ok(0));
    // the last value alone gives 4x / 27560, half a unit at 3445, and a tie goes up
    assert_eq!((fit(&last(3445)).map(|f| f.slope), fit(&last(3444)).map(|f| f.slope)), (Ok(1), Ok(0)));
    assert_eq!((fit(&last(-3445)).map(|f| f.slope), fit(&last(-3446)).map(|f| f.slope)), (Ok(0), Ok(-1)));
    assert_eq!(fit(&[20_000_000_000_001; 52]), Err(2));
    assert_eq!(fit(&[-20_000_000_000_001; 52]), Err(2));
    assert_eq!(fit(&[20_000_000_000_001; 53]), Err(1));
    assert_eq!(fit(&[20_000_000_000_000; 52]), Ok(Fitted { midpoint: 20_000_000_000, slope: 0 }));
}

#[test]
fn scatter_cases() {
    assert_eq!(scatter(&waves(490)), Ok(0));
    assert_eq!(scatter(&waves(499)), Ok(0));
    assert_eq!(scatter(&waves(500)), Ok(1));
    assert_eq!(scatter(&waves(1499)), Ok(1));
    assert_eq!(scatter(&waves(1500)), Ok(2));
    assert_eq!(scatter(&waves(9_999_490)), Ok(9999));
    assert_eq!(scatter(&waves(9_999_499)), Ok(9999));
    assert_eq!(scatter(&waves(9_999_500)), Err(6));
    // the sum of squares is 0 modulo 2^64
    assert_eq!(scatter(&waves(1 << 32)), Err(6));
    assert_eq!(scatter(&waves(20_000_000_000_000)), Err(6));
    assert_eq!(scatter(&waves(20_000_000_000_001)), Err(2));
    assert_eq!(scatter(&waves(20_000_000_000_001)[..3]), Err(1));
}

#[test]
fn start_cases() {
    assert_eq!(start(50722, 120), 0);
    assert_eq!(start(50722, 84600), 0);
    assert_eq!(start(50722, 85560), 8);
    assert_eq!(start(50723, 840), 0);
    assert_eq!(start(50723, 86040), 0);
    assert_eq!(start(50723, 86280), 8);
    assert_eq!(start(50723, 120), 8);
    assert_eq!(start(50721, 120), 7);
    assert_eq!(start(100_000, 120), 7);
    assert_eq!(start(50722, 86400 + 120), 8);
    assert_eq!(start(u32::MAX, u32::MAX), 7);
    assert_eq!(start(50722, u32::MAX), 8);
}

#[test]
fn each_day_has_89_starts() {
    for mjd in (50722..=99999).step_by(997) {
        assert_eq!((0..86400).filter(|second| start(mjd, *second) == 0).count(), 89);
    }
}

/// The minutes at which a day's tracks start.
fn starts(mjd: u32) -> Vec<u32> {
    (0..1440).filter(|minute| start(mjd, 60 * minute) == 0).collect()
}

/// Document 003 prints tracks of MJD 56842 at 00:14, 00:30, 00:46 and 01:02, document 000 of MJD 57000 at 00:06.
#[test]
fn starts_of_the_published_files() {
    assert_eq!(starts(56842)[..4], [14, 30, 46, 62]);
    assert_eq!(starts(57000)[0], 6);
}

/// Tracks repeat after 1436 minutes: 16 minutes apart but for one gap of 28, and the same again after 359 days.
#[test]
fn starts_from_day_to_day() {
    assert_eq!(starts(50722), (0..89).map(|k| 2 + 16 * k).collect::<Vec<u32>>());
    for mjd in 50722..50722 + 359 {
        let of_day = starts(mjd);
        let mut next: Vec<u32> = of_day.iter().map(|minute| (minute + 1432) % 1436).collect();
        next.sort_unstable();
        assert_eq!(starts(mjd + 1), next);
        let after = of_day[1..].iter().copied().chain([of_day[0] + 1436]);
        let mut gaps: Vec<u32> = of_day.iter().zip(after).map(|(minute, next)| next - minute).collect();
        gaps.sort_unstable();
        assert_eq!((&gaps[..88], gaps[88]), (&[16; 88][..], 28));
    }
    assert_eq!(starts(50722 + 359), starts(50722));
}

#[test]
fn lent_lines() {
    let numbers = Numbers { trkl: 780, refsv: 10, refsys: 10, ..Numbers::default() };
    let mut lent = [7; 114];
    assert_eq!(line(&SAMPLE_LABELS, &numbers, &mut lent[..112]), 9);
    assert_eq!(lent, [7; 114]);
    assert_eq!(line(&SAMPLE_LABELS, &numbers, &mut []), 9);
    assert_eq!(line(&SAMPLE_LABELS, &numbers, &mut lent), 0);
    assert_eq!(&lent[..113], SAMPLE_LINE.as_bytes());
    assert_eq!(lent[113], 7);
}

#[test]
fn sample_block() {
    assert_eq!(run_block(&Given::constant(1000).block(&SAMPLE_LABELS)).as_deref(), Ok(SAMPLE_LINE));
    let packed = include_bytes!("../../../../examples/sample.blk");
    assert_eq!(run_block(packed).as_deref(), Ok(SAMPLE_LINE));
}
