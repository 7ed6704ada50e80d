//! Tracks of 4 to 52 blocks by hand.

use super::*;
use crate::waves::wave;
use crate::{fit, scatter, Fitted};

/// n values, the last one this and the others 0.
fn last(n: usize, value: i64) -> Vec<i64> {
    let mut v = vec![0; n];
    v[n - 1] = value;
    v
}

fn times(k: i64, values: &[i64]) -> Vec<i64> {
    values.iter().map(|v| k * v).collect()
}

#[test]
fn counts_of_fit_and_scatter_are_1() {
    for n in 0..=120 {
        let (good, beyond) = (vec![0; n], vec![20_000_000_000_001; n]);
        let fits = (4..=52).contains(&n);
        let zero = Fitted { midpoint: 0, slope: 0 };
        assert_eq!(fit(&good), if fits { Ok(zero) } else { Err(1) }, "{n}");
        assert_eq!(scatter(&good), if fits { Ok(0) } else { Err(1) }, "{n}");
        assert_eq!(fit(&beyond), Err(if fits { 2 } else { 1 }), "{n}");
        assert_eq!(scatter(&beyond), Err(if fits { 2 } else { 1 }), "{n}");
    }
}

#[test]
fn lines_through_n_values() {
    for n in 4..=52 {
        assert_eq!(fit(&vec![500; n]), Ok(Fitted { midpoint: 1, slope: 0 }));
        assert_eq!(fit(&vec![499; n]), Ok(Fitted { midpoint: 0, slope: 0 }));
        assert_eq!(fit(&vec![-500; n]), Ok(Fitted { midpoint: 0, slope: 0 }));
        assert_eq!(fit(&vec![-501; n]), Ok(Fitted { midpoint: -1, slope: 0 }));
        // 1 ps a second from the first value on: half of 15(n - 1) ps in the middle
        let ramp: Vec<i64> = (0..n as i64).map(|j| 150 * j).collect();
        let midpoint = (15 * (n as i64 - 1) + 100) / 200;
        assert_eq!(fit(&ramp), Ok(Fitted { midpoint, slope: 10 }), "{n}");
    }
    // the last value alone gives 4x / (10n(n + 1)): x / 50, x / 75, x / 105, x / 275, x / 6630, x / 6890
    for (n, one) in [(4, 25), (6, 53), (10, 138), (51, 3315), (52, 3445)] {
        assert_eq!(fit(&last(n, one)).map(|f| f.slope), Ok(1), "{n}");
        assert_eq!(fit(&last(n, one - 1)).map(|f| f.slope), Ok(0), "{n}");
        assert_eq!(fit(&last(n, -one - 1)).map(|f| f.slope), Ok(-1), "{n}");
    }
    // half way is 25 for 4 values, 37.5 for 5 and 90 for 8: a tie goes up
    let slopes = |n: usize, values: [i64; 4]| values.map(|v| fit(&last(n, v)).map(|f| f.slope).unwrap_or(99));
    assert_eq!(slopes(4, [25, 24, -25, -26]), [1, 0, 0, -1]);
    assert_eq!(slopes(5, [38, 37, -37, -38]), [1, 0, 0, -1]);
    assert_eq!(slopes(8, [90, 89, -90, -91]), [1, 0, 0, -1]);
}

#[test]
fn scatter_of_n_values() {
    // Q is 4a²: 250000 for each of the four at 500
    for (a, dsg) in [(0, 0), (499, 0), (500, 1), (1499, 1), (1500, 2), (9_999_499, 9999)] {
        assert_eq!(scatter(&[a, -a, -a, a]), Ok(dsg));
    }
    assert_eq!(scatter(&[9_999_500, -9_999_500, -9_999_500, 9_999_500]), Err(6));
    for n in 4..=52 {
        let wave = wave(n);
        assert_eq!((wave.len(), wave.iter().map(|v| v * v).sum::<i64>()), (n, 4 * n as i64));
        assert_eq!(wave.iter().sum::<i64>(), 0);
        assert_eq!(wave.iter().zip(0..).map(|(v, j)| j * v).sum::<i64>(), 0);
        for (k, dsg) in
            [(249, Ok(0)), (250, Ok(1)), (749, Ok(1)), (750, Ok(2)), (4_999_749, Ok(9999)), (4_999_750, Err(6))]
        {
            assert_eq!(scatter(&times(k, &wave)), dsg, "{k} times the wave of {n}");
            // on a line its residuals are the same
            let on_line = |line: i64| times(k, &wave).iter().zip(0..).map(|(v, j)| v + 7_000_000 - line * j).collect();
            let (up, down): (Vec<i64>, Vec<i64>) = (on_line(-1234), on_line(987_654));
            assert_eq!((scatter(&up), scatter(&down)), (dsg, dsg));
        }
    }
}

#[test]
fn record_of_n_blocks() {
    for n in 4..=52 {
        let mut given = Given::of(n, 1_000_000);
        given.delays = Delays { int: 100_000, cab: 200_000, refdly: 50_000, gd: 30_000 };
        for (column, value) in given.columns.iter_mut().zip([500_000, 7_000, 11_000, 13_000, 19_000]) {
            column.fill(value);
        }
        let record = given.track().expect("accepted");
        assert_eq!(record.blocks, n);
        for (kind, value) in [(record.a, 2_030_000), (record.b, 2_220_000), (record.c, 130_000), (record.d, 110_000)] {
            let places: Vec<i64> = (0..52).map(|j| if j < n { value } else { 0 }).collect();
            assert_eq!(kind[..], places);
        }
        let numbers = record.numbers;
        assert_eq!((numbers.refsv, numbers.refsys, numbers.mdtr, numbers.mdio), (2030, 2220, 130, 110));
        assert_eq!((numbers.srsv, numbers.srsys, numbers.smdt, numbers.smdi, numbers.dsg), (0, 0, 0, 0, 0));
        assert_eq!(numbers.trkl, 15 * n as i64);
    }
}

#[test]
fn midpoint_is_at_the_mean_date_of_n_values() {
    // 100 ps at each second's own number: the mean date is second 7 + 15(n - 1) / 2, and a half goes up
    for n in 4..=52 {
        let mut given = Given::of(n, 0);
        given.measurements.iter_mut().zip(0..).for_each(|(m, second)| *m = 100 * second);
        let numbers = given.track().expect("accepted").numbers;
        assert_eq!((numbers.refsv, numbers.srsv, numbers.dsg), ((15 * n as i64) / 2, 1000, 0), "{n}");
    }
}

#[test]
fn lists_that_disagree_are_1() {
    let answer = |given: &Given| given.track().err().unwrap_or(0);
    for n in 0..=60 {
        let fits = (4..=52).contains(&n);
        assert_eq!(answer(&Given::of(n, 1000)), if fits { 0 } else { 1 });
        for off in [1, 14, 15, 16] {
            let mut given = Given::of(n, 1000);
            given.measurements.extend(vec![1000; off]);
            assert_eq!(answer(&given), 1, "{n} and {off} measurements more");
            given.measurements.truncate((15 * n).saturating_sub(off));
            assert_eq!(answer(&given), 1, "{n} and {off} measurements fewer");
        }
        for k in 0..5 {
            let mut given = Given::of(n, 1000);
            given.columns[k].push(0);
            assert_eq!(answer(&given), 1);
            given.columns[k].truncate(n.saturating_sub(1));
            assert_eq!(answer(&given), 1);
        }
        // the counts come before what stands in the lists
        let mut given = Given::of(n, i64::MAX);
        assert_eq!(answer(&given), if fits { 2 } else { 1 });
        given.columns[4].push(0);
        assert_eq!(answer(&given), 1);
    }
}

#[test]
fn last_places_are_looked_at() {
    for n in 4..=52 {
        let beyond = |change: &dyn Fn(&mut Given)| {
            let mut given = Given::of(n, 1000);
            change(&mut given);
            given.track().err().unwrap_or(0)
        };
        assert_eq!(beyond(&|g| g.measurements[15 * n - 1] = 1_000_000_000_001), 2);
        (0..5).for_each(|k| assert_eq!(beyond(&|g| g.columns[k][n - 1] = -200_000_000_001), 2));
        // the slope of a column is 4x / (n(n + 1)): 1000 of its unit from 1000 n(n + 1) / 4 - n(n + 1) / 8 on
        let most = (1999 * n * (n + 1) - 1) as i64 / 8;
        assert_eq!(beyond(&|g| g.columns[3][n - 1] = most), 0, "{n}");
        assert_eq!(beyond(&|g| g.columns[3][n - 1] = most + 1), 4, "{n}");
    }
}

/// The sample of four blocks: its track length is 0060, which is 9 less in the sum of the columns than 0780.
#[test]
fn sample_of_four_blocks() {
    let line = SAMPLE_LINE.replace("0780", "0060").replace("L1C 26", "L1C 1D");
    assert_eq!(run_block(&Given::of(4, 1000).block(&SAMPLE_LABELS)), Ok(line));
    let line = SAMPLE_LINE.replace("0780", "0765").replace("L1C 26", "L1C 29");
    assert_eq!(run_block(&Given::of(51, 1000).block(&SAMPLE_LABELS)), Ok(line));
}

#[test]
fn corrections_begin_behind_the_measurements() {
    // 4 blocks: 60 measurements from byte 58 on, 4 groups of five from byte 538 on, 698 bytes
    let mut given = Given::of(4, 0);
    given.columns[0][0] = -400; // one more in REFSV and REFSYS by the sum of four
    given.columns[4][3] = -4000; // ten less in REFSYS
    let block = given.block(&SAMPLE_LABELS);
    assert_eq!((block.len(), block_bytes(4), block_bytes(52)), (698, 698, 8378));
    assert_eq!(block[538..546], (-400i64).to_le_bytes());
    assert_eq!(block[690..698], (-4000i64).to_le_bytes());
    // T of A is -3 x 400, that of B -3 x 4000 more, and a slope is T / 15. B's residuals are its values + 900 + 660 times
    // their place: -680, 240, 1560, -1120. Their squares sum to 4208000, which is 4 times 1025.7 squared.
    let line = run_block(&block).expect("accepted");
    assert_eq!(&line[20..76], "0060 450 1800 +0000000001 -00080 -0000000009 -00880 0010");
}

#[test]
fn block_lengths_and_sizes_in_order() {
    for n in 4..=52 {
        let block = Given::of(n, 1000).block(&SAMPLE_LABELS);
        for length in 0..block.len() {
            assert_eq!(run_block(&block[..length]), Err(11), "{length} bytes of {n} blocks");
        }
        assert!(run_block(&block).is_ok());
        for more in [1, 2, 40, 120, 160, 320] {
            assert_eq!(run_block(&[&block[..], &vec![0; more]].concat()), Err(11));
        }
        let sized = |seconds: usize, blocks: usize| {
            let mut bytes = block.clone();
            bytes[..2].copy_from_slice(&(seconds as u16).to_le_bytes());
            bytes[2..4].copy_from_slice(&(blocks as u16).to_le_bytes());
            run_block(&bytes).err().unwrap_or(0)
        };
        for other in 0..=60 {
            // sizes of another number of blocks that a track may have: the length is not theirs
            let expected = if other == n {
                0
            } else if (4..=52).contains(&other) {
                11
            } else {
                1
            };
            assert_eq!(sized(15 * other, other), expected, "{n} with the sizes of {other}");
        }
        for (seconds, blocks) in [(15 * n - 1, n), (15 * n + 1, n), (15 * n, n - 1), (15 * n, n + 1), (n, 15 * n)] {
            assert_eq!(sized(seconds, blocks), 1);
        }
    }
}

#[test]
fn zero_bytes() {
    for length in 0..=8400 {
        assert_eq!(run_block(&vec![0; length]), Err(if length < 4 { 11 } else { 1 }), "{length} zero bytes");
    }
    // a cut block whose sizes are wrong is 1, the sizes of 52 in 4 bytes are 11
    assert_eq!(run_block(&[45, 0, 3, 0]), Err(1));
    assert_eq!(run_block(&[0x0C, 3, 52, 0]), Err(11));
}
