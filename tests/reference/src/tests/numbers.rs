//! Track and Block by hand: the signs of the corrections, the limits, the order of the refusals.

use super::*;

const LARGE: i64 = 999_999_999_949;

fn changed(change: impl Fn(&mut Given)) -> Given {
    let mut given = Given::constant(1000);
    change(&mut given);
    given
}

/// The sample with a change gives this refusal, or 0.
fn expect(refusal: u32, change: impl Fn(&mut Given)) {
    assert_eq!(changed(change).track().err().unwrap_or(0), refusal);
}

#[test]
fn signs_of_the_corrections() {
    let mut given = Given::constant(1_000_000);
    given.delays = Delays { int: 100_000, cab: 200_000, refdly: 50_000, gd: 30_000 };
    for (column, value) in given.columns.iter_mut().zip([500_000, 7_000, 11_000, 13_000, 19_000]) {
        column.fill(value);
    }
    let record = given.track().expect("accepted");
    // 1000000 - (100000 + 200000 - 50000) - 500000 + 7000 - 11000 - 13000 - 30000 = 203000
    assert_eq!(record.a, [2_030_000; MOST_BLOCKS]);
    assert_eq!(record.b, [2_220_000; MOST_BLOCKS]);
    assert_eq!(record.c, [130_000; MOST_BLOCKS]);
    assert_eq!(record.d, [110_000; MOST_BLOCKS]);
    let n = record.numbers;
    assert_eq!((n.refsv, n.srsv, n.refsys, n.srsys), (2030, 0, 2220, 0));
    assert_eq!((n.mdtr, n.smdt, n.mdio, n.smdi, n.dsg, n.trkl), (130, 0, 110, 0, 0, 780));
}

#[test]
fn refsys_is_fitted_and_not_added() {
    // A is 50 (REFSV 1), B is 50 + 50 = 100 (REFSYS 1); rounded terms would give 1 + 1
    let given = changed(|g| {
        g.measurements.fill(50);
        g.columns[4].fill(50);
    });
    let n = given.track().expect("accepted").numbers;
    assert_eq!((n.refsv, n.refsys), (1, 1));
}

#[test]
fn midpoint_is_at_389_and_a_half() {
    // 100 ps at each second's own number: 38950 ps at the mean date, and a slope of 1000 in 0.1 ps/s
    let given = changed(|g| g.measurements.iter_mut().enumerate().for_each(|(i, m)| *m = 100 * i as i64));
    let n = given.track().expect("accepted").numbers;
    assert_eq!((n.refsv, n.srsv, n.dsg), (390, 1000, 0)); // 389.5, a tie, goes up
}

#[test]
fn counts_are_1() {
    expect(1, |g| g.measurements.push(0));
    expect(1, |g| g.measurements.clear());
    for k in 0..5 {
        expect(1, |g| g.columns[k].push(0));
        expect(1, |g| g.columns[k].truncate(51));
    }
    expect(1, |g| {
        g.measurements[0] = i64::MAX;
        g.columns[4].clear();
    });
}

#[test]
fn limits_are_2() {
    for at in [0, 389, 779] {
        for bad in [1_000_000_000_001, -1_000_000_000_001, i64::MIN, i64::MAX] {
            expect(2, |g| g.measurements[at] = bad);
        }
    }
    for k in 0..5 {
        let limit = if k == 0 { 200_000_000_000 } else { 10_000_000_000 };
        for bad in [limit + 1, -limit - 1, i64::MIN, i64::MAX] {
            expect(2, |g| g.columns[k][0] = bad);
            expect(2, |g| g.columns[k][51] = bad);
        }
        // a column at its limit is no 2: the air's delays are 5, the others fit
        expect(if k == 2 || k == 3 { 5 } else { 0 }, |g| g.columns[k].fill(limit));
    }
    for bad in [10_000_000_001, -10_000_000_001, i64::MIN] {
        expect(2, |g| g.delays.int = bad);
        expect(2, |g| g.delays.cab = bad);
        expect(2, |g| g.delays.refdly = bad);
        expect(2, |g| g.delays.gd = bad);
    }
}

#[test]
fn midpoints_are_3() {
    expect(0, |g| g.measurements.fill(LARGE));
    expect(3, |g| g.measurements.fill(LARGE + 1)); // a tie goes up, to 10000000000
    expect(0, |g| g.measurements.fill(-LARGE - 1)); // a tie goes up, to -9999999999
    expect(3, |g| g.measurements.fill(-LARGE - 2));
    // REFSYS alone, then REFSV alone
    for (measured, clock) in [(LARGE, 1), (LARGE + 1, -1)] {
        expect(3, |g| {
            g.measurements.fill(measured);
            g.columns[4].fill(clock);
        });
    }
}

#[test]
fn slopes_are_4_and_levels_5() {
    // T is 51 times the last value, and 35139 times 99999.5 is just passed
    let steep = (99_999 * 35_139 + 17_570) / 51 + 1;
    expect(4, |g| g.columns[1][51] = steep);
    let slope = (999 * 35_139 + 17_570) / 51 + 1;
    expect(4, |g| g.columns[3][51] = slope);
    expect(0, |g| g.columns[3][51] = slope - 1);
    expect(4, |g| g.columns[2][51] = slope);
    expect(0, |g| g.columns[2][51] = slope - 1);
    for k in [2, 3] {
        expect(0, |g| g.columns[k].fill(999_949));
        expect(5, |g| g.columns[k].fill(999_950));
        expect(0, |g| g.columns[k].fill(-50));
        expect(5, |g| g.columns[k].fill(-51));
    }
}

/// Puts in a fault of this number.
fn spoil(given: &mut Given, number: u32) {
    match number {
        2 => given.delays.gd = i64::MAX,
        3 => {
            given.measurements.fill(1_000_000_000_000);
            given.columns[0].fill(-1_000_000_000);
        }
        4 => given.columns[2][51] += 1_000_000,
        5 => given.columns[3].fill(-51),
        _ => given.columns[4] = [999_950, -999_950, -999_950, 999_950].repeat(13),
    }
}

#[test]
fn order_of_two_faults() {
    for first in 2..=6 {
        for second in first..=6 {
            expect(first, |g| {
                spoil(g, first);
                spoil(g, second);
            });
        }
    }
    expect(0, |g| g.columns[4] = [999_949, -999_949, -999_949, 999_949].repeat(13));
}

#[test]
fn track_before_line() {
    let bad_labels = Labels { satellite: 0, start: 121, ..SAMPLE_LABELS };
    let bad_start = Labels { start: 121, ..SAMPLE_LABELS };
    let deep = changed(|g| g.columns[3].fill(-51));
    assert_eq!(run_block(&deep.block(&bad_labels)), Err(5));
    assert_eq!(run_block(&deep.block(&bad_start)), Err(5));
    assert_eq!(run_block(&Given::constant(0).block(&bad_labels)), Err(7));
    assert_eq!(run_block(&Given::constant(0).block(&bad_start)), Err(8));
    let mut block = deep.block(&bad_start);
    block[2] = 51;
    assert_eq!(run_block(&block), Err(1));
    block.push(0);
    assert_eq!(run_block(&block), Err(1));
    assert_eq!(run_block(&block[..3]), Err(11));
    assert_eq!(run_block(&[]), Err(11));
    block[2] = 52;
    assert_eq!(run_block(&block), Err(11));
    assert_eq!(run_block(&block[..8377]), Err(11));
    let good = Given::constant(0).block(&SAMPLE_LABELS);
    assert_eq!(crate::block(&good, &mut [0; 112]), 9);
    assert_eq!(crate::block(&Given::constant(0).block(&bad_start), &mut []), 8);
}

#[test]
fn bytes_mean_what_the_table_says() {
    let labels = Labels {
        constellation: b'R',
        satellite: 24,
        cl: 0x8D,
        fr: 23,
        hc: 98,
        frc: *b"Z9A",
        mjd: 50723,
        start: 840,
        elv: 899,
        azth: 3598,
        ioe: 95,
    };
    let mut given = Given::constant(-1_234_567);
    given.delays = Delays { int: 1, cab: -20, refdly: 300, gd: -4000 };
    given.columns[0][0] = -5200; // S of A and B grows by 5200: one more in REFSV and REFSYS
    given.columns[4].fill(-100);
    let block = given.block(&labels);
    assert_eq!(block[26..34], 1i64.to_le_bytes());
    assert_eq!(block[58..66], (-1_234_567i64).to_le_bytes());
    assert_eq!(block[6298..6306], (-5200i64).to_le_bytes());
    assert_eq!(block[8370..8378], (-100i64).to_le_bytes());
    // A is -1234567 - (1 - 20 - 300) + 4000 = -1230248, its sum of places -51 * 5200 = -265200 (slope -7.55);
    // DSG is 52 residuals, all but the first small: 5200 * sqrt(about 0.92 / 52) = about 692 ps, that is 7
    assert_eq!(
        run_block(&block).as_deref(),
        Ok(concat!(
            "R24 8D 50723 001400 0780 899 3598 -0000012301 -00008 -0000012302 -00008 ",
            "0007 095 0000 +000 0000 +000 23 98 Z9A A4"
        ))
    );
}
