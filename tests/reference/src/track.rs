//! Track: from the measurements of n blocks and their corrections to the ten numbers of a line.

use crate::fit::{blocks_fit, fit_in, scatter_in, smooth_in};
use crate::fit::{MEASUREMENT_LIMIT, MOST_BLOCKS, MOST_DSG, TENTHS};
use crate::within;

/// Measurements that make one smoothed value.
pub const BLOCK_SECONDS: usize = 15;
/// Measurements of the longest track, one a second.
pub const MOST_SECONDS: usize = BLOCK_SECONDS * MOST_BLOCKS;

const GEOMETRY_LIMIT: i64 = 200_000_000_000;
pub(crate) const CORRECTION_LIMIT: i64 = 10_000_000_000;

/// The single numbers, in ps. `refdly` is the paper's REF.
#[derive(Clone, Copy, Debug, Default, PartialEq, Eq)]
pub struct Delays {
    pub int: i64,
    pub cab: i64,
    pub refdly: i64,
    pub gd: i64,
}

/// The five columns of corrections, a value for each block, in ps.
#[derive(Clone, Copy, Debug)]
pub struct Columns<'a> {
    pub geometry: &'a [i64],
    pub relativity: &'a [i64],
    pub ionosphere: &'a [i64],
    pub troposphere: &'a [i64],
    pub clock: &'a [i64],
}

/// The ten numbers of a line.
#[derive(Clone, Copy, Debug, Default, PartialEq, Eq)]
pub struct Numbers {
    pub refsv: i64,
    pub srsv: i64,
    pub refsys: i64,
    pub srsys: i64,
    pub mdtr: i64,
    pub smdt: i64,
    pub mdio: i64,
    pub smdi: i64,
    pub dsg: i64,
    pub trkl: i64,
}

impl Numbers {
    /// The track length is that of 4 to 52 blocks.
    pub(crate) fn length_fits(&self) -> bool {
        let blocks = usize::try_from(self.trkl / BLOCK_SECONDS as i64).unwrap_or(0);
        blocks_fit(blocks) && self.trkl % BLOCK_SECONDS as i64 == 0
    }

    /// 3, 4 and 5: the tests that Track and Line share.
    pub(crate) fn check_fits(&self) -> Result<(), u32> {
        if !within(self.refsv, 9_999_999_999) || !within(self.refsys, 9_999_999_999) {
            return Err(3);
        }
        let slopes = within(self.srsv, 99_999) && within(self.srsys, 99_999);
        if !slopes || !within(self.smdt, 999) || !within(self.smdi, 999) {
            return Err(4);
        }
        if !(0..=9999).contains(&self.mdtr) || !(0..=9999).contains(&self.mdio) {
            return Err(5);
        }
        Ok(())
    }

    /// 6 on a number that is given.
    pub(crate) fn check_dsg(&self) -> Result<(), u32> {
        if !(0..=MOST_DSG).contains(&self.dsg) {
            return Err(6);
        }
        Ok(())
    }
}

/// A track's corrected values of each kind, in tenths of a ps, beside its ten numbers: so many of the 52 places are in use, and the
/// others hold 0.
#[derive(Clone, Debug, PartialEq, Eq)]
pub struct Record {
    pub blocks: usize,
    pub a: [i64; MOST_BLOCKS],
    pub b: [i64; MOST_BLOCKS],
    pub c: [i64; MOST_BLOCKS],
    pub d: [i64; MOST_BLOCKS],
    pub numbers: Numbers,
}

fn all_within(values: &[i64], limit: i64) -> bool {
    values.iter().all(|&v| within(v, limit))
}

/// 1 and 2; else the number of blocks.
#[inline(always)]
fn admit(measurements: &[i64], delays: &Delays, columns: &Columns) -> Result<usize, u32> {
    let Columns { geometry, relativity, ionosphere, troposphere, clock } = *columns;
    let lists = [geometry, relativity, ionosphere, troposphere, clock];
    let n = geometry.len();
    if !blocks_fit(n) || measurements.len() != BLOCK_SECONDS * n || lists.iter().any(|list| list.len() != n) {
        return Err(1);
    }
    let singles = [delays.int, delays.cab, delays.refdly, delays.gd];
    let good = all_within(measurements, MEASUREMENT_LIMIT)
        && all_within(geometry, GEOMETRY_LIMIT)
        && all_within(&singles, CORRECTION_LIMIT)
        && lists[1..].iter().all(|list| all_within(list, CORRECTION_LIMIT));
    if !good {
        return Err(2);
    }
    Ok(n)
}

/// Track: a record, or the refusal.
#[inline(always)]
pub fn track(measurements: &[i64], delays: &Delays, columns: &Columns) -> Result<Record, u32> {
    track_in::<TENTHS>(measurements, delays, columns)
}

/// The same with a ps counted in so many steps. What is given is in ps, and what is fitted in steps.
#[inline(always)]
pub(crate) fn track_in<const STEPS: i64>(
    measurements: &[i64],
    delays: &Delays,
    columns: &Columns,
) -> Result<Record, u32> {
    let n = admit(measurements, delays, columns)?;
    let mut a = [0; MOST_BLOCKS];
    let mut b = [0; MOST_BLOCKS];
    let mut c = [0; MOST_BLOCKS];
    let mut d = [0; MOST_BLOCKS];
    for j in 0..n {
        let smoothed = smooth_in::<STEPS>(&measurements[BLOCK_SECONDS * j..BLOCK_SECONDS * (j + 1)])?;
        a[j] = smoothed - STEPS * (delays.int + delays.cab - delays.refdly) - STEPS * columns.geometry[j]
            + STEPS * columns.relativity[j]
            - STEPS * columns.ionosphere[j]
            - STEPS * columns.troposphere[j]
            - STEPS * delays.gd;
        b[j] = a[j] + STEPS * columns.clock[j];
        c[j] = STEPS * columns.troposphere[j];
        d[j] = STEPS * columns.ionosphere[j];
    }
    let fit = |kind: &[i64]| fit_in::<STEPS>(kind);
    let (line_a, line_b, line_c, line_d) = (fit(&a[..n])?, fit(&b[..n])?, fit(&c[..n])?, fit(&d[..n])?);
    let mut numbers = Numbers {
        refsv: line_a.midpoint,
        srsv: line_a.slope,
        refsys: line_b.midpoint,
        srsys: line_b.slope,
        mdtr: line_c.midpoint,
        smdt: line_c.slope,
        mdio: line_d.midpoint,
        smdi: line_d.slope,
        dsg: 0,
        trkl: measurements.len() as i64,
    };
    numbers.check_fits()?;
    numbers.dsg = scatter_in::<STEPS>(&b[..n])?;
    Ok(Record { blocks: n, a, b, c, d, numbers })
}
