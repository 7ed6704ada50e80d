//! A block as numbers, so that faults can be put into it, and good ones to start from.

use reference::good::{good_blocks, good_labels};
use reference::seeded::Seeded;
use reference::{block_bytes, Delays, Labels, BLOCK_SECONDS, MOST_BLOCKS};

pub const GEOMETRY: usize = 0;
pub const RELATIVITY: usize = 1;
pub const IONOSPHERE: usize = 2;
pub const TROPOSPHERE: usize = 3;
pub const CLOCK: usize = 4;

#[derive(Clone)]
pub struct Case {
    pub sizes: (u16, u16),
    pub labels: Labels,
    pub delays: Delays,
    pub measurements: Vec<i64>,
    pub columns: [Vec<i64>; 5],
}

/// Twice the place of value j from the middle of n.
pub fn place(n: usize, j: usize) -> i64 {
    2 * j as i64 + 1 - n as i64
}

/// n(n² - 1), in which a slope is 4T and a residual's part of T is 3 times its place.
pub fn span(n: usize) -> i64 {
    (n * (n * n - 1)) as i64
}

/// n values about a level, with a step from each to the next and noise.
fn column(seeded: &mut Seeded, n: usize, level: i64, step: i64, noise: i64) -> Vec<i64> {
    (0..n).map(|j| level + step * place(n, j) / 2 + seeded.range(-noise, noise)).collect()
}

/// Noise that moves a slope of n values as this noise moves one of 52.
fn scaled(noise: i64, n: usize) -> i64 {
    (noise as f64 * (span(n) as f64 / span(MOST_BLOCKS) as f64).sqrt()) as i64
}

/// A case of any number of blocks, 4 and 52 more often.
pub fn good(seeded: &mut Seeded) -> Case {
    let n = good_blocks(seeded);
    good_of(n, seeded)
}

/// A case of n blocks that Track accepts where it may have so many, far enough inside its limits that a fault put in is the
/// only one.
pub fn good_of(n: usize, seeded: &mut Seeded) -> Case {
    let (level, slope) = (seeded.spread(700_000_000_000), seeded.spread(6_000));
    let noise = seeded.spread(scaled(2_000_000, n)).abs();
    let middle = (BLOCK_SECONDS * n) as i64 - 1;
    let measurements =
        (0..=middle).map(|i| level + slope * (2 * i - middle) / 2 + seeded.range(-noise, noise)).collect();
    let mut single = || seeded.spread(100_000_000);
    let delays = Delays { int: single(), cab: single(), refdly: single(), gd: single() };
    let columns = [
        (180_000_000_000, 15_000, 1_000), // geometry: level, step and noise, at most
        (100_000_000, 1_000, 1_000),
        (0, 900, 1_000),
        (0, 900, 1_000),
        (1_000_000_000, 7_000, 1_000),
    ]
    .map(|(level, step, noise)| {
        let about = if level == 0 { seeded.range(1_000, 900_000) } else { seeded.spread(level) };
        let (step, noise) = (seeded.spread(step), seeded.spread(scaled(noise, n)).abs());
        column(seeded, n, about, step, noise)
    });
    let sizes = ((BLOCK_SECONDS * n) as u16, n as u16);
    Case { sizes, labels: good_labels(seeded), delays, measurements, columns }
}

impl Case {
    /// The number of blocks, whatever the sizes say.
    pub fn blocks(&self) -> usize {
        self.columns[0].len()
    }

    /// The hire block, by the paper's table of offsets.
    pub fn bytes(&self) -> Vec<u8> {
        let mut block = Vec::with_capacity(block_bytes(self.blocks()));
        block.extend(self.sizes.0.to_le_bytes());
        block.extend(self.sizes.1.to_le_bytes());
        let l = &self.labels;
        block.extend([l.constellation, l.satellite, l.cl, l.fr, l.hc]);
        block.extend(l.frc);
        block.extend(l.mjd.to_le_bytes());
        block.extend(l.start.to_le_bytes());
        [l.elv, l.azth, l.ioe].iter().for_each(|v| block.extend(v.to_le_bytes()));
        let Delays { int, cab, refdly, gd } = self.delays;
        [int, cab, refdly, gd].iter().for_each(|v| block.extend(v.to_le_bytes()));
        self.measurements.iter().for_each(|v| block.extend(v.to_le_bytes()));
        for j in 0..self.blocks() {
            self.columns.iter().for_each(|column| block.extend(column[j].to_le_bytes()));
        }
        block
    }

    /// Adds k times its place to each value of a column: its sum stays.
    pub fn tilt(&mut self, column: usize, k: i64) {
        let n = self.blocks();
        self.columns[column].iter_mut().enumerate().for_each(|(j, v)| *v += k * place(n, j));
    }

    pub fn shift(&mut self, column: usize, by: i64) {
        self.columns[column].iter_mut().for_each(|v| *v += by);
    }

    pub fn mean(&self, column: usize) -> i64 {
        self.columns[column].iter().sum::<i64>() / self.blocks() as i64
    }

    /// A's mean before rounding, near enough to aim with.
    pub fn mean_a(&self) -> i64 {
        let measured = self.measurements.iter().sum::<i64>() / self.measurements.len() as i64;
        let d = &self.delays;
        measured - (d.int + d.cab - d.refdly) - self.mean(GEOMETRY) + self.mean(RELATIVITY)
            - self.mean(IONOSPHERE)
            - self.mean(TROPOSPHERE)
            - d.gd
    }
}
