mod dated;
mod days;
mod document_cases;
mod exact;
mod merging;
mod numbers;
mod paths;
mod published;
mod reading;
mod shifting;
mod short;
mod steps;
mod text;
mod version01;
mod viewing;

use crate::{block_bytes, Columns, Delays, Labels, Record, BLOCK_SECONDS, MOST_BLOCKS};

/// The labels of the paper's sample.
pub const SAMPLE_LABELS: Labels = Labels {
    constellation: b'G',
    satellite: 5,
    cl: 255,
    fr: 0,
    hc: 0,
    frc: *b"L1C",
    mjd: 50722,
    start: 120,
    elv: 450,
    azth: 1800,
    ioe: 7,
};

pub const SAMPLE_LINE: &str = "G05 FF 50722 000200 0780 450 1800 +0000000010 +00000 +0000000010 +00000 \
                               0000 007 0000 +000 0000 +000 00 00 L1C 26";

/// Everything that Track is given.
#[derive(Clone)]
pub struct Given {
    pub measurements: Vec<i64>,
    pub delays: Delays,
    pub columns: [Vec<i64>; 5],
}

impl Given {
    /// Every measurement the same, all else 0; a full track.
    pub fn constant(measurement: i64) -> Given {
        Given::of(MOST_BLOCKS, measurement)
    }

    /// The same for n blocks.
    pub fn of(n: usize, measurement: i64) -> Given {
        Given {
            measurements: vec![measurement; BLOCK_SECONDS * n],
            delays: Delays::default(),
            columns: std::array::from_fn(|_| vec![0; n]),
        }
    }

    fn columns(&self) -> Columns<'_> {
        let [geometry, relativity, ionosphere, troposphere, clock] = &self.columns;
        Columns { geometry, relativity, ionosphere, troposphere, clock }
    }

    pub fn track(&self) -> Result<Record, u32> {
        crate::track(&self.measurements, &self.delays, &self.columns())
    }

    /// With a ps counted in so many steps.
    pub fn track_in<const STEPS: i64>(&self) -> Result<Record, u32> {
        crate::track::track_in::<STEPS>(&self.measurements, &self.delays, &self.columns())
    }

    /// The hire block, by the paper's table of offsets.
    pub fn block(&self, labels: &Labels) -> Vec<u8> {
        let n = self.columns[0].len();
        let mut block = Vec::with_capacity(block_bytes(n));
        block.extend((15 * n as u16).to_le_bytes());
        block.extend((n as u16).to_le_bytes());
        block.extend([labels.constellation, labels.satellite, labels.cl, labels.fr, labels.hc]);
        block.extend(labels.frc);
        block.extend(labels.mjd.to_le_bytes());
        block.extend(labels.start.to_le_bytes());
        block.extend(labels.elv.to_le_bytes());
        block.extend(labels.azth.to_le_bytes());
        block.extend(labels.ioe.to_le_bytes());
        let Delays { int, cab, refdly, gd } = self.delays;
        [int, cab, refdly, gd].iter().for_each(|v| block.extend(v.to_le_bytes()));
        self.measurements.iter().for_each(|v| block.extend(v.to_le_bytes()));
        for j in 0..n {
            self.columns.iter().for_each(|column| block.extend(column[j].to_le_bytes()));
        }
        assert_eq!(block.len(), 58 + 160 * n);
        block
    }
}

/// Block's answer, and its line where it accepts; a refused line must keep what it held.
pub fn run_block(block: &[u8]) -> Result<String, u32> {
    let mut lent = [0xA5; 113];
    let answer = crate::block(block, &mut lent);
    if answer == 0 {
        return Ok(String::from_utf8(lent.to_vec()).expect("a line is ASCII"));
    }
    assert_eq!(lent, [0xA5; 113]);
    Err(answer)
}
