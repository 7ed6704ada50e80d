//! Common view: what two line files say of the tracks that are in both.

use crate::files::{kept, Keys};

/// Bytes of the longest file, one of 10,000 lines.
pub const LONGEST_FILE: usize = 1_150_000;
/// A report as C gets it.
pub const REPORT_VALUES: usize = 4;

/// What the differences of REFSYS, first less second and in 0.1 ns, come to: how many they are, what they add up to, and
/// between which two they lie.
#[derive(Clone, Copy, Debug, PartialEq, Eq)]
pub struct View {
    pub pairs: i64,
    pub sum: i64,
    pub smallest: i64,
    pub largest: i64,
}

/// A line: its keys, then its TRKL and REFSYS.
type Sight = (Keys, (i64, i64));

fn sights(file: &[u8]) -> Result<Vec<Sight>, u32> {
    kept(file, |_, numbers| (numbers.trkl, numbers.refsys))
}

/// First REFSYS minus second REFSYS of each pair: two lines of the same keys and the same TRKL. Each is within
/// 2 × 10^10.
fn differences(first: &[Sight], second: &[Sight]) -> Vec<i64> {
    let mut differences = Vec::with_capacity(first.len().min(second.len()));
    let (mut m, mut n) = (0, 0);
    while m < first.len() && n < second.len() {
        let ((first_keys, (trkl, refsys)), (second_keys, (other_trkl, other_refsys))) = (first[m], second[n]);
        if first_keys == second_keys && trkl == other_trkl {
            differences.push(refsys - other_refsys);
        }
        m += usize::from(first_keys <= second_keys);
        n += usize::from(second_keys <= first_keys);
    }
    differences
}

/// Common view, or the refusal: 19 for a file that is too long, then the first file's, then the second's, then 18
/// where there is no pair. The sum of at most 10,000 differences is within 2 × 10^14.
pub fn common_view(first: &[u8], second: &[u8]) -> Result<View, u32> {
    if first.len() > LONGEST_FILE || second.len() > LONGEST_FILE {
        return Err(19);
    }
    let first = sights(first)?;
    let second = sights(second)?;
    let differences = differences(&first, &second);
    let (Some(&smallest), Some(&largest)) = (differences.iter().min(), differences.iter().max()) else {
        return Err(18);
    };
    Ok(View { pairs: differences.len() as i64, sum: differences.iter().sum(), smallest, largest })
}

/// Common view as C calls it: 0 and the first four of the lent values written, or the refusal and none. 9, for fewer
/// than four, comes after every other refusal.
pub fn view_values(first: &[u8], second: &[u8], lent: &mut [i64]) -> u32 {
    let View { pairs, sum, smallest, largest } = match common_view(first, second) {
        Ok(view) => view,
        Err(refusal) => return refusal,
    };
    if lent.len() < REPORT_VALUES {
        return 9;
    }
    lent[..REPORT_VALUES].copy_from_slice(&[pairs, sum, smallest, largest]);
    0
}
