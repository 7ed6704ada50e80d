//! The functions on line files.

use super::{as_row, as_text, Compare, Lent, Sides, GUARD};
use crate::library::{self, Bytes};
use reference::REPORT_VALUES;

/// The four values of a common view, or its refusal.
pub type Report = Result<[i64; REPORT_VALUES], u32>;

impl Compare {
    /// A lent file at any alignment and of any length, filled with seeded bytes, twice.
    pub(super) fn files(&mut self, lent: Lent) -> (Sides<u8>, std::ops::Range<usize>) {
        let start = GUARD + self.seeded.below(8) as usize;
        let from = self.seeded.below(self.pool.len() as u64) as usize;
        let before = self.pool.iter().cycle().skip(from).take(start + lent.len() + GUARD).copied().collect();
        (Sides::new(before, start), start..start + lent.len())
    }

    /// Merge. Gives the answer of the plain Rust implementation.
    pub fn merge(&mut self, family: &str, first: Bytes, second: Bytes, lent: Lent) -> u32 {
        let (mut files, at) = self.files(lent);
        let (moved_first, first_shift) = self.moved(first);
        let (moved_second, second_shift) = self.moved(second);
        let handed = (first.map(|_| &moved_first[first_shift..]), second.map(|_| &moved_second[second_shift..]));
        let given = (first.unwrap_or_default(), second.unwrap_or_default());
        // three numbers, of which the middle one is lent
        let before = [self.seeded.bits() as usize; 3];
        let mut written = before;
        let result = reference::merge(given.0, given.1, &mut files.wanted[at.clone()]);
        let wanted = result.err().unwrap_or(0);
        let fast = fast::merge(given.0, given.1, &mut files.fast[at.clone()]);
        self.fast(family, result, fast, &files);
        let lent_bytes = (lent != Lent::Null).then(|| &mut files.got[at]);
        let got = library::merge(handed.0, handed.1, lent_bytes, &mut written[1]);
        *self.answers.entry(("merge", wanted)).or_default() += 1;
        let wanted_written = [before[0], result.unwrap_or(before[1]), before[2]];
        let intact = handed == (first, second);
        if wanted != got || !files.agree(wanted) || written != wanted_written || !intact {
            let numbers = format!("written: should be {wanted_written:?}, was {written:?}");
            let lengths = (given.0.len(), given.1.len(), lent, numbers, if intact { "" } else { "a file changed" });
            let case = (lengths, as_text(given.0), as_text(given.1));
            self.show(family, &case, wanted, got, files.difference(as_text));
        }
        wanted
    }

    /// A pair of files whose answer is known; the plain Rust implementation must give it.
    pub fn merge_known(&mut self, family: &str, files: (&[u8], &[u8]), lent: Lent, expected: u32) {
        let answer = self.merge(family, Some(files.0), Some(files.1), lent);
        if answer != expected {
            eprintln!("{family}: the answer is {expected}, and the plain Rust implementation answers {answer}");
            self.shown();
        }
    }
    /// Common view. Gives the report of the plain Rust implementation.
    pub fn view(&mut self, family: &str, first: Bytes, second: Bytes, lent: Lent) -> Report {
        let (mut rows, at) = self.rows(lent);
        let (moved_first, first_shift) = self.moved(first);
        let (moved_second, second_shift) = self.moved(second);
        let handed = (first.map(|_| &moved_first[first_shift..]), second.map(|_| &moved_second[second_shift..]));
        let given = (first.unwrap_or_default(), second.unwrap_or_default());
        let wanted = reference::view_values(given.0, given.1, &mut rows.wanted[at.clone()]);
        let fast = fast::view_values(given.0, given.1, &mut rows.fast[at.clone()]);
        self.fast(family, wanted, fast, &rows);
        let lent_values = (lent != Lent::Null).then(|| &mut rows.got[at.clone()]);
        let got = library::view(handed.0, handed.1, lent_values);
        self.count("view", lent, wanted);
        let intact = handed == (first, second);
        if wanted != got || !rows.agree(wanted) || !intact {
            let lengths = (given.0.len(), given.1.len(), lent, if intact { "" } else { "a file changed" });
            let case = (lengths, as_text(given.0), as_text(given.1));
            self.show(family, &case, wanted, got, rows.difference(as_row));
        }
        rows.wanted[at].first_chunk().copied().filter(|_| wanted == 0).ok_or(wanted)
    }

    /// A pair of files whose report is known; the plain Rust implementation must give it, or 9 for too few lent values.
    pub fn view_known(&mut self, family: &str, files: (&[u8], &[u8]), lent: Lent, report: Report) {
        let expected = report.and_then(|report| if lent.len() < REPORT_VALUES { Err(9) } else { Ok(report) });
        let answer = self.view(family, Some(files.0), Some(files.1), lent);
        if answer != expected {
            eprintln!("{family}: the report is {expected:?}, and the plain Rust implementation gives {answer:?}");
            self.shown();
        }
    }
}
