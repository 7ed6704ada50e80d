//! A day of blocks at once.

use super::{as_text, Compare, Lent};
use crate::library::{self, Bytes};
use reference::{Offence, FILE_LINE_BYTES, LINE_BYTES};

/// The line that the archive's own Block makes of a block, as it stands in a file.
fn line_of(block: &[u8]) -> [u8; FILE_LINE_BYTES] {
    let mut line = *b"\r\n".repeat(FILE_LINE_BYTES).first_chunk().expect("enough bytes");
    library::block(Some(block), Some(&mut line[..LINE_BYTES]));
    line[LINE_BYTES..].copy_from_slice(b"\r\n");
    line
}

impl Compare {
    /// Day. Gives the file of the plain Rust implementation, or the block it names and its number.
    pub fn day(&mut self, family: &str, blocks: Bytes, lent: Lent) -> Result<Vec<u8>, Offence> {
        let (mut files, at) = self.files(lent);
        let (moved, shift) = self.moved(blocks);
        let handed = blocks.map(|_| &moved[shift..]);
        let given = blocks.unwrap_or_default();
        // five numbers, of which the second and the fourth are lent
        let before: [usize; 5] = std::array::from_fn(|_| self.seeded.bits() as usize);
        let (mut wanted_numbers, mut numbers) = (before, before);
        let result = reference::day(given, &mut files.wanted[at.clone()]);
        let fast = fast::day(given, &mut files.fast[at.clone()]);
        self.fast(family, result, fast, &files);
        match result {
            Ok(length) => wanted_numbers[1] = length,
            Err(offence) => wanted_numbers[3] = offence.block,
        }
        let wanted = result.map_or_else(|offence| offence.number, |_| 0);
        let lent_bytes = (lent != Lent::Null).then(|| &mut files.got[at.clone()]);
        let [_, written, _, block, _] = &mut numbers;
        let got = library::day(handed, lent_bytes, written, block);
        *self.answers.entry(("day", wanted)).or_default() += 1;
        let intact = handed == blocks;
        if wanted != got || !files.agree(wanted) || numbers != wanted_numbers || !intact {
            let text = format!("written and block: should be {wanted_numbers:?}, was {numbers:?}, before {before:?}");
            let case = (given.len(), lent, text, if intact { "" } else { "the blocks changed" });
            self.show(family, &case, wanted, got, files.difference(as_text));
        }
        result.map(|length| files.wanted[at][..length].to_vec())
    }

    /// A set whose answer is known: the plain Rust implementation must give it, and the file that the archive's Block makes of
    /// the blocks one by one.
    pub fn day_known(&mut self, family: &str, set: &[Vec<u8>], lent: Lent, expected: Result<(), (u32, usize)>) {
        let answer = self.day(family, Some(&set.concat()), lent);
        let told = answer.as_ref().map(|_| ()).map_err(|offence| (offence.number, offence.block));
        if told != expected {
            eprintln!("{family}: the answer is {expected:?}, and the plain Rust implementation gives {told:?}");
            self.shown();
        }
        if let Ok(file) = answer {
            let lines: Vec<u8> = set.iter().flat_map(|block| line_of(block)).collect();
            self.expect(file == lines, || format!("{family}: the day's lines are not those of Block"));
        }
    }
}
