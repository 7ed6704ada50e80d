//! The functions on stores of delays.

use super::{as_row, Compare, Lent};
use crate::library::{self, Bytes};
use reference::{Delays, SET_VALUES};

/// The set in force, or the refusal.
pub type InForce = Result<Delays, u32>;

fn as_bytes(bytes: &[u8]) -> String {
    format!("{:?}", &bytes[..bytes.len().min(120)])
}

impl Compare {
    /// The delays in force. Gives the answer of the plain Rust implementation, with the set that was lent a place.
    pub fn delays(&mut self, family: &str, store: Bytes, mjd: u32, lent: Lent) -> InForce {
        let (mut rows, at) = self.rows(lent);
        let (moved, shift) = self.moved(store);
        let handed = store.map(|_| &moved[shift..]);
        let wanted = reference::lookup_values(store.unwrap_or_default(), mjd, &mut rows.wanted[at.clone()]);
        let fast = fast::lookup_values(store.unwrap_or_default(), mjd, &mut rows.fast[at.clone()]);
        self.fast(family, wanted, fast, &rows);
        let lent_values = (lent != Lent::Null).then(|| &mut rows.got[at.clone()]);
        let got = library::delays(handed, mjd, lent_values);
        self.count("delays", lent, wanted);
        if wanted != got || !rows.agree(wanted) || handed != store {
            let changed = if handed == store { "" } else { "the store changed" };
            let case = (store.map(|s| (s.len(), as_bytes(s))), mjd, lent, changed);
            self.show(family, &case, wanted, got, rows.difference(as_row));
        }
        let set = rows.wanted[at].first_chunk::<SET_VALUES>().filter(|_| wanted == 0).ok_or(wanted)?;
        Ok(Delays { int: set[0], cab: set[1], refdly: set[2], gd: set[3] })
    }

    /// A store whose set in force is known; the plain Rust implementation must give it, or 9 for too few lent values.
    pub fn delays_known(&mut self, family: &str, store: &[u8], mjd: u32, lent: Lent, known: InForce) {
        let expected = known.and_then(|set| if lent.len() < SET_VALUES { Err(9) } else { Ok(set) });
        let answer = self.delays(family, Some(store), mjd, lent);
        if answer != expected {
            eprintln!("{family}: it is {expected:?} on {mjd}, and the plain Rust implementation gives {answer:?}");
            self.shown();
        }
    }

    /// Append. Gives the answer of the plain Rust implementation, with the longer store.
    pub fn append(&mut self, family: &str, store: Bytes, mjd: u32, set: &Delays, lent: Lent) -> Result<Vec<u8>, u32> {
        let (mut longer, at) = self.files(lent);
        let (moved, shift) = self.moved(store);
        let handed = store.map(|_| &moved[shift..]);
        // three numbers, of which the middle one is lent
        let before = [self.seeded.bits() as usize; 3];
        let mut written = before;
        let result = reference::append(store.unwrap_or_default(), mjd, set, &mut longer.wanted[at.clone()]);
        let wanted = result.err().unwrap_or(0);
        let fast = fast::append(store.unwrap_or_default(), mjd, set, &mut longer.fast[at.clone()]);
        self.fast(family, result, fast, &longer);
        let lent_bytes = (lent != Lent::Null).then(|| &mut longer.got[at.clone()]);
        let got = library::append(handed, mjd, set, lent_bytes, &mut written[1]);
        *self.answers.entry(("append", wanted)).or_default() += 1;
        let wanted_written = [before[0], result.unwrap_or(before[1]), before[2]];
        if wanted != got || !longer.agree(wanted) || written != wanted_written || handed != store {
            let changed = if handed == store { "" } else { "the store changed" };
            let numbers = format!("written: should be {wanted_written:?}, was {written:?}");
            let case = (store.map(|s| (s.len(), as_bytes(s))), mjd, set, lent, numbers, changed);
            self.show(family, &case, wanted, got, longer.difference(as_bytes));
        }
        result.map(|length| longer.wanted[at][..length].to_vec())
    }

    /// An append whose longer store or refusal is known; the plain Rust implementation must give it.
    pub fn append_known(&mut self, family: &str, (store, mjd, set): Appending, lent: Lent, known: Result<&[u8], u32>) {
        let answer = self.append(family, Some(store), mjd, set, lent);
        if answer.as_deref().map_err(|refusal| *refusal) != known {
            let lengths = (answer.map(|longer| longer.len()), known.map(|longer| longer.len()));
            eprintln!("{family}: the plain Rust implementation gives {:?}, and it is {:?}", lengths.0, lengths.1);
            self.shown();
        }
    }
}

/// What an append is given: a store, a date and a set.
pub type Appending<'a> = (&'a [u8], u32, &'a Delays);
