//! Stores of delays: of every size, at every date beside a start, faulty at every place, damaged, of every length, and longer
//! by one entry after another.

use crate::compare::{Compare, InForce, Lent};
use crate::file_faults::{each_few, together, Pairs};
use crate::store_faults::{decided, faulty, of_appends, of_lookups, Fault};
use crate::{answers, lents};
use reference::good_stores::{any_delay, any_entries, any_set, entries_from, in_group, store_of, Entry, MOST_DELAY};
use reference::seeded::Seeded;
use reference::{Delays, MOST_ENTRIES, SET_VALUES};

const LOOKUP_NUMBERS: [u32; 3] = [20, 21, 9];
const APPEND_NUMBERS: [u32; 3] = [20, 22, 9];
const ROWS: [Lent; 5] = [Lent::Null, Lent::Of(0), Lent::Of(3), Lent::Of(4), Lent::Of(5)];
/// Just enough for a lookup: a place for each of the four delays.
const FOUR: Lent = Lent::Of(SET_VALUES);

/// Each two faults of lookups and of appends.
#[derive(Default)]
pub struct Met {
    lookups: Pairs<Fault>,
    appends: Pairs<Fault>,
}

pub fn run(compare: &mut Compare, seeded: &mut Seeded, scale: usize) -> Met {
    let mut met = Met::default();
    for _ in 0..20 * scale {
        faults(compare, seeded, &mut met);
    }
    for _ in 0..3_000 * scale {
        let count = seeded.below(30) as usize;
        dates(compare, seeded, count);
        appends(compare, seeded, count);
        damaged(compare, seeded);
        junk(compare, seeded);
    }
    for count in [0, 1, 2, 999, MOST_ENTRIES] {
        dates(compare, seeded, count);
        dates(compare, seeded, count);
        appends(compare, seeded, count);
    }
    over(compare, seeded);
    versions(compare, seeded);
    counts(compare, seeded);
    for version in [1, 2] {
        lengths(compare, seeded, version);
        rooms(compare, seeded, version);
        limits(compare, seeded, version);
        grown(compare, seeded, version);
    }
    nothing(compare);
    met
}

/// Prints the counts; gives what should have been seen and was not.
pub fn report(compare: &Compare, met: &Met) -> Vec<String> {
    let mut missing = Vec::new();
    answers(compare, "delays", &LOOKUP_NUMBERS, &mut missing);
    lents(compare, "delays", &LOOKUP_NUMBERS, (&ROWS, SET_VALUES), &mut missing);
    missing.extend(together("delays", &of_lookups(), &met.lookups));
    answers(compare, "append", &APPEND_NUMBERS, &mut missing);
    missing.extend(together("append", &of_appends(), &met.appends));
    missing
}

fn faults(compare: &mut Compare, seeded: &mut Seeded, met: &mut Met) {
    each_few(&of_lookups(), seeded, |faults, seeded| {
        let case = faulty(faults, false, seeded);
        let number = decided(faults, &mut met.lookups);
        compare.delays_known("faulty stores", &case.store, case.mjd, case.lent, Err(number));
    });
    each_few(&of_appends(), seeded, |faults, seeded| {
        let case = faulty(faults, true, seeded);
        let number = decided(faults, &mut met.appends);
        compare.append_known("faulty appends", (&case.store, case.mjd, &case.set), case.lent, Err(number));
    });
}

/// What is in force among these, by trying every entry: the one that starts latest of those that do not start after the date.
fn in_force(entries: &[Entry], mjd: u32) -> InForce {
    let started = entries.iter().filter(|(start, _)| *start <= mjd);
    started.max_by_key(|(start, _)| *start).map(|(_, set)| *set).ok_or(21)
}

/// Dates at, before and after each start, or at most 40 of them, and the ends of 32 bits.
fn dates(compare: &mut Compare, seeded: &mut Seeded, count: usize) {
    let version = seeded.pick(&[1, 2]);
    let entries = any_entries(count, version, seeded);
    let store = store_of(version, &entries);
    let mut asked = vec![0, u32::MAX, seeded.bits() as u32];
    let every = 1 + count / 40;
    for (start, _) in entries.iter().step_by(every).chain(entries.last()) {
        asked.extend([*start, start.saturating_sub(1), start.saturating_add(1)]);
    }
    for mjd in asked {
        let lent = seeded.pick(&[FOUR, FOUR, FOUR, Lent::Of(3), Lent::Of(5), Lent::Of(0), Lent::Null]);
        compare.delays_known("dates beside starts", &store, mjd, lent, in_force(&entries, mjd));
    }
}

/// One entry more, later or not, with any room; then the longer store is asked for the date, and for others.
fn appends(compare: &mut Compare, seeded: &mut Seeded, count: usize) {
    let version = seeded.pick(&[1, 2]);
    let mut entries = any_entries(count, version, seeded);
    let store = store_of(version, &entries);
    let last = entries.last().map(|(start, _)| *start);
    let any = seeded.bits() as u32;
    let near = last.map_or(any, |last| seeded.pick(&[last, last.saturating_add(1), last.saturating_sub(1), last / 2]));
    let mjd = seeded.pick(&[near, near, any, 0, u32::MAX]);
    let set = any_set(version, seeded);
    entries.push((mjd, set));
    let longer = store_of(version, &entries);
    let refused = last.is_some_and(|last| mjd <= last) || count == MOST_ENTRIES;
    let less = seeded.below(longer.len() as u64) as usize;
    let room = seeded.pick(&[longer.len(), longer.len(), longer.len() + 1, longer.len() - 1, longer.len() + 77, less]);
    let known = if refused {
        Err(22)
    } else if room < longer.len() {
        Err(9)
    } else {
        Ok(&longer[..])
    };
    compare.append_known("one entry more", (&store, mjd, &set), Lent::Of(room), known);
    if !refused {
        compare.delays_known("what was appended", &longer, mjd, FOUR, Ok(set));
        let earlier = mjd.saturating_sub(1);
        compare.delays_known("what was before", &longer, earlier, FOUR, in_force(&entries, earlier));
    }
}

/// A store with a few bytes changed, or cut or lengthened; what becomes of it is for the two to agree on.
fn damaged(compare: &mut Compare, seeded: &mut Seeded) {
    let version = seeded.pick(&[1, 2]);
    let count = 1 + seeded.below(12) as usize;
    let entries = any_entries(count, version, seeded);
    let mut store = store_of(version, &entries);
    for _ in 0..=seeded.below(3) {
        let (any, head) = (seeded.below(store.len() as u64) as usize, seeded.below(4) as usize);
        let at = seeded.pick(&[any, any, any, head]);
        store[at] = seeded.pick(&[0, 1, 2, 255, store[at] ^ 1, store[at].wrapping_add(1)]);
    }
    if seeded.below(4) == 0 {
        let length = seeded.below(2 * store.len() as u64) as usize;
        store.resize(length, 0);
    }
    let mjd = entries[seeded.below(count as u64) as usize].0.wrapping_add(seeded.pick(&[0, 1, u32::MAX]));
    compare.delays("damaged stores", Some(&store), mjd, FOUR).ok();
    let set = Delays { gd: any_delay(seeded), ..any_set(2, seeded) };
    let room = Lent::Of(seeded.pick(&[store.len() + 28, store.len() + 36, store.len() + 50, store.len()]));
    compare.append("damaged stores", Some(&store), mjd, &set, room).ok();
}

/// Any bytes, of which the version and the count are likely ones.
fn junk(compare: &mut Compare, seeded: &mut Seeded) {
    let length = seeded.below(200) as usize;
    let mut store = vec![0; seeded.pick(&[length, 4, 32, 40, 60, 76])];
    seeded.fill(&mut store);
    let head = [seeded.below(4) as u8, 0, seeded.below(3) as u8, 0];
    let known = seeded.below(5).min(store.len() as u64) as usize;
    store[..known].copy_from_slice(&head[..known]);
    let mjd = seeded.bits() as u32;
    compare.delays("junk", Some(&store), mjd, FOUR).ok();
    let set = any_set(seeded.pick(&[1, 2]), seeded);
    compare.append("junk", Some(&store), mjd, &set, Lent::Of(length + 40)).ok();
}

/// More than 1000 entries.
fn over(compare: &mut Compare, seeded: &mut Seeded) {
    for version in [1, 2] {
        for count in [MOST_ENTRIES + 1, MOST_ENTRIES + 2, 1256, 2000] {
            let entries = entries_from(50_722, count, 3, version, seeded);
            let store = store_of(version, &entries);
            let set = any_set(version, seeded);
            for mjd in [0, 50_722, 60_000, u32::MAX] {
                compare.delays_known("over 1000 entries", &store, mjd, FOUR, Err(20));
                let lent = Lent::Of(store.len() + 36);
                compare.append_known("over 1000 entries", (&store, mjd, &set), lent, Err(20));
            }
        }
    }
}

/// Every version of 16 bits on a store of either length.
fn versions(compare: &mut Compare, seeded: &mut Seeded) {
    for layout in [1, 2] {
        let entries = entries_from(50_722, 2, 3, layout, seeded);
        let store = store_of(layout, &entries);
        for version in 0..=u16::MAX {
            let mut changed = store.clone();
            changed[..2].copy_from_slice(&version.to_le_bytes());
            let known = if version == layout { in_force(&entries, 60_000) } else { Err(20) };
            compare.delays_known("every version", &changed, 60_000, FOUR, known);
        }
        for version in [0, 3, 4, 256, 257, 65_535] {
            let none = store_of(version, &[]);
            let set = any_set(1, seeded);
            compare.delays_known("versions of no entry", &none, 60_000, FOUR, Err(20));
            compare.append_known("versions of no entry", (&none, 60_000, &set), Lent::Of(200), Err(20));
        }
    }
}

/// Every count of 16 bits on a store of three entries.
fn counts(compare: &mut Compare, seeded: &mut Seeded) {
    for version in [1, 2] {
        let entries = entries_from(50_722, 3, 3, version, seeded);
        let store = store_of(version, &entries);
        for count in 0..=u16::MAX {
            let mut changed = store.clone();
            changed[2..4].copy_from_slice(&count.to_le_bytes());
            let known = if count == 3 { in_force(&entries, 60_000) } else { Err(20) };
            compare.delays_known("every count", &changed, 60_000, FOUR, known);
        }
    }
}

/// Every length up to that of a store of three entries and beyond it; beside the right one for every number of entries.
fn lengths(compare: &mut Compare, seeded: &mut Seeded, version: u16) {
    let set = any_set(version, seeded);
    for count in 0..=3 {
        let entries = entries_from(50_722, count, 3, version, seeded);
        let store = store_of(version, &entries);
        for length in 0..store.len() + 80 {
            let mut changed = store.clone();
            changed.resize(length, 0);
            let right = length == store.len();
            let known = if right { in_force(&entries, 60_000) } else { Err(20) };
            compare.delays_known("every length", &changed, 60_000, FOUR, known);
            let answer = compare.append("every length", Some(&changed), 60_000, &set, Lent::Of(400));
            compare.expect(answer.is_ok() == right, || format!("append at {length} bytes of {}", store.len()));
        }
    }
    for count in 0..=MOST_ENTRIES {
        let entries = entries_from(50_722, count, 3, version, seeded);
        let mut store = store_of(version, &entries);
        compare.delays_known("the right length", &store, 60_000, FOUR, in_force(&entries, 60_000));
        store.push(0);
        compare.delays_known("a byte over", &store, 60_000, FOUR, Err(20));
        store.truncate(store.len() - 2);
        compare.delays_known("a byte short", &store, 60_000, FOUR, Err(20));
    }
}

/// Every room from none to more than the longer store takes.
fn rooms(compare: &mut Compare, seeded: &mut Seeded, version: u16) {
    for count in [0, 1, 5] {
        let mut entries = entries_from(50_722, count, 3, version, seeded);
        let store = store_of(version, &entries);
        let set = any_set(version, seeded);
        entries.push((60_000, set));
        let longer = store_of(version, &entries);
        for room in 0..longer.len() + 60 {
            let known = if room < longer.len() { Err(9) } else { Ok(&longer[..]) };
            compare.append_known("every room", (&store, 60_000, &set), Lent::Of(room), known);
        }
        compare.append_known("no room", (&store, 60_000, &set), Lent::Null, Err(9));
    }
}

/// Each delay of each entry, and each new one, at its limit and beyond it.
fn limits(compare: &mut Compare, seeded: &mut Seeded, version: u16) {
    let entries = entries_from(50_722, 5, 3, version, seeded);
    let store = store_of(version, &entries);
    for value in [MOST_DELAY, -MOST_DELAY, MOST_DELAY + 1, -MOST_DELAY - 1, i64::MAX, i64::MIN, 1 << 32, 1 << 40] {
        let fits = (-MOST_DELAY..=MOST_DELAY).contains(&value);
        for delay in 0..5 * in_group(version) {
            let mut changed = store.clone();
            changed[24 + 8 * delay..][..8].copy_from_slice(&value.to_le_bytes());
            let answer = compare.delays("a delay at its limit", Some(&changed), 50_722, FOUR);
            compare.expect(answer.is_ok() == fits, || format!("delay {delay} of {value} gives {answer:?}"));
        }
        for place in 0..4 {
            let mut delays = [5, 6, 7, 0];
            delays[place] = value;
            let set = Delays { int: delays[0], cab: delays[1], refdly: delays[2], gd: delays[3] };
            let answer = compare.append("a new delay at its limit", Some(&store), 60_000, &set, Lent::Of(400));
            let taken = fits && (version == 2 || place < 3);
            compare.expect(answer.is_ok() == taken, || format!("new delay {place} of {value}"));
        }
    }
}

/// From no entry to 1000, one append after the other, and one more.
fn grown(compare: &mut Compare, seeded: &mut Seeded, version: u16) {
    let entries = entries_from(50_722, MOST_ENTRIES, 3, version, seeded);
    let mut store = store_of(version, &[]);
    for (count, (start, set)) in entries.iter().enumerate() {
        let longer = store_of(version, &entries[..=count]);
        compare.append_known("grown", (&store, *start, set), Lent::Of(longer.len()), Ok(&longer));
        store = longer;
    }
    compare.append_known("grown", (&store, u32::MAX, &entries[0].1), Lent::Of(store.len() + 99), Err(22));
}

/// No byte, NULL or not, with any room.
fn nothing(compare: &mut Compare) {
    for lent in ROWS {
        for store in [None, Some(&[][..])] {
            let set = Delays::default();
            let answers = (compare.delays("no byte", store, 0, lent), compare.append("no byte", store, 0, &set, lent));
            assert_eq!((answers.0.err(), answers.1.err()), (Some(20), Some(20)));
        }
    }
}
