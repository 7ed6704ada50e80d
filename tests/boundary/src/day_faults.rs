//! Sets of blocks with faults in them, each at a place of the set.

use crate::case::{good_of, Case};
use crate::compare::Lent;
use crate::faults::{of_blocks, spoil_case, Fault, BLOCK_ORDER};
use reference::good::good_labels;
use reference::good_files::{labels_in, Span};
use reference::seeded::Seeded;
use reference::{keys, Labels, FILE_LINE_BYTES, LEAST_BLOCKS, MOST_BLOCKS};
use std::collections::BTreeMap;

/// The order in which a block of a day is tried, and 9 behind all blocks. 11 stands twice, as in Block's.
pub const DAY_ORDER: [u32; 12] = [11, 1, 11, 2, 3, 4, 5, 6, 7, 8, 16, 9];

#[derive(Clone, Copy, Debug, PartialEq, Eq)]
pub enum Wrong {
    /// what Block refuses the block for
    Own(Fault),
    /// it does not follow its forerunner
    Order,
}

#[derive(Clone, Copy, Debug, PartialEq, Eq)]
pub enum Place {
    First,
    Middle,
    Last,
}

#[derive(Clone, Copy, Debug, PartialEq, Eq)]
pub enum DayFault {
    Block(Wrong, Place),
    /// what is lent is too short
    Room,
}

use DayFault::*;
use Place::*;
use Wrong::*;

impl DayFault {
    /// Its place in the order of a block, 9 behind them.
    pub fn rank(self) -> usize {
        match self {
            Block(Own(fault), _) => fault.place(),
            Block(Order, _) => BLOCK_ORDER.len() - 1,
            Room => DAY_ORDER.len() - 1,
        }
    }

    /// The block that it is of, counted from 0, in a set of so many. A first block has none to follow.
    pub fn block(self, count: usize) -> usize {
        match self {
            Block(Order, First) => 1,
            Block(_, First) => 0,
            Block(_, Middle) => count / 2,
            Block(_, Last) => count - 1,
            Room => count,
        }
    }
}

/// Every fault at the first, a middle and the last block; a cut one can only be the last.
pub fn of_days() -> Vec<DayFault> {
    let own = of_blocks().into_iter().filter(|fault| *fault != Fault::Short);
    let mut all = vec![Room];
    for wrong in own.map(Own).chain([Order]) {
        let cut = matches!(wrong, Own(Fault::Cut | Fault::Length));
        let places = if cut { &[Last][..] } else { &[First, Middle, Last] };
        all.extend(places.iter().map(|place| Block(wrong, *place)));
    }
    all
}

/// What a set of so many blocks with these faults is refused with, and the block that is named.
pub fn decided(faults: &[DayFault], count: usize) -> Result<(), (u32, usize)> {
    let first = faults.iter().map(|fault| (fault.block(count), fault.rank())).min();
    first.map_or(Ok(()), |(block, rank)| Err((DAY_ORDER[rank], block)))
}

/// Labels of so many tracks, ascending by their keys; so many have to be in the span.
pub fn ascending(span: Span, count: usize, seeded: &mut Seeded) -> Vec<Labels> {
    let mut labels = BTreeMap::new();
    while labels.len() < count {
        let one = labels_in(span, seeded);
        labels.insert(keys(&one), one);
    }
    labels.into_values().collect()
}

/// The same of few dates, tracks and satellites, so that forerunners often share some of the keys.
pub fn few_ascending(count: usize, seeded: &mut Seeded) -> Vec<Labels> {
    let span = Span::narrow(seeded);
    let room = (span.days * span.tracks * span.satellites) as usize;
    ascending(if room < count { Span { days: 3, tracks: 4, satellites: 3, ..span } } else { span }, count, seeded)
}

/// A good block with these labels: a full one, one of four blocks, or any.
pub fn case_with(labels: Labels, seeded: &mut Seeded) -> Case {
    let any = seeded.range(LEAST_BLOCKS as i64, MOST_BLOCKS as i64) as usize;
    let n = seeded.pick(&[LEAST_BLOCKS, LEAST_BLOCKS, MOST_BLOCKS, any]);
    Case { labels, ..good_of(n, seeded) }
}

/// 16: block i has the keys of one before it.
pub fn spoil_order(labels: &mut [Labels], i: usize, seeded: &mut Seeded) {
    let any = seeded.below(i as u64) as usize;
    let earlier = labels[seeded.pick(&[i - 1, any])];
    let Labels { constellation, satellite, fr, mjd, start, ioe, .. } = earlier;
    let others = Labels { constellation, satellite, fr, mjd, start, ioe, ..good_labels(seeded) };
    labels[i] = seeded.pick(&[earlier, others]);
}

/// The last block is cut, to under 4 bytes or to more.
fn spoil_end(bytes: &mut Vec<u8>, own: &[Fault], seeded: &mut Seeded) {
    let whole = bytes.len();
    let any = seeded.range(4, whole as i64 - 1) as usize;
    if own.contains(&Fault::Cut) {
        bytes.truncate(seeded.range(1, 3) as usize);
    } else if own.contains(&Fault::Length) {
        bytes.truncate(seeded.pick(&[4, 57, 58, whole - 1, whole - 8, whole - 40, any]));
    }
}

/// Room for so many lines, or too little of it.
pub fn room_for(count: usize, enough: bool, seeded: &mut Seeded) -> Lent {
    let length = FILE_LINE_BYTES * count;
    let any = seeded.below(length as u64) as usize;
    if enough {
        return Lent::Of(seeded.pick(&[length, length, length + 1, length + FILE_LINE_BYTES, length + any]));
    }
    seeded.pick(&[Lent::Null, Lent::Of(0), Lent::Of(length - 1), Lent::Of(length - FILE_LINE_BYTES), Lent::Of(any)])
}

/// A set of so many blocks with these faults in it, and what is lent.
pub fn faulty_set(faults: &[DayFault], count: usize, seeded: &mut Seeded) -> (Vec<Vec<u8>>, Lent) {
    let mut labels = few_ascending(count, seeded);
    let mut orders: Vec<usize> =
        faults.iter().filter(|f| matches!(f, Block(Order, _))).map(|fault| fault.block(count)).collect();
    // from behind, so that the keys before a block are still those of a good set
    orders.sort_unstable_by(|a, b| b.cmp(a));
    orders.iter().for_each(|i| spoil_order(&mut labels, *i, seeded));
    let mut set = Vec::new();
    for (i, labels) in labels.into_iter().enumerate() {
        let own: Vec<Fault> = faults
            .iter()
            .filter_map(|fault| match fault {
                Block(Own(own), _) if fault.block(count) == i => Some(*own),
                _ => None,
            })
            .collect();
        let mut case = case_with(labels, seeded);
        spoil_case(&mut case, &own, seeded);
        let mut bytes = case.bytes();
        spoil_end(&mut bytes, &own, seeded);
        set.push(bytes);
    }
    (set, room_for(count, !faults.contains(&Room), seeded))
}
