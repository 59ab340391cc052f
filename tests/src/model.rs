//! The problem of document 01 as structs, and its state block.

use crate::steps;
use std::ops::{Range, RangeInclusive};

/// Change 10: "The block gains 24 places from 6652" for the order.
pub const BLOCK_LENGTH: usize = 6_676;
/// The places of T of pairs, and those of the order behind them.
pub const HELD_ENTRIES: Range<usize> = 3_580..6_652;
pub const ORDER: Range<usize> = 6_652..BLOCK_LENGTH;
pub const TRAINS: RangeInclusive<i64> = 1..=24;
pub const SCALES: RangeInclusive<i64> = 1..=1_000;
pub const SIZES: RangeInclusive<i64> = 1..=8;
pub const PAIRS: RangeInclusive<i64> = 0..=48;
/// Loaded costs and added points.
pub const COSTS: RangeInclusive<i64> = 0..=1_000_000;
/// L.
pub const TOP: i64 = 72_000_000_000;
/// c0 and held costs.
pub const PARTS: RangeInclusive<i64> = 0..=TOP;
/// What H and T hold at a forbidden entry.
pub const FORBIDDEN: i64 = -1;

/// The table of declined lines, by number. Number 17 has no reply and is none of these.
#[derive(Clone, Copy, Debug, PartialEq, Eq)]
#[repr(u8)]
pub enum Refusal {
    Characters = 1,
    TooLong = 2,
    NoSuchKind = 3,
    Fresh = 4,
    Fields = 5,
    Range = 6,
    Cost = 7,
    Pair = 8,
    Absent = 9,
    Loaded = 10,
    Move = 11,
    Limit = 12,
    Whole = 13,
    Sums = 14,
    Budget = 15,
    Block = 16,
    /// "A weight above 0 on a forbidden entry, after 14."
    ForbiddenWeight = 18,
    /// "Literal of an absent train, first literal 0 or one train twice."
    Literal = 19,
    /// "Over 48 pairs."
    Pairs = 20,
    /// "Not each train exactly once, after 5."
    Order = 21,
    /// "n or a choice not the block's."
    NotHeld = 22,
    /// "Cost isn't the plan's total in H, bound above it, or a forbidden entry."
    Figures = 23,
    /// "That sum exceeds 10,000,000, after 5."
    Tries = 24,
    /// "Wrong sum, after 3 and before 4."
    Sum = 25,
}

/// The cost of a permitted entry: H in points, T in parts.
#[derive(Clone, Copy, PartialEq, Eq)]
pub struct Cost {
    pub loaded: i64,
    pub held: i64,
}

/// The entries of a train (one row) or of a pair (a row for each a). A forbidden one has no cost.
#[derive(Clone, PartialEq, Eq)]
pub struct Costs {
    pub rows: usize,
    pub columns: usize,
    pub entries: Vec<Option<Cost>>,
}

impl Costs {
    /// "T becomes s × H."
    pub fn new(rows: usize, columns: usize, loaded: Vec<Option<i64>>, scale: i64) -> Self {
        let cost = |points: i64| Cost { loaded: points, held: scale * points };
        Self { rows, columns, entries: loaded.into_iter().map(|entry| entry.map(cost)).collect() }
    }

    /// The cells of one choice: of the train of the rows (side 0) or of the columns (side 1). Row 0
    /// of a train's costs is all of them.
    pub fn line(&self, side: usize, choice: usize) -> impl Iterator<Item = usize> {
        let (start, step, count) = match side {
            0 => (choice * self.columns, 1, self.columns),
            _ => (choice, self.columns, self.rows),
        };
        (start..).step_by(step).take(count)
    }

    /// The held cost of an entry, if it is permitted.
    pub fn held(&self, cell: usize) -> Option<i64> {
        self.entries[cell].map(|cost| cost.held)
    }

    /// The held costs of a line's permitted entries.
    pub fn line_held(&self, side: usize, choice: usize) -> impl Iterator<Item = i64> + '_ {
        self.line(side, choice).filter_map(|cell| self.held(cell))
    }

    /// The least held cost of a line. "Least costs are taken over permitted entries."
    pub fn least(&self, side: usize, choice: usize) -> Option<i64> {
        self.line_held(side, choice).min()
    }

    /// Adds an amount to a held cost. On a forbidden entry it is lost.
    pub fn put(&mut self, cell: usize, amount: i64) {
        if let Some(cost) = &mut self.entries[cell] {
            cost.held += amount;
        }
    }

    /// Takes an amount off every held cost of a line.
    pub fn take(&mut self, side: usize, choice: usize, amount: i64) {
        self.line(side, choice).for_each(|cell| self.put(cell, -amount));
    }

    /// The costs of the permitted entries.
    pub fn permitted(&self) -> impl Iterator<Item = &Cost> {
        self.entries.iter().flatten()
    }

    pub fn permitted_mut(&mut self) -> impl Iterator<Item = &mut Cost> {
        self.entries.iter_mut().flatten()
    }
}

/// Two trains i < j, and their costs.
#[derive(Clone, PartialEq, Eq)]
pub struct Pair {
    pub trains: [usize; 2],
    pub costs: Costs,
}

/// A loaded problem.
#[derive(Clone, PartialEq, Eq)]
pub struct Study {
    pub scale: i64,
    pub constant: i64,
    pub trains: Vec<Costs>,
    pub pairs: Vec<Pair>,
    /// "The walk opens trains in that order."
    pub order: Vec<usize>,
}

/// The order that numbers give, if it is "each train exactly once" of as many trains as numbers.
pub fn order(numbers: &[i64]) -> Option<Vec<usize>> {
    let mut ascending = numbers.to_vec();
    ascending.sort();
    let once = ascending.into_iter().eq(0..numbers.len() as i64);
    once.then(|| numbers.iter().map(|&train| train as usize).collect())
}

impl Study {
    /// A study as a load leaves it: "c0 becomes 0", and a load "sets 0 to n−1".
    pub fn loaded(scale: i64, trains: Vec<Costs>, pairs: Vec<Pair>) -> Self {
        let order = (0..trains.len()).collect();
        Self { scale, constant: 0, trains, pairs, order }
    }

    pub fn size(&self, train: usize) -> usize {
        self.trains[train].columns
    }

    /// "The least whole number of points not below" a number of parts.
    pub fn points(&self, parts: i64) -> i64 {
        (parts + self.scale - 1) / self.scale
    }

    /// "The published bound is the least whole number of points not below c0." Change 9: "The published bound rounds up to
    /// a multiple" of the step.
    pub fn bound(&self) -> i64 {
        match self.points(self.constant) {
            0 => 0,
            points => points + (-points).rem_euclid(steps::step(self)),
        }
    }

    /// "Every train has at most one partner of lower number": no two pairs have the same second train.
    pub fn branches(&self) -> bool {
        let mut seconds: Vec<usize> = self.pairs.iter().map(|pair| pair.trains[1]).collect();
        seconds.sort();
        seconds.is_sorted_by(|last, next| last < next)
    }

    /// The costs of every train and every pair.
    pub fn tables(&self) -> impl Iterator<Item = &Costs> {
        self.trains.iter().chain(self.pairs.iter().map(|pair| &pair.costs))
    }

    pub fn tables_mut(&mut self) -> impl Iterator<Item = &mut Costs> {
        self.trains.iter_mut().chain(self.pairs.iter_mut().map(|pair| &mut pair.costs))
    }

    /// Whether no entry is forbidden.
    pub fn permits_all(&self) -> bool {
        self.tables().flat_map(|costs| &costs.entries).all(Option::is_some)
    }

    /// "c0 or an entry would end below 0 or above L" is 12. Forbidden entries "add no condition".
    pub fn judge(&self) -> Result<(), Refusal> {
        let entries = self.tables().flat_map(Costs::permitted).all(|cost| PARTS.contains(&cost.held));
        (entries && PARTS.contains(&self.constant)).then_some(()).ok_or(Refusal::Limit)
    }

    /// Writes the whole block. "Unused places are 0."
    pub fn encode(&self, block: &mut [i64]) {
        block.fill(0);
        let head = [self.trains.len() as i64, self.scale, self.pairs.len() as i64, self.constant];
        block[..4].copy_from_slice(&head);
        for (i, train) in self.trains.iter().enumerate() {
            block[4 + i] = train.columns as i64;
            write_rows(&mut block[124 + 8 * i..], train, |cost| cost.loaded);
            write_rows(&mut block[316 + 8 * i..], train, |cost| cost.held);
        }
        for (number, Pair { trains, costs }) in self.pairs.iter().enumerate() {
            block[28 + number] = trains[0] as i64;
            block[76 + number] = trains[1] as i64;
            write_rows(&mut block[508 + 64 * number..], costs, |cost| cost.loaded);
            write_rows(&mut block[3_580 + 64 * number..], costs, |cost| cost.held);
        }
        block[ORDER].iter_mut().zip(&self.order).for_each(|(place, &train)| *place = train as i64);
    }
}

/// Rows of the block have 8 places each.
fn write_rows(places: &mut [i64], costs: &Costs, number: fn(Cost) -> i64) {
    for (row, entries) in places.chunks_mut(8).zip(costs.entries.chunks(costs.columns)) {
        let numbers = entries.iter().map(|entry| entry.map_or(FORBIDDEN, number));
        row.iter_mut().zip(numbers).for_each(|(place, number)| *place = number);
    }
}

/// The block's problem, `None` for a fresh block; 16 for "block of another length or not well formed".
pub fn decode(block: &[i64]) -> Result<Option<Study>, Refusal> {
    if block.len() != BLOCK_LENGTH {
        return Err(Refusal::Block);
    }
    if block.iter().all(|&value| value == 0) {
        return Ok(None);
    }
    study(block).map(Some).ok_or(Refusal::Block)
}

fn study(block: &[i64]) -> Option<Study> {
    let within = |place: usize, range: RangeInclusive<i64>| Some(block[place]).filter(|n| range.contains(n));
    let n = within(0, TRAINS)?;
    let scale = within(1, SCALES)?;
    let m = within(2, PAIRS)? as usize;
    let constant = within(3, PARTS)?;
    let sizes = used(&block[4..28], n as usize, &SIZES)?;
    let size = |train: usize| sizes[train] as usize;

    let train = |i: usize| {
        let columns = sizes.get(i).map_or(0, |&size| size as usize);
        let (loaded, held) = (&block[124 + 8 * i..][..8], &block[316 + 8 * i..][..8]);
        costs(loaded, held, 1, columns)
    };
    let mut trains: Vec<Costs> = (0..24).map(train).collect::<Option<_>>()?;
    trains.truncate(sizes.len());

    // "Pairs as above": i < j, strictly ascending by (i, j).
    let firsts = used(&block[28..76], m, &(0..=n - 1))?;
    let seconds = used(&block[76..124], m, &(0..=n - 1))?;
    let keys: Vec<[usize; 2]> = firsts.iter().zip(seconds).map(|(&i, &j)| [i as usize, j as usize]).collect();
    if !(keys.iter().all(|[i, j]| i < j) && keys.is_sorted_by(|last, next| last < next)) {
        return None;
    }
    let mut pairs = Vec::with_capacity(m);
    for number in 0..48 {
        let (loaded, held) = (&block[508 + 64 * number..][..64], &block[3_580 + 64 * number..][..64]);
        match keys.get(number) {
            Some(&trains) => {
                let costs = costs(loaded, held, size(trains[0]), size(trains[1]))?;
                pairs.push(Pair { trains, costs });
            }
            None => drop(costs(loaded, held, 0, 0)?),
        }
    }
    // "A loaded block's order is judged likewise under 16."
    let order = order(used(&block[ORDER], n as usize, &(0..=n - 1))?)?;
    Some(Study { scale, constant, trains, pairs, order })
}

/// The first `count` places, where each lies in the range and all places behind are 0.
fn used<'a>(places: &'a [i64], count: usize, range: &RangeInclusive<i64>) -> Option<&'a [i64]> {
    let (front, rest) = places.split_at(count);
    let lawful = front.iter().all(|value| range.contains(value)) && rest.iter().all(|&value| value == 0);
    lawful.then_some(front)
}

/// The entries of rows of 8 places each, H and T side by side. Unused places are 0.
fn costs(loaded: &[i64], held: &[i64], rows: usize, columns: usize) -> Option<Costs> {
    let mut entries = Vec::with_capacity(rows * columns);
    for (a, (loaded, held)) in loaded.chunks(8).zip(held.chunks(8)).enumerate() {
        let used = if a < rows { columns } else { 0 };
        let [(loaded, unused), (held, unused_held)] = [loaded, held].map(|row| row.split_at(used));
        if unused.iter().chain(unused_held).any(|&value| value != 0) {
            return None;
        }
        for (&loaded, &held) in loaded.iter().zip(held) {
            entries.push(entry(loaded, held)?);
        }
    }
    Some(Costs { rows, columns, entries })
}

/// "H and T hold −1" where an entry is forbidden. "An entry −1 in one of them only is 16."
fn entry(loaded: i64, held: i64) -> Option<Option<Cost>> {
    let permitted = COSTS.contains(&loaded) && PARTS.contains(&held);
    let forbidden = loaded == FORBIDDEN && held == FORBIDDEN;
    (permitted || forbidden).then_some(permitted.then_some(Cost { loaded, held }))
}
