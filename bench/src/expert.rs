//! A yardstick for the search: the walk as an expert may write it in safe Rust, for speed alone and
//! without a proof.
//!
//! What a train's choices come to is carried forward in rows of eight sums. Each train has a row of its own
//! costs, and each pair the row of its second train over this pair and those before it. So a choice adds up
//! only the pairs that its own train begins, and opening a train reads one row.
//!
//! It takes a search line and a well-formed block for granted: it checks nothing and refuses nothing. It walks in loaded
//! order, trains ascending, and does not look at the order that the block has: on a block with another one its answer is not
//! the service's.

use std::mem::replace;

const TRAINS: usize = 24;
const CHOICES: usize = 8;
const PAIRS: usize = 48;

// Places of the state block.
const TRAIN_COUNT: usize = 0;
const SCALE: usize = 1;
const PAIR_COUNT: usize = 2;
const CONSTANT: usize = 3;
const SIZES: usize = 4;
const FIRSTS: usize = 28;
const SECONDS: usize = 76;
const LOADED_CHOICES: usize = 124;
const LOADED_ENTRIES: usize = 508;
const HELD_CHOICES: usize = 316;
const HELD_ENTRIES: usize = 3_580;

/// The rows of sums. A power of 2: an index that `& (ROWS - 1)` keeps below it is not checked in the walk.
const ROWS: usize = 128;
/// The pairs' rows of sums begin here; the trains' own stand before them.
const PAIR_ROWS: usize = 32;
/// The length of a plan, rounded up so that copying one is copying whole vectors.
const PLAN: usize = 32;

/// The total to beat while no plan is known.
const UNKNOWN: u64 = u64::MAX;

/// The costs of eight choices, or what they come to.
type Row = [u64; CHOICES];

/// What the walk reads of a study.
struct Table {
    last: usize,
    scale: u64,
    /// The published bound.
    bound: u64,
    sizes: [usize; TRAINS],
    /// By train: the row in which it is summed when it is opened.
    ends: [usize; TRAINS],
    /// By train: the first pair that it or a later train begins.
    begins: [usize; TRAINS + 1],
    /// By pair: the row to which its costs are added.
    bases: [usize; PAIRS],
    /// By pair and choice of its first train: the costs of its second train's choices.
    costs: [[Row; CHOICES]; PAIRS],
}

/// What the walk has so far, but for the tries left.
struct Walk {
    spent: bool,
    best: u64,
    /// The tries left where the walk met the bound.
    met: Option<u64>,
    chosen: [u8; PLAN],
    plan: [u8; PLAN],
    sums: [Row; ROWS],
}

/// Answers a search line. The signature is that of every service; a profiler counts in this function.
#[inline(never)]
pub fn answer(line: &[u8], block: &mut [i64], reply: &mut [u8]) -> usize {
    let budget = number(&line[2..]);
    let mut table = Table::EMPTY;
    table.lay(block);
    let mut walk = Walk::NEW;
    walk.lay_own(block);
    let left = walk.open(&table, 0, block[CONSTANT] as u64, budget);
    walk.spent &= walk.met.is_none();
    write_reply(block, &walk, budget - walk.met.unwrap_or(left), reply)
}

fn number(digits: &[u8]) -> u64 {
    digits.iter().fold(0, |number, &digit| number << 4 | (digit as char).to_digit(16).map_or(0, u64::from))
}

/// "Search: 86, 01 ended or 00 spent, count (4), cost (6), one byte a train."
fn write_reply(block: &[i64], walk: &Walk, count: u64, reply: &mut [u8]) -> usize {
    let cost = if walk.best == UNKNOWN { UNKNOWN } else { walk.best.div_ceil(block[SCALE] as u64) };
    let mut written = 0;
    let mut put = |bytes: u32, number: u64| {
        for place in (0..2 * bytes).rev() {
            reply[written] = b"0123456789ABCDEF"[(number >> (4 * place) & 15) as usize];
            written += 1;
        }
    };
    put(1, 0x86);
    put(1, u64::from(!walk.spent));
    put(4, count);
    put(6, cost);
    walk.plan[..block[TRAIN_COUNT] as usize].iter().for_each(|&choice| put(1, u64::from(choice)));
    written
}

/// The eight costs from a place of the block on.
fn row_at(block: &[i64], place: usize) -> Row {
    let mut row = [0; CHOICES];
    row.iter_mut().zip(&block[place..place + CHOICES]).for_each(|(cost, &held)| *cost = held as u64);
    row
}

/// The greatest common divisor of all loaded costs, 1 where all are 0. Unused places are 0 too.
fn step(block: &[i64], n: usize, m: usize) -> u64 {
    let choices = &block[LOADED_CHOICES..][..CHOICES * n];
    let entries = &block[LOADED_ENTRIES..][..CHOICES * CHOICES * m];
    // All are below 2^20.
    let mut step: u32 = 0;
    for &cost in choices.iter().chain(entries) {
        let mut rest = replace(&mut step, cost as u32);
        while rest != 0 {
            (step, rest) = (rest, step % rest);
        }
        if step == 1 {
            break;
        }
    }
    u64::from(step.max(1))
}

impl Table {
    const EMPTY: Self = Self {
        last: 0,
        scale: 1,
        bound: 0,
        sizes: [0; TRAINS],
        ends: [0; TRAINS],
        begins: [0; TRAINS + 1],
        bases: [0; PAIRS],
        costs: [[[0; CHOICES]; CHOICES]; PAIRS],
    };

    /// Lays the study of a block into an empty table.
    fn lay(&mut self, block: &[i64]) {
        let (n, m) = (block[TRAIN_COUNT] as usize, block[PAIR_COUNT] as usize);
        self.last = n - 1;
        self.scale = block[SCALE] as u64;
        self.bound = match (block[CONSTANT] as u64).div_ceil(self.scale) {
            0 => 0,
            points => points.next_multiple_of(step(block, n, m)),
        };
        for train in 0..n {
            self.sizes[train] = block[SIZES + train] as usize;
            self.ends[train] = train;
        }
        let mut begun = 0;
        for pair in 0..m {
            let first = block[FIRSTS + pair] as usize;
            let second = block[SECONDS + pair] as usize;
            self.begins[begun..=first].fill(pair);
            begun = first + 1;
            self.bases[pair] = self.ends[second];
            self.ends[second] = PAIR_ROWS + pair;
            for (choice, row) in self.costs[pair].iter_mut().enumerate() {
                *row = row_at(block, HELD_ENTRIES + CHOICES * (CHOICES * pair + choice));
            }
        }
        self.begins[begun..].fill(m);
    }
}

impl Walk {
    const NEW: Self = Self {
        spent: false,
        best: UNKNOWN,
        met: None,
        chosen: [0; PLAN],
        // "With no plan yet, cost and plan are all FF."
        plan: [0xFF; PLAN],
        sums: [[0; CHOICES]; ROWS],
    };

    /// Lays the trains' own rows of sums.
    fn lay_own(&mut self, block: &[i64]) {
        for train in 0..block[TRAIN_COUNT] as usize {
            self.sums[train] = row_at(block, HELD_CHOICES + CHOICES * train);
        }
    }

    /// Opens a train: tries its choices, and says how many tries are left.
    fn open(&mut self, table: &Table, train: usize, partial: u64, mut left: u64) -> u64 {
        let totals = self.sums[table.ends[train] & (ROWS - 1)].map(|sum| sum + partial);
        for (choice, &total) in totals[..table.sizes[train]].iter().enumerate() {
            if left == 0 {
                self.spent = true;
                return 0;
            }
            left -= 1;
            if total < self.best {
                self.chosen[train] = choice as u8;
                if train == table.last {
                    left = self.improve(table, total, left);
                    continue;
                }
                self.carry(table, train, choice);
                left = self.open(table, train + 1, total, left);
            }
        }
        left
    }

    /// Keeps a plan that becomes the best. Where its cost is the bound, no tries are left, so that all stops.
    fn improve(&mut self, table: &Table, total: u64, left: u64) -> u64 {
        self.best = total;
        self.plan = self.chosen;
        if total.div_ceil(table.scale) != table.bound {
            return left;
        }
        self.met = Some(left);
        0
    }

    /// Carries a choice to the rows of the pairs that its train begins.
    fn carry(&mut self, table: &Table, train: usize, choice: usize) {
        for pair in table.begins[train]..table.begins[train + 1] {
            let base = self.sums[table.bases[pair] & (ROWS - 1)];
            let costs = &table.costs[pair][choice];
            let row = &mut self.sums[(PAIR_ROWS + pair) & (ROWS - 1)];
            for i in 0..CHOICES {
                row[i] = base[i] + costs[i];
            }
        }
    }
}
