//! Lines: digits, kinds and fields, "from left to right, each judged as soon as it is read".

use crate::clauses::{Clause, Clauses};
use crate::model::{self, Costs, Pair, Refusal, Study, COSTS, PAIRS, SCALES, SIZES, TRAINS};
use crate::operations::{Add, Certificate, Shift};
use crate::reasons::Question;
use crate::records::Record;
use std::ops::RangeInclusive;

/// "The limit in 2 becomes 19,836 characters": the longest load in its second form.
pub const LONGEST_LINE: usize = 19_836;
/// A load of 24 trains of 8 choices with 48 pairs, the longest plain line that is accepted.
pub const LONGEST_LOAD: usize = 19_834;
/// Lifts and moves; those outside are 11. (Change 3: "A lift may now be −10^12 to 10^12".)
pub const MOVES: RangeInclusive<i64> = -1_000_000_000_000..=1_000_000_000_000;
/// W.
const WHOLES: RangeInclusive<i64> = 1..=100_000;
const BUDGETS: RangeInclusive<i64> = 1..=10_000_000;
/// "Count (2 bytes, at most 500, else 6)."
pub const CLAUSES: RangeInclusive<i64> = 0..=500;
/// A forbidden entry, as a load says it.
pub const FORBIDDEN: i64 = 0xFF_FFFF;

#[derive(Clone, Copy, Debug, PartialEq, Eq)]
pub enum Kind {
    Load,
    Add,
    Shift,
    Tighten,
    Certify,
    Search,
    Save,
    Round,
    Clauses,
    Explain,
    Order,
    Screen,
    Planner,
    Record,
    Dearest,
}

impl Kind {
    /// The kind of this number in a plain line.
    pub fn of(number: u8) -> Option<Self> {
        match number {
            1 => Some(Self::Load),
            2 => Some(Self::Add),
            3 => Some(Self::Shift),
            4 => Some(Self::Tighten),
            5 => Some(Self::Certify),
            6 => Some(Self::Search),
            7 => Some(Self::Save),
            8 => Some(Self::Round),
            9 => Some(Self::Clauses),
            10 => Some(Self::Explain),
            11 => Some(Self::Order),
            12 => Some(Self::Screen),
            13 => Some(Self::Planner),
            14 => Some(Self::Record),
            15 => Some(Self::Dearest),
            _ => None,
        }
    }
}

/// The bytes behind the kind, read from the left.
pub struct Fields {
    bytes: Vec<u8>,
    next: usize,
}

impl Fields {
    /// A big-endian number. "Field not wholly there" is 5.
    fn number(&mut self, width: usize) -> Result<i64, Refusal> {
        let end = self.next + width;
        let bytes = self.bytes.get(self.next..end).ok_or(Refusal::Fields)?;
        self.next = end;
        Ok(bytes.iter().fold(0, |number, &byte| number << 8 | i64::from(byte)))
    }

    /// A number in two's complement.
    fn signed(&mut self, width: usize) -> Result<i64, Refusal> {
        let above = 64 - 8 * width;
        Ok(self.number(width)? << above >> above)
    }

    fn numbers(&mut self, count: usize, width: usize) -> Result<Vec<i64>, Refusal> {
        (0..count).map(|_| self.number(width)).collect()
    }

    /// A number that is judged as soon as it is read.
    fn judged(&mut self, width: usize, range: RangeInclusive<i64>, no: Refusal) -> Result<i64, Refusal> {
        let number = self.number(width)?;
        range.contains(&number).then_some(number).ok_or(no)
    }

    /// The sizes of n trains.
    fn sizes(&mut self, n: usize) -> Result<Vec<usize>, Refusal> {
        (0..n).map(|_| Ok(self.judged(1, SIZES, Refusal::Range)? as usize)).collect()
    }

    /// The costs of a load, `None` where an entry is forbidden.
    fn costs(&mut self, count: usize) -> Result<Vec<Option<i64>>, Refusal> {
        let mut one = || match self.number(3)? {
            FORBIDDEN => Ok(None),
            points if COSTS.contains(&points) => Ok(Some(points)),
            _ => Err(Refusal::Cost),
        };
        (0..count).map(|_| one()).collect()
    }

    /// Lifts or moves: 6 bytes each, "two's complement, in parts".
    fn moves(&mut self, count: usize) -> Result<Vec<i64>, Refusal> {
        let mut one = || {
            let number = self.signed(6)?;
            MOVES.contains(&number).then_some(number).ok_or(Refusal::Move)
        };
        (0..count).map(|_| one()).collect()
    }

    /// "Bytes left over last": 5.
    pub fn end(&self) -> Result<(), Refusal> {
        (self.next == self.bytes.len()).then_some(()).ok_or(Refusal::Fields)
    }
}

fn digit(character: u8) -> Option<u8> {
    match character {
        b'0'..=b'9' => Some(character - b'0'),
        b'A'..=b'F' => Some(character - b'A' + 10),
        _ => None,
    }
}

/// "Replies are digits as lines are, two characters a byte."
pub fn digits(bytes: &[u8]) -> Vec<u8> {
    const DIGITS: &[u8; 16] = b"0123456789ABCDEF";
    bytes.iter().flat_map(|byte| [byte >> 4, byte & 15]).map(|digit| DIGITS[usize::from(digit)]).collect()
}

/// Appends a number of `width` bytes, big-endian, two's complement.
pub fn put(bytes: &mut Vec<u8>, width: usize, number: i64) {
    bytes.extend_from_slice(&number.to_be_bytes()[8 - width..]);
}

/// The fields of a load that give these costs.
pub fn cost_fields(costs: &Costs) -> impl Iterator<Item = i64> + '_ {
    costs.entries.iter().map(|entry| entry.map_or(FORBIDDEN, |cost| cost.loaded))
}

/// The line's bytes: 2, then 1.
pub fn bytes(line: &[u8]) -> Result<Vec<u8>, Refusal> {
    if line.len() > LONGEST_LINE {
        return Err(Refusal::TooLong);
    }
    // "An even number, at least 2, of digits 0-9 A-F."
    if line.is_empty() || line.len() % 2 == 1 {
        return Err(Refusal::Characters);
    }
    let byte = |pair: &[u8]| Some(digit(pair[0])? << 4 | digit(pair[1])?);
    let bytes: Option<Vec<u8>> = line.chunks_exact(2).map(byte).collect();
    bytes.ok_or(Refusal::Characters)
}

/// The kind and the fields of a plain line's bytes: 3.
pub fn split(bytes: Vec<u8>) -> Result<(Kind, Fields), Refusal> {
    let kind = Kind::of(bytes[0]).ok_or(Refusal::NoSuchKind)?;
    Ok((kind, Fields { bytes, next: 1 }))
}

/// The kind and the fields of a plain line: 2, then 1, then 3.
pub fn open(line: &[u8]) -> Result<(Kind, Fields), Refusal> {
    split(bytes(line)?)
}

/// "n (1 byte), s (2)": how a load and a study written as clauses begin.
fn head(fields: &mut Fields) -> Result<(usize, i64), Refusal> {
    let n = fields.judged(1, TRAINS, Refusal::Range)?;
    let scale = fields.judged(2, SCALES, Refusal::Range)?;
    Ok((n as usize, scale))
}

/// "n (1 byte), s (2), sizes (1 each), choice costs by train then choice (3 each), m (1), then each
/// pair: i, j (1 each), costs (3 each), a outer, b inner." c0 becomes 0.
pub fn load(mut fields: Fields) -> Result<Study, Refusal> {
    let (n, scale) = head(&mut fields)?;
    let sizes = fields.sizes(n)?;
    let mut trains = Vec::with_capacity(n);
    for &size in &sizes {
        trains.push(Costs::new(1, size, fields.costs(size)?, scale));
    }
    let m = fields.judged(1, PAIRS, Refusal::Range)?;
    let mut pairs: Vec<Pair> = Vec::new();
    for _ in 0..m {
        let (i, j) = (fields.number(1)? as usize, fields.number(1)? as usize);
        // "i not below j, j not below n, pair not after the last" is 8.
        let after = pairs.last().is_none_or(|last| last.trains < [i, j]);
        if i >= j || j >= n || !after {
            return Err(Refusal::Pair);
        }
        let loaded = fields.costs(sizes[i] * sizes[j])?;
        pairs.push(Pair { trains: [i, j], costs: Costs::new(sizes[i], sizes[j], loaded, scale) });
    }
    fields.end()?;
    Ok(Study::loaded(scale, trains, pairs))
}

/// "n, s, count ..., then for each clause two signed one-byte literals and a weight (3)." 19 is "judged after both
/// literals". "A weight of FFFFFF is 7", as is every other above the highest cost.
pub fn clauses(mut fields: Fields) -> Result<Clauses, Refusal> {
    let (n, scale) = head(&mut fields)?;
    let count = fields.judged(2, CLAUSES, Refusal::Range)?;
    let mut list = Vec::new();
    for _ in 0..count {
        let literals = [fields.signed(1)?, fields.signed(1)?];
        let [first, second] = literals.map(|literal| literal.unsigned_abs() as usize);
        if first == 0 || first == second || first.max(second) > n {
            return Err(Refusal::Literal);
        }
        list.push(Clause { literals, weight: fields.judged(3, COSTS, Refusal::Cost)? });
    }
    fields.end()?;
    Ok(Clauses { trains: n, scale, list })
}

/// The bytes of the line that loads the study's H, "in document 01's layout": the fields of `load`, in its order.
pub fn saved(study: &Study) -> Vec<u8> {
    let mut bytes = vec![1, study.trains.len() as u8];
    put(&mut bytes, 2, study.scale);
    bytes.extend(study.trains.iter().map(|costs| costs.columns as u8));
    for costs in &study.trains {
        cost_fields(costs).for_each(|field| put(&mut bytes, 3, field));
    }
    bytes.push(study.pairs.len() as u8);
    for Pair { trains, costs } in &study.pairs {
        bytes.extend(trains.map(|train| train as u8));
        cost_fields(costs).for_each(|field| put(&mut bytes, 3, field));
    }
    bytes
}

/// "Train, choice (1 each)." "Train or choice absent" is 9.
fn present(fields: &mut Fields, study: &Study) -> Result<(usize, usize), Refusal> {
    let train = fields.number(1)? as usize;
    let costs = study.trains.get(train).ok_or(Refusal::Absent)?;
    let choice = fields.number(1)? as usize;
    costs.entries.get(choice).ok_or(Refusal::Absent)?;
    Ok((train, choice))
}

/// "train, choice (1 each), points (3)."
pub fn add(mut fields: Fields, study: &Study) -> Result<Add, Refusal> {
    let (train, choice) = present(&mut fields, study)?;
    let points = fields.judged(3, COSTS, Refusal::Cost)?;
    fields.end()?;
    Ok(Add { train, choice, points })
}

/// "lifts u_i by train (6 each), then for each pair the moves p_i,a by a, then p_j,b by b (6 each)."
pub fn shift(mut fields: Fields, study: &Study) -> Result<Shift, Refusal> {
    let lifts = fields.moves(study.trains.len())?;
    let mut moves = Vec::with_capacity(study.pairs.len());
    for Pair { costs, .. } in &study.pairs {
        moves.push([fields.moves(costs.rows)?, fields.moves(costs.columns)?]);
    }
    fields.end()?;
    Ok(Shift { lifts, moves })
}

/// "W (3), weights w_i(a) (3 each), weights z_ij(a,b) (3 each), ordered as in a load."
pub fn certificate(mut fields: Fields, study: &Study) -> Result<Certificate, Refusal> {
    let whole = fields.judged(3, WHOLES, Refusal::Whole)?;
    let mut weights = |costs: &Costs| fields.numbers(costs.entries.len(), 3);
    let single = study.trains.iter().map(&mut weights).collect::<Result<_, _>>()?;
    let joint = study.pairs.iter().map(|pair| weights(&pair.costs)).collect::<Result<_, _>>()?;
    fields.end()?;
    Ok(Certificate { whole, single, joint })
}

/// "budget (4)."
pub fn budget(mut fields: Fields) -> Result<i64, Refusal> {
    let budget = fields.judged(4, BUDGETS, Refusal::Budget)?;
    fields.end()?;
    Ok(budget)
}

/// "Kind 0A: train, choice, limit in points (4)." "9 applies." Every limit of four bytes will do.
pub fn question(mut fields: Fields, study: &Study) -> Result<Question, Refusal> {
    let (train, choice) = present(&mut fields, study)?;
    let limit = fields.number(4)?;
    fields.end()?;
    Ok(Question { train, choice, limit })
}

/// "Kind 0B gives n train numbers." "Not each train exactly once" is 21, "after 5 (9 isn't used for 0B)": no number is
/// judged by itself.
pub fn order(mut fields: Fields, study: &Study) -> Result<Vec<usize>, Refusal> {
    let numbers = fields.numbers(study.trains.len(), 1)?;
    fields.end()?;
    model::order(&numbers).ok_or(Refusal::Order)
}

/// "n, n choices, bound (6), cost (6)." "A record read is as long as its own first byte says", whatever the block's n is.
/// Nothing is judged while it is read: 22 and 23 "follow 5".
pub fn record(mut fields: Fields) -> Result<Record, Refusal> {
    let count = fields.number(1)? as usize;
    let choices = fields.numbers(count, 1)?;
    let [bound, cost] = [fields.number(6)?, fields.number(6)?];
    fields.end()?;
    Ok(Record { choices, bound, cost })
}

/// "Kind 0E with n choices, n being the block's." "9 not used": no choice is judged by itself.
pub fn choices(mut fields: Fields, study: &Study) -> Result<Vec<i64>, Refusal> {
    let choices = fields.numbers(study.trains.len(), 1)?;
    fields.end()?;
    Ok(choices)
}

/// "Kind 0F: n and sizes." "6 applies."
pub fn sizes(mut fields: Fields) -> Result<Vec<usize>, Refusal> {
    let n = fields.judged(1, TRAINS, Refusal::Range)?;
    let sizes = fields.sizes(n as usize)?;
    fields.end()?;
    Ok(sizes)
}
