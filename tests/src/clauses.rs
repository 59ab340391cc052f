//! Change 7: a study written as clauses, and the tables that it stands for.

use crate::model::{Costs, Pair, Refusal, Study, COSTS, PAIRS};
use std::collections::BTreeMap;

/// "Literal k is train k−1 taking choice 0, −k is choice 1; a second literal of 0 means a clause of one."
#[derive(Clone, Copy, Debug, PartialEq, Eq)]
pub struct Clause {
    pub literals: [i64; 2],
    pub weight: i64,
}

/// The clauses of a line, its n and its s.
pub struct Clauses {
    pub trains: usize,
    pub scale: i64,
    pub list: Vec<Clause>,
}

/// The train of a literal, and the choice that does not meet it.
fn failing(literal: i64) -> (usize, usize) {
    (literal.unsigned_abs() as usize - 1, usize::from(literal > 0))
}

impl Clauses {
    /// "All sizes are 2. The clause costs its weight when neither literal is met. Each two trains that some clause names
    /// together are a pair. Costs on the same entry add up; pairs come out ascending." 20 is "over 48 pairs", "before 10";
    /// 10 is a loaded cost above the highest.
    pub fn study(&self) -> Result<Study, Refusal> {
        let mut choices = vec![[0; 2]; self.trains];
        let mut pairs: BTreeMap<[usize; 2], [[i64; 2]; 2]> = BTreeMap::new();
        for &Clause { literals: [first, second], weight } in &self.list {
            if second == 0 {
                let (train, choice) = failing(first);
                choices[train][choice] += weight;
            } else {
                let mut both = [first, second].map(failing);
                both.sort();
                let [(i, a), (j, b)] = both;
                pairs.entry([i, j]).or_default()[a][b] += weight;
            }
        }
        if pairs.len() > *PAIRS.end() as usize {
            return Err(Refusal::Pairs);
        }
        let costs = choices.iter().chain(pairs.values().flatten()).flatten();
        if !costs.into_iter().all(|points| COSTS.contains(points)) {
            return Err(Refusal::Loaded);
        }
        let table = |rows: &[[i64; 2]]| {
            let loaded = rows.iter().flatten().copied().map(Some).collect();
            Costs::new(rows.len(), 2, loaded, self.scale)
        };
        let trains = choices.into_iter().map(|row| table(&[row])).collect();
        let pair = |(trains, rows): ([usize; 2], [[i64; 2]; 2])| Pair { trains, costs: table(&rows) };
        Ok(Study::loaded(self.scale, trains, pairs.into_iter().map(pair).collect()))
    }
}
