//! Change 11: the record of a plan that station screens and planning rooms read.

use crate::lines;
use crate::model::{Cost, Costs, Pair, Refusal, Study};

/// "n, n choices, bound (6), cost (6), in points." Choices are by train number.
#[derive(Clone, PartialEq, Eq, Debug)]
pub struct Record {
    pub choices: Vec<i64>,
    pub bound: i64,
    pub cost: i64,
}

/// How many characters the reply has that shows a record of n choices: kind, n, choices, bound and cost.
pub const fn length(n: usize) -> usize {
    2 * (1 + 1 + n + 6 + 6)
}

/// The plan of these choices. "22, n or a choice not the block's": a choice that is forbidden is the block's all the same.
pub fn plan(study: &Study, choices: &[i64]) -> Result<Vec<usize>, Refusal> {
    let held = |(&choice, costs): (&i64, &Costs)| (0..costs.columns as i64).contains(&choice);
    let all = choices.len() == study.trains.len() && choices.iter().zip(&study.trains).all(held);
    all.then(|| choices.iter().map(|&choice| choice as usize).collect()).ok_or(Refusal::NotHeld)
}

/// The entries of a plan: of its choices, then of its pairs.
pub fn entries<'a>(study: &'a Study, plan: &'a [usize]) -> impl Iterator<Item = Option<Cost>> + 'a {
    let choices = study.trains.iter().zip(plan).map(|(costs, &choice)| costs.entries[choice]);
    let entry = |Pair { trains: [i, j], costs }: &Pair| costs.entries[plan[*i] * costs.columns + plan[*j]];
    choices.chain(study.pairs.iter().map(entry))
}

/// "The plan's total in H", `None` where it has a forbidden entry.
pub fn cost(study: &Study, plan: &[usize]) -> Option<i64> {
    entries(study, plan).map(|entry| Some(entry?.loaded)).sum()
}

impl Record {
    /// The record of these choices "with the published bound". A forbidden entry is 23.
    pub fn of(study: &Study, choices: Vec<i64>) -> Result<Self, Refusal> {
        let cost = cost(study, &plan(study, &choices)?).ok_or(Refusal::Figures)?;
        Ok(Self { choices, bound: study.bound(), cost })
    }

    /// 22, then "23, cost isn't the plan's total in H, bound above it, or a forbidden entry". The bound of a record need not
    /// be the published one.
    pub fn judge(&self, study: &Study) -> Result<(), Refusal> {
        let total = cost(study, &plan(study, &self.choices)?);
        let right = total == Some(self.cost) && self.bound <= self.cost;
        right.then_some(()).ok_or(Refusal::Figures)
    }

    /// The reply of this kind that shows n and the choices alone.
    pub fn front(&self, code: u8) -> Vec<u8> {
        let choices = self.choices.iter().map(|&choice| choice as u8);
        [code, self.choices.len() as u8].into_iter().chain(choices).collect()
    }

    /// The reply of this kind that shows the whole record.
    pub fn whole(&self, code: u8) -> Vec<u8> {
        let mut bytes = self.front(code);
        lines::put(&mut bytes, 6, self.bound);
        lines::put(&mut bytes, 6, self.cost);
        bytes
    }
}
