//! Search: the walk over plans, in the order of trains that the study has.

use crate::model::{Costs, Study};

pub struct Best {
    pub total: i64,
    pub plan: Vec<usize>,
    /// The count of the try that made it the best.
    pub found: i64,
}

/// How a walk ends.
#[derive(Clone, Copy, Debug, PartialEq, Eq)]
pub enum End {
    /// "The walk is spent."
    Spent,
    /// All tries are made.
    Tried,
    /// The new best plan's cost equals the bound.
    Bound,
}

pub struct Walk {
    pub end: End,
    pub count: i64,
    pub best: Option<Best>,
}

/// By train, all its partners, the costs beside each, and on which side of them the train is.
struct Partners<'a>(Vec<Vec<(usize, &'a Costs, usize)>>);

impl<'a> Partners<'a> {
    fn of(study: &'a Study) -> Self {
        let mut partners = vec![Vec::new(); study.trains.len()];
        for pair in &study.pairs {
            let [i, j] = pair.trains;
            partners[i].push((j, &pair.costs, 0));
            partners[j].push((i, &pair.costs, 1));
        }
        Self(partners)
    }

    /// The costs in T that a train's choice brings in beside the choices of the trains decided, `None` where one of them is
    /// forbidden. So a pair comes in when the later of its two trains, in the walk's order, is tried.
    fn brought(&self, study: &Study, decided: &[Option<usize>], train: usize, choice: usize) -> Option<i64> {
        let mut sum = study.trains[train].held(choice)?;
        for &(partner, costs, side) in &self.0[train] {
            if let Some(other) = decided[partner] {
                let [a, b] = if side == 0 { [choice, other] } else { [other, choice] };
                sum += costs.held(a * costs.columns + b)?;
            }
        }
        Some(sum)
    }
}

/// An open train: the partial total before it, and the choice that it tries next.
struct Open {
    train: usize,
    before: i64,
    next: usize,
}

/// "Opening a train tries its choices; trying a choice opens the next train." "The walk opens trains in that order", and
/// choices ascend. Without recursion: the open trains are those of `open`, and all of them but the last are decided.
/// Without a bound it is document 01's walk in that order, which no cost ends.
pub fn walk(study: &Study, budget: i64, bound: Option<i64>) -> Walk {
    let partners = Partners::of(study);
    let mut walk = Walk { end: End::Spent, count: 0, best: None };
    let mut open = vec![Open { train: study.order[0], before: study.constant, next: 0 }];
    let mut decided = vec![None; study.trains.len()];
    let mut rest = study.order[1..].to_vec();
    rest.reverse();
    while let Some(&mut Open { train, before, ref mut next }) = open.last_mut() {
        // No choice of the train is taken now.
        decided[train] = None;
        let choice = *next;
        if choice == study.size(train) {
            rest.push(train);
            open.pop();
            continue;
        }
        // "Before each try, if the count equals the budget, the walk is spent. Each try counts 1."
        if walk.count == budget {
            return walk;
        }
        walk.count += 1;
        *next += 1;
        // "The partial total is c0 plus the costs in T among trains decided." "A try that brings a forbidden entry in
        // counts and is dropped."
        let Some(brought) = partners.brought(study, &decided, train, choice) else { continue };
        let total = before + brought;
        // "If a best total is known and the partial total isn't below it, the try is dropped."
        if walk.best.as_ref().is_some_and(|best| total >= best.total) {
            continue;
        }
        decided[train] = Some(choice);
        if let Some(train) = rest.pop() {
            open.push(Open { train, before: total, next: 0 });
        } else {
            // "A whole plan not dropped becomes the best." "Replies still list choices by train number."
            let plan = decided.iter().copied().map(|choice| choice.expect("a whole plan")).collect();
            walk.best = Some(Best { total, plan, found: walk.count });
            // "A search should end when a new best plan's cost equals the published bound. That rule and the budget rule
            // can meet on one try; the bound comes first."
            if bound == Some(study.points(total)) {
                walk.end = End::Bound;
                return walk;
            }
        }
    }
    walk.end = End::Tried;
    walk
}
