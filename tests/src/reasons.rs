//! Change 8: why a choice is out.

use crate::model::{Pair, Study};

/// "Train, choice, limit in points."
pub struct Question {
    pub train: usize,
    pub choice: usize,
    pub limit: i64,
}

/// "With reason 01", "with 02 and a train", "00 means neither".
#[derive(Clone, Copy, Debug, PartialEq, Eq)]
pub enum Reason {
    Neither,
    Own,
    Partner(usize),
}

/// The partner of a train in a pair, and the pair's "least of pair cost plus partner's cost, over partner choices where
/// both are permitted", if there is such a choice.
pub fn beside(study: &Study, pair: &Pair, train: usize, choice: usize) -> Option<(usize, Option<i64>)> {
    let side = pair.trains.iter().position(|&one| one == train)?;
    let partner = pair.trains[1 - side];
    let costs = study.trains[partner].entries.iter().zip(pair.costs.line(side, choice));
    let least = costs.filter_map(|(cost, cell)| Some((*cost)?.held + pair.costs.held(cell)?)).min();
    Some((partner, least))
}

/// "With reason 01, constant plus the choice's own cost reaches the limit (judged in parts, against s × limit), or the
/// choice is forbidden. With 02 and a train, adding the least ... reaches it, or there is no such partner choice; the
/// partner in the first such pair in order is named. 00 means neither; 01 goes before 02."
pub fn reason(study: &Study, question: &Question) -> Reason {
    let Question { train, choice, limit } = *question;
    let reaches = |parts: i64| parts >= study.scale * limit;
    let own = match study.trains[train].held(choice) {
        Some(cost) if !reaches(study.constant + cost) => study.constant + cost,
        _ => return Reason::Own,
    };
    let pairs = study.pairs.iter().filter_map(|pair| beside(study, pair, train, choice));
    let mut out = pairs.filter(|(_, least)| least.is_none_or(|least| reaches(own + least)));
    out.next().map_or(Reason::Neither, |(partner, _)| Reason::Partner(partner))
}
