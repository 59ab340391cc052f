//! Add, shift, tighten, the directional round and certify. A refused study is thrown away by the caller.

use crate::model::{Costs, Refusal, Study, COSTS};

pub struct Add {
    pub train: usize,
    pub choice: usize,
    pub points: i64,
}

/// Lifts by train and, by pair, the moves of its first and of its second train.
pub struct Shift {
    pub lifts: Vec<i64>,
    pub moves: Vec<[Vec<i64>; 2]>,
}

/// W, w by train and z by pair.
pub struct Certificate {
    pub whole: i64,
    pub single: Vec<Vec<i64>>,
    pub joint: Vec<Vec<i64>>,
}

/// "H at that choice grows by the points, T by s × points." "Forbidden entries stay so under every line that doesn't
/// load, additions included."
pub fn add(study: &mut Study, add: &Add) -> Result<(), Refusal> {
    let Some(cost) = &mut study.trains[add.train].entries[add.choice] else {
        return Ok(());
    };
    cost.loaded += add.points;
    cost.held += study.scale * add.points;
    if !COSTS.contains(&cost.loaded) {
        return Err(Refusal::Loaded);
    }
    study.judge()
}

/// "Together: c0 grows by the sum of u_i. c_i(a) becomes c_i(a) − u_i plus all moves of train i,
/// choice a. c_ij(a,b) becomes c_ij(a,b) − p_i,a − p_j,b. Only the end is judged." What falls on a forbidden entry
/// vanishes there, and still acts on the other side.
pub fn shift(study: &mut Study, shift: &Shift) -> Result<(), Refusal> {
    for (costs, &lift) in study.trains.iter_mut().zip(&shift.lifts) {
        costs.take(0, 0, lift);
        study.constant += lift;
    }
    for (pair, sides) in study.pairs.iter_mut().zip(&shift.moves) {
        for (side, moves) in sides.iter().enumerate() {
            for (choice, &amount) in moves.iter().enumerate() {
                pair.costs.take(side, choice, amount);
                study.trains[pair.trains[side]].put(choice, amount);
            }
        }
    }
    study.judge()
}

/// "For each pair in order, for each a ascending, the least c_ij(a,b) over b moves from that row to
/// c_i(a). Then for each b ascending the least over a moves to c_j(b). After all pairs, by train,
/// the least c_i(a) is taken off every choice and added to c0."
pub fn tighten(study: &mut Study) -> Result<(), Refusal> {
    for pair in &mut study.pairs {
        for (side, train) in pair.trains.into_iter().enumerate() {
            move_leasts(&mut pair.costs, side, &mut study.trains[train]);
        }
    }
    for costs in &mut study.trains {
        lift_least(costs, &mut study.constant);
    }
    study.judge()
}

/// The least of each line of a pair's costs moves to the choice beside it. "Where there are none, nothing moves." "A
/// least cost that goes to a forbidden entry is still taken off where it stood."
fn move_leasts(pair: &mut Costs, side: usize, train: &mut Costs) {
    for choice in 0..train.columns {
        if let Some(least) = pair.least(side, choice) {
            pair.take(side, choice, least);
            train.put(choice, least);
        }
    }
}

/// A train's least cost is taken off every choice and added to c0.
fn lift_least(train: &mut Costs, constant: &mut i64) {
    if let Some(least) = train.least(0, 0) {
        train.take(0, 0, least);
        *constant += least;
    }
}

/// A directional round: "For j from n−1 down to 1, each pair (i, j) in order first takes all of c_j(b) into its
/// entries; then each row's least entry moves to c_i(a). After its pairs, train j lifts its least cost to the
/// constant; train 0 lifts last." It "takes c_j(b), unless forbidden, off wholly and adds it to permitted entries only".
pub fn round(study: &mut Study) -> Result<(), Refusal> {
    for train in (0..study.trains.len()).rev() {
        for pair in &mut study.pairs {
            let [first, second] = pair.trains;
            // Train 0 is second in no pair.
            if second != train {
                continue;
            }
            for (choice, entry) in study.trains[second].entries.iter_mut().enumerate() {
                if let Some(cost) = entry {
                    pair.costs.take(1, choice, -cost.held);
                    cost.held = 0;
                }
            }
            move_leasts(&mut pair.costs, 0, &mut study.trains[first]);
        }
        lift_least(&mut study.trains[train], &mut study.constant);
    }
    study.judge()
}

/// Whether the weights' sums agree.
fn agree(study: &Study, certificate: &Certificate) -> bool {
    // "Each train's w sum to W."
    let mut agree = certificate.single.iter().all(|w| w.iter().sum::<i64>() == certificate.whole);
    // "Each row of z sums to w_i(a), each column to w_j(b)."
    for (pair, z) in study.pairs.iter().zip(&certificate.joint) {
        for (side, train) in pair.trains.into_iter().enumerate() {
            for (choice, &weight) in certificate.single[train].iter().enumerate() {
                agree &= pair.costs.line(side, choice).map(|cell| z[cell]).sum::<i64>() == weight;
            }
        }
    }
    agree
}

/// E = W × c0 + sum of w × c_i + sum of z × c_ij, where the weights' sums agree, else 14, and none above 0 is on a
/// forbidden entry, else 18. Forbidden entries are left out.
pub fn ceiling(study: &Study, certificate: &Certificate) -> Result<i64, Refusal> {
    if !agree(study, certificate) {
        return Err(Refusal::Sums);
    }
    let weights = certificate.single.iter().chain(&certificate.joint).flatten();
    let entries = study.tables().flat_map(|costs| &costs.entries);
    let mut ceiling = certificate.whole * study.constant;
    for (&weight, entry) in weights.zip(entries) {
        match entry {
            Some(cost) => ceiling += weight * cost.held,
            None if weight > 0 => return Err(Refusal::ForbiddenWeight),
            None => {}
        }
    }
    Ok(ceiling)
}
