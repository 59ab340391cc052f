//! Weights of certificates.

use crate::model::{Costs, Pair, Study};
use crate::operations::Certificate;
use crate::random::Random;
use crate::search;

/// The weights of some plans, mostly of the best; a choice of the others is now and then forbidden.
pub fn mixture(random: &mut Random, study: &Study) -> Certificate {
    let mut weights: Vec<i64> = (0..random.between(1, 5))
        .map(|_| if random.chance(80) { 1 } else { random.between(1, 19_000) })
        .collect();
    if random.chance(10) {
        weights.push(random.pick(&[100_000, 100_000, 100_001]) - weights.iter().sum::<i64>());
    }
    let mut certificate = weightless(study, weights.iter().sum());
    let best = if random.chance(60) { search::walk(study, 3_000, None).best } else { None };
    let others = random.pick(&[0, 20, 20]);
    for weight in weights {
        let plan: Vec<usize> = match &best {
            Some(best) if !random.chance(others) => best.plan.clone(),
            _ => study.trains.iter().map(|costs| choice(random, costs)).collect(),
        };
        for (w, &choice) in certificate.single.iter_mut().zip(&plan) {
            w[choice] += weight;
        }
        for (z, pair) in certificate.joint.iter_mut().zip(&study.pairs) {
            let [a, b] = pair.trains.map(|train| plan[train]);
            z[a * pair.costs.columns + b] += weight;
        }
    }
    certificate
}

/// A choice of a train, mostly a permitted one.
pub fn choice(random: &mut Random, costs: &Costs) -> usize {
    let permitted: Vec<usize> =
        (0..costs.columns).filter(|&choice| costs.entries[choice].is_some()).collect();
    match permitted.is_empty() || random.chance(10) {
        true => random.below(costs.columns),
        false => random.pick(&permitted),
    }
}

/// Each train's weight in equal parts on its usable choices, or on all if there are none. Pairs have none yet.
pub fn uniform(study: &Study) -> Certificate {
    /// 1 to 8 divide it.
    const WHOLE: i64 = 840;
    let mut certificate = weightless(study, WHOLE);
    for (w, usable) in certificate.single.iter_mut().zip(usable(study)) {
        let all = !usable.contains(&true);
        let count = usable.iter().filter(|&&usable| all || usable).count();
        let places = w.iter_mut().zip(usable).filter(|&(_, usable)| all || usable);
        places.for_each(|(weight, _)| *weight = WHOLE / count as i64);
    }
    certificate
}

/// By train, whether a choice can have weight: it is permitted, and so is in each of its pairs an entry beside another
/// such choice.
fn usable(study: &Study) -> Vec<Vec<bool>> {
    let permitted = |costs: &Costs| costs.entries.iter().map(Option::is_some).collect();
    let mut usable: Vec<Vec<bool>> = study.trains.iter().map(permitted).collect();
    let mut last = Vec::new();
    while last != usable {
        last = usable.clone();
        for Pair { trains, costs } in &study.pairs {
            for side in 0..2 {
                let other = &last[trains[1 - side]];
                for (choice, usable) in usable[trains[side]].iter_mut().enumerate() {
                    let mut beside = costs.line(side, choice).zip(other);
                    *usable &= beside.any(|(cell, &other)| other && costs.entries[cell].is_some());
                }
            }
        }
    }
    usable
}

/// No weights yet.
fn weightless(study: &Study, whole: i64) -> Certificate {
    let zeros = |costs: &Costs| vec![0; costs.entries.len()];
    let single = study.trains.iter().map(zeros).collect();
    let joint = study.pairs.iter().map(|pair| zeros(&pair.costs)).collect();
    Certificate { whole, single, joint }
}

/// Gives each pair new weights with the same sums, on permitted entries as far as that is found in some attempts.
pub fn couple(random: &mut Random, study: &Study, certificate: &mut Certificate) {
    for (z, pair) in certificate.joint.iter_mut().zip(&study.pairs) {
        let sums = pair.trains.map(|train| &certificate.single[train]);
        for _ in 0..8 {
            *z = coupled(random, &pair.costs, sums);
            if z.iter().zip(&pair.costs.entries).all(|(&weight, entry)| weight == 0 || entry.is_some()) {
                break;
            }
        }
    }
}

/// Weights of a pair with these sums of rows and columns, permitted entries first.
fn coupled(random: &mut Random, costs: &Costs, sums: [&Vec<i64>; 2]) -> Vec<i64> {
    let [mut rows, mut columns] = sums.map(Vec::clone);
    let mut cells: Vec<usize> = (0..costs.entries.len()).collect();
    random.shuffle(&mut cells);
    cells.sort_by_key(|&cell| costs.entries[cell].is_none());
    let mut z = vec![0; cells.len()];
    for cell in cells {
        let (a, b) = (cell / costs.columns, cell % costs.columns);
        z[cell] = rows[a].min(columns[b]);
        rows[a] -= z[cell];
        columns[b] -= z[cell];
    }
    z
}

/// Moves one unit of weight to another choice of a train, or along a row or a column of a pair.
pub fn unbalance(random: &mut Random, study: &Study, certificate: &mut Certificate) {
    let Certificate { single, joint, .. } = certificate;
    let (weights, costs) = if joint.is_empty() || random.chance(30) {
        let train = random.below(single.len());
        (&mut single[train], &study.trains[train])
    } else {
        let number = random.below(joint.len());
        (&mut joint[number], &study.pairs[number].costs)
    };
    let side = if costs.rows == 1 { 0 } else { random.below(2) };
    let cells: Vec<usize> = costs.line(side, random.below([costs.rows, costs.columns][side])).collect();
    let [from, to] = [random.pick(&cells), random.pick(&cells)];
    if weights[from] > 0 {
        weights[from] -= 1;
        weights[to] += 1;
    }
}
