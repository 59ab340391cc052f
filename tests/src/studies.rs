//! Pieces of random studies.

use crate::model::{Costs, Pair, Study, PAIRS, TOP};
use crate::random::Random;
use std::iter::repeat_with;

pub const MOST_PAIRS: usize = *PAIRS.end() as usize;

/// The pairs of n trains, ascending: any (if full, as many as there may be), or of a shape that matters to rounds.
pub fn pairs(random: &mut Random, n: usize, full: bool) -> Vec<[usize; 2]> {
    let mut keys = any_pairs(random, n, full);
    keys.iter_mut().for_each(|pair| pair.sort());
    keys.sort();
    keys.dedup();
    keys.truncate(MOST_PAIRS);
    keys
}

fn any_pairs(random: &mut Random, n: usize, full: bool) -> Vec<[usize; 2]> {
    let mut trains: Vec<usize> = (0..n).collect();
    match random.below(10) {
        // Each train has at most one partner of lower number.
        0..=2 => {
            let mut keys: Vec<_> = (1..n).map(|j| [random.below(j), j]).collect();
            keys.retain(|_| random.chance(85));
            keys
        }
        // A tree, its trains numbered anyhow.
        3 => {
            random.shuffle(&mut trains);
            (1..n).map(|place| [trains[random.below(place)], trains[place]]).collect()
        }
        // All pairs of some trains.
        4 => {
            random.shuffle(&mut trains);
            trains.truncate(random.pick(&[3, 4, 10]));
            trains
                .iter()
                .enumerate()
                .flat_map(|(place, &j)| trains[..place].iter().map(move |&i| [i, j]))
                .collect()
        }
        // All pairs of some second trains.
        5 => (0..2).map(|_| random.below(n)).flat_map(|j| (0..j).map(move |i| [i, j])).collect(),
        shape => {
            let mut keys = shuffled_pairs(random, n);
            let all = keys.len().min(MOST_PAIRS);
            keys.truncate(if full || shape < 8 { all } else { random.below(all + 1) });
            keys
        }
    }
}

/// All pairs of n trains, in any order.
pub fn shuffled_pairs(random: &mut Random, n: usize) -> Vec<[usize; 2]> {
    let mut keys: Vec<_> = (0..n).flat_map(|j| (0..j).map(move |i| [i, j])).collect();
    random.shuffle(&mut keys);
    keys
}

/// How many parts a point has.
pub fn scale(random: &mut Random) -> i64 {
    let any = random.between(1, 1_000);
    random.pick(&[1, 1, 2, 3, 7, 1_000, any])
}

/// Three trains of two choices and all their pairs, in which equal choices are forbidden: there is no plan.
pub fn clique(random: &mut Random) -> Study {
    let scale = random.pick(&[1, 2, 7]);
    let top = random.pick(&[0, 0, 1, 10]);
    let mut costs = |rows: usize| {
        let loaded = repeat_with(|| Some(random.between(0, top))).take(2 * rows).collect();
        Costs::new(rows, 2, loaded, scale)
    };
    let trains = (0..3).map(|_| costs(1)).collect();
    let pairs = [[0, 1], [0, 2], [1, 2]].map(|trains| Pair { trains, costs: costs(2) });
    let mut study = Study::loaded(scale, trains, pairs.into());
    forbid_equal(&mut study);
    study
}

/// Forbids entries: some of all or of the pairs, whole rows and columns, choices of one train, or equal choices.
pub fn forbid(random: &mut Random, study: &mut Study) {
    let some = |random: &mut Random, costs: &mut Costs, percent: u64| {
        costs.entries.iter_mut().filter(|_| random.chance(percent)).for_each(|entry| *entry = None);
    };
    match random.below(7) {
        0 | 1 => {
            let percent = random.pick(&[2, 3, 5, 5, 10, 20, 40, 100]);
            study.tables_mut().for_each(|costs| some(random, costs, percent));
        }
        2 | 3 => {
            let percent = random.pick(&[3, 5, 10, 20, 50]);
            study.pairs.iter_mut().for_each(|pair| some(random, &mut pair.costs, percent));
        }
        4 => {
            for Pair { costs, .. } in &mut study.pairs {
                let side = random.below(2);
                let choice = random.below([costs.rows, costs.columns][side]);
                let cells = costs.line(side, choice).filter(|_| random.chance(90));
                cells.for_each(|cell| costs.entries[cell] = None);
            }
        }
        5 => {
            let train = random.below(study.trains.len());
            let percent = random.pick(&[30, 50, 50, 100]);
            some(random, &mut study.trains[train], percent);
        }
        _ => forbid_equal(study),
    }
}

fn forbid_equal(study: &mut Study) {
    for Pair { costs, .. } in &mut study.pairs {
        let equal = costs.entries.iter_mut().step_by(costs.columns + 1);
        equal.take(costs.rows.min(costs.columns)).for_each(|entry| *entry = None);
    }
}

/// Raises numbers so that a round passes L where a pair takes its second train's costs, and comes down again where
/// its rows' leasts move.
pub fn raise(random: &mut Random, study: &mut Study) {
    let number = random.below(study.pairs.len());
    let pair = &mut study.pairs[number];
    let costs = &mut study.trains[pair.trains[1]];
    let choice = random.below(costs.columns);
    costs.take(0, 0, -TOP / 10);
    costs.put(choice, TOP / 2);
    pair.costs.take(1, choice, -TOP / 20 * 9);
}

/// Gives one pair trains that it must not have.
pub fn mispair(random: &mut Random, study: &mut Study) {
    if study.pairs.is_empty() {
        return;
    }
    let number = random.below(study.pairs.len());
    let any = study.pairs[random.below(study.pairs.len())].trains;
    let last = study.pairs[number.saturating_sub(1)].trains;
    let [i, j] = study.pairs[number].trains;
    let absent = study.trains.len();
    study.pairs[number].trains = random.pick(&[any, last, [j, i], [j, j], [i, absent]]);
}
