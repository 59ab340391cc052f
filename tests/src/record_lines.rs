//! Lines of kinds 0C, 0D and 0E of the generator: true records, and each damage.

use crate::generator::Fields;
use crate::model::Study;
use crate::random::Random;
use crate::records::{self, Record};
use crate::search;
use crate::weights::choice;

/// The kinds that read a record, for screens and for planners, and the one that writes one.
pub const SCREEN: i64 = 12;
pub const PLANNER: i64 = 13;
pub const WRITE: i64 = 14;
/// The highest number of six bytes.
const MOST: i64 = 0xFFFF_FFFF_FFFF;

/// The fields of a line of kind 0C or 0D that reads this record.
pub fn read_fields(kind: i64, record: &Record) -> Fields {
    let Record { choices, bound, cost } = record;
    let mut fields = vec![(1, kind), (1, choices.len() as i64)];
    fields.extend(choices.iter().map(|&choice| (1, choice)));
    fields.extend([(6, *bound), (6, *cost)]);
    fields
}

/// The fields of a line of kind 0E.
pub fn write_fields(choices: &[i64]) -> Fields {
    [WRITE].iter().chain(choices).map(|&number| (1, number)).collect()
}

/// The choices of a plan: the best of some tries, mostly permitted ones, or any.
pub fn any_choices(random: &mut Random, study: &Study) -> Vec<i64> {
    let best = if random.chance(50) { search::walk(study, 1_000, None).best } else { None };
    let plan: Vec<usize> = match best {
        Some(best) => best.plan,
        None if random.chance(70) => study.trains.iter().map(|costs| choice(random, costs)).collect(),
        None => study.trains.iter().map(|costs| random.below(costs.columns)).collect(),
    };
    plan.into_iter().map(|choice| choice as i64).collect()
}

/// The record of these choices: with the published bound and their total in H, to which a forbidden entry adds nothing.
pub fn true_record(study: &Study, choices: Vec<i64>) -> Record {
    let plan = records::plan(study, &choices).expect("choices of the study");
    let cost = records::entries(study, &plan).flatten().map(|cost| cost.loaded).sum();
    Record { choices, bound: study.bound(), cost }
}

/// The fields of a line of this kind, mostly with the record as it is.
pub fn any_fields(random: &mut Random, study: &Study, kind: i64, mut record: Record) -> Fields {
    let damage = random.below(26);
    if matches!(damage, 0 | 1 | 2 | 10) {
        mischoose(random, study, &mut record.choices);
    }
    if matches!(damage, 3..=10) {
        misfigure(random, study, &mut record);
    }
    let mut fields = match kind {
        WRITE => write_fields(&record.choices),
        _ => read_fields(kind, &record),
    };
    if matches!(damage, 2 | 9 | 11 | 12) {
        mislength(random, &mut fields);
    }
    fields
}

/// A choice that its train hasn't, or another n, in a line that is as long as that n says.
fn mischoose(random: &mut Random, study: &Study, choices: &mut Vec<i64>) {
    let n = choices.len();
    match random.below(9) {
        0..=3 if n > 0 => {
            let train = random.below(n.min(study.trains.len()));
            let size = study.size(train) as i64;
            choices[train] = random.pick(&[size, size, size, size + 1, 255]);
        }
        4 => drop(choices.pop()),
        5 => choices.push(random.pick(&[0, 0, 1])),
        6 => choices.clear(),
        7 => choices.resize(255, 0),
        _ => choices.resize(random.pick(&[0, 1, 2, 24, 25]), 0),
    }
}

/// Other figures: beside the true ones, in the other's place, of another sum, or any six bytes.
fn misfigure(random: &mut Random, study: &Study, record: &mut Record) {
    let other = random.pick(&other_sums(study, &record.choices));
    let Record { bound, cost, .. } = record;
    let any = random.between(0, MOST);
    match random.below(14) {
        0 => *cost += 1,
        1 => *cost = (*cost - 1).max(0),
        2 => *bound = *cost + 1,
        3 => *bound = *cost,
        4 => *bound = 0,
        5 | 6 => *bound = random.between(0, *cost),
        7 => *bound += 1,
        8 => *bound = (*bound - 1).max(0),
        9 => *cost = other,
        10 => *bound = any,
        11 => *cost = any,
        12 => (*bound, *cost) = (*cost, *bound),
        _ => (*bound, *cost) = random.pick(&[(any, any), (any, MOST), (MOST, MOST), (0, 0)]),
    }
}

/// Sums that are not a plan's total in H, though mostly near it: by T, in parts and in points, with −1 for each forbidden entry,
/// without a pair, and what the choices cost in the study's order.
fn other_sums(study: &Study, choices: &[i64]) -> Vec<i64> {
    let Ok(plan) = records::plan(study, choices) else { return vec![0, MOST] };
    let entries: Vec<_> = records::entries(study, &plan).collect();
    let permitted = || entries.iter().flatten();
    let cost: i64 = permitted().map(|cost| cost.loaded).sum();
    let held: i64 = study.constant + permitted().map(|cost| cost.held).sum::<i64>();
    let forbidden = entries.iter().filter(|entry| entry.is_none()).count() as i64;
    let last = entries.iter().rev().flatten().next().map_or(0, |cost| cost.loaded);
    let turned: Vec<i64> = study.order.iter().map(|&train| choices[train]).collect();
    let turned = records::plan(study, &turned).ok().and_then(|plan| records::cost(study, &plan));
    let sums = [held, study.points(held), cost - forbidden, cost - last, turned.unwrap_or(cost)];
    sums.map(|sum| sum.clamp(0, MOST)).into()
}

/// Another length: an n that the line is not long enough for or too long, a byte less or more, or a cut.
fn mislength(random: &mut Random, fields: &mut Fields) {
    let end = fields.len() - 1;
    match random.below(9) {
        0 if end > 0 => fields[1].1 = random.pick(&[0, 255, fields[1].1 + 1, (fields[1].1 - 1).max(0)]),
        1 | 2 if end > 0 && fields[end].0 == 6 => fields[end].0 = 5,
        3 | 4 => fields.push((1, random.pick(&[0, 0, 255]))),
        5 if end > 0 => drop(fields.pop()),
        6 => fields.truncate(1),
        7 => fields.truncate(2),
        _ => fields.truncate(1 + random.below(end + 1)),
    }
}
