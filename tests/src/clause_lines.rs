//! Lines of clauses of the generator: right ones of every size, and each damage.

use crate::clauses::{Clause, Clauses};
use crate::generator::Fields;
use crate::lines::{self, Kind, CLAUSES};
use crate::model::COSTS;
use crate::random::Random;
use crate::studies::{pairs, scale, shuffled_pairs, MOST_PAIRS};

const MOST_CLAUSES: usize = *CLAUSES.end() as usize;
/// The highest cost of an entry, and the highest weight.
const MOST: i64 = *COSTS.end();
/// How many fields stand before the first clause, and how many a clause has.
const HEAD: usize = 4;
const PARTS: usize = 3;

/// The fields of these clauses.
pub fn clause_fields(clauses: &Clauses) -> Fields {
    let Clauses { trains, scale, list } = clauses;
    let mut fields = vec![(1, 9), (1, *trains as i64), (2, *scale), (2, list.len() as i64)];
    for Clause { literals: [first, second], weight } in list {
        fields.extend([(1, *first), (1, *second), (3, *weight)]);
    }
    fields
}

/// How many trains a line has that is one of clauses and no field of which is refused.
pub fn trains(line: &[u8]) -> Option<usize> {
    let (kind, fields) = lines::open(line).ok()?;
    let clauses = matches!(kind, Kind::Clauses).then(|| lines::clauses(fields).ok())?;
    Some(clauses?.trains)
}

/// The fields of clauses over n trains, now and then spoilt where only clauses can be.
pub fn any_fields(random: &mut Random, n: usize) -> Fields {
    let mut clauses = Clauses { trains: n, scale: scale(random), list: any_clauses(random, n) };
    if random.chance(25) {
        bring_to_limit(random, &mut clauses.list);
    }
    if random.chance(25) && !clauses.list.is_empty() {
        let place = random.below(clauses.list.len());
        misuse(random, n, &mut clauses.list[place]);
    }
    let mut fields = clause_fields(&clauses);
    match random.below(12) {
        0 | 1 if !clauses.list.is_empty() => cut(random, &mut fields, clauses.list.len()),
        2 => fields.push((1, random.pick(&[0, 255]))),
        _ => {}
    }
    fields
}

/// Ends the line before one of its clauses, or in it: behind either literal, or in the weight.
fn cut(random: &mut Random, fields: &mut Fields, count: usize) {
    let clause = HEAD + PARTS * random.pick(&[0, 1, 1]) * random.below(count);
    let parts = random.below(PARTS);
    fields.truncate(clause + parts);
    if parts + 1 == PARTS && random.chance(50) {
        fields.push((random.between(1, 2) as usize, 0));
    }
}

/// Clauses for the pairs of some shape, or for as many as there may be, or for more; further ones, many of which repeat
/// one or turn it over; some of one literal; now and then all of one weight.
pub(crate) fn any_clauses(random: &mut Random, n: usize) -> Vec<Clause> {
    let mut keys = match random.chance(35) {
        true => shuffled_pairs(random, n),
        false => pairs(random, n, false),
    };
    keys.truncate(MOST_PAIRS + random.pick(&[0, 0, 1, 2]));
    let mut literals: Vec<[i64; 2]> = keys.iter().map(|&key| of_two(random, key)).collect();
    let exact = literals.len();
    let few = exact + random.below(2 * n + 2);
    let any = random.below(MOST_CLAUSES + 1);
    let count =
        random.pick(&[exact, few, few, few, any, 0, 1, MOST_CLAUSES - 1, MOST_CLAUSES, MOST_CLAUSES + 1]);
    while literals.len() < count {
        let next = match random.below(4) {
            0 if exact > 0 => {
                let key = random.pick(&keys);
                of_two(random, key)
            }
            1 | 2 if !literals.is_empty() => again(random, &literals),
            _ => {
                let train = random.below(n);
                [literal(random, train), 0]
            }
        };
        literals.push(next);
    }
    random.shuffle(&mut literals);
    literals.truncate(count);
    let top = random.pick(&[0, 1, 10, 1_000, 2_000, MOST]);
    let one = random.pick(&[2, 5, 7, 1_000]);
    let of_one_weight = random.chance(40);
    let mut weight = || if of_one_weight { one } else { weight(random, top) };
    literals.into_iter().map(|literals| Clause { literals, weight: weight() }).collect()
}

/// A literal of a train, for either choice.
fn literal(random: &mut Random, train: usize) -> i64 {
    (train as i64 + 1) * random.pick(&[1, -1])
}

fn weight(random: &mut Random, top: i64) -> i64 {
    let any = random.between(0, top);
    random.pick(&[0, top.min(1), any, any, any, top])
}

/// Literals of two trains, either first.
fn of_two(random: &mut Random, key: [usize; 2]) -> [i64; 2] {
    let literals = key.map(|train| literal(random, train));
    again(random, &[literals])
}

/// The literals of one of these clauses, two perhaps turned over.
fn again(random: &mut Random, literals: &[[i64; 2]]) -> [i64; 2] {
    let [first, second] = random.pick(literals);
    match second != 0 && random.chance(50) {
        true => [second, first],
        false => [first, second],
    }
}

/// A further clause by which an entry's sum is the highest cost there is, or one above.
fn bring_to_limit(random: &mut Random, list: &mut Vec<Clause>) {
    if list.is_empty() || list.len() >= MOST_CLAUSES {
        return;
    }
    let clause = random.pick(list);
    let literals = again(random, &[clause.literals]);
    let [first, second] = literals;
    let same = |other: &&Clause| [[first, second], [second, first]].contains(&other.literals);
    let sum: i64 = list.iter().filter(same).map(|clause| clause.weight).sum();
    let weight = (MOST - sum + random.pick(&[0, 1])).clamp(0, MOST);
    list.insert(random.below(list.len() + 1), Clause { literals, weight });
}

/// Gives a clause over n trains literals that it must not have, a wrong weight, or both.
fn misuse(random: &mut Random, n: usize, clause: &mut Clause) {
    let [first, second] = clause.literals;
    let absent = n as i64 + 1;
    let away = random.pick(&[absent, -absent, 127, -127, -128]);
    let wrong = [
        [away, second],
        [first, away],
        [first, away],
        [away, away],
        [0, second],
        [0, first],
        [0, 0],
        [first, first],
        [first, -first],
    ];
    let damage = random.below(10);
    if damage < 7 {
        clause.literals = random.pick(&wrong);
    }
    if damage > 5 {
        clause.weight = random.pick(&[MOST + 1, lines::FORBIDDEN]);
    }
}
