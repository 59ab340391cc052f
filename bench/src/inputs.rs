//! What is timed: studies, and lines on the blocks that hold them.

use reference::clause_lines::clause_fields;
use reference::clauses::{Clause, Clauses};
use reference::dearest::{self, tries, MOST_TRIES};
use reference::dearest_lines::{size_fields, EXACT};
use reference::generator::{certificate_fields, line_of, load_fields, shift_fields};
use reference::lines::{digits, put, CLAUSES};
use reference::model::{self, Cost, Costs, Pair, Study, BLOCK_LENGTH, ORDER};
use reference::operations::{self, Certificate};
use reference::orders::order_fields;
use reference::radio::second_form;
use reference::random::Random;
use reference::record_lines::{read_fields, true_record, write_fields, PLANNER, SCREEN};
use reference::rewriting::Rewriting;
use std::iter::repeat_with;

/// Seed of the full study, and of the plans in a certificate.
pub const SEED: u64 = 1;
/// The search with a small budget.
pub const SMALL_BUDGET: i64 = 100;
/// The long searches.
pub const LONG_BUDGET: i64 = 10_000_000;
/// The full studies of the long searches: the seed and the highest cost of each.
pub const LONG_STUDIES: [(u64, i64); 5] = [(1, 1_000_000), (2, 1_000_000), (3, 1_000), (4, 10), (5, 1)];
/// The highest weight of a clause: no entry's sum passes the limit, whatever the literals are.
const TOP_WEIGHT: i64 = 2_000;
/// All costs of a further full study are multiples of it.
const FIVE: i64 = 5;
/// How many plans a certificate mixes.
const PLANS: i64 = 5;
/// Document 01's J: 2 trains of 2 choices, 1 pair.
const SMALL_LOAD: &str = "010200010202000002000000000000000000010001000001000000000003000002";

/// Clauses 1 ∨ 2 of weight 5, −1 of weight 2 and −2 ∨ 1 of weight 1, over 2 trains.
const SMALL_CLAUSES: &str = "0902000100030102000005FF00000002FE01000001";

/// How the reply to a search begins.
const SEARCH_REPLY: &str = "86";

/// A line, the block that it is given, and how the reply must begin.
pub struct Input {
    pub name: String,
    pub block: Vec<i64>,
    pub line: Vec<u8>,
    pub reply: &'static str,
}

impl Input {
    /// Whether the expert's walk answers it: a search in loaded order.
    pub fn is_for_expert(&self) -> bool {
        let trains = self.block[0] as usize;
        self.reply == SEARCH_REPLY && self.block[ORDER][..trains].is_sorted()
    }
}

/// Every kind of line and some that are refused, on the small and on the full study, a search also in their turned order, and a
/// load, a tightening and a search by radio; some lines in steps of the tariff, on these and on a full study in steps of 5.
pub fn short_inputs() -> Vec<Input> {
    let small = held_study(SMALL_LOAD.as_bytes());
    let full = full_study(SEED, 1_000_000, 1);
    let fives = full_study(SEED, 1_000_000, FIVE);
    let mut inputs = inputs_of("small", &small, SMALL_CLAUSES.into());
    inputs.extend(inputs_of("full", &full, clause_line(&full)));
    for (name, study, step) in [("small", small, 1), ("full", full, 1), ("fives", fives, FIVE)] {
        inputs.extend(inputs_in_steps(name, study, step));
    }
    inputs
}

/// A search with the long budget on each of the full studies, and on a dearest study that has as many tries.
pub fn long_inputs() -> Vec<Input> {
    searches("long-search", LONG_BUDGET)
}

/// A search of one try on each of them: what a long search does besides its walk.
pub fn one_try_inputs() -> Vec<Input> {
    searches("one-try", 1)
}

/// The rows of all of these.
pub fn all() -> impl Iterator<Item = Input> {
    [short_inputs(), long_inputs(), one_try_inputs()].into_iter().flatten()
}

fn searches(name: &str, budget: i64) -> Vec<Input> {
    let full = LONG_STUDIES.map(|(seed, top)| (seed.to_string(), full_study(seed, top, 1)));
    let dearest = dearest::study(&EXACT).expect("the limit is not passed");
    let input = |(study_name, study): (String, Study)| Input {
        name: format!("{name}-{study_name}"),
        block: block_of(&study),
        line: search_line(budget),
        reply: SEARCH_REPLY,
    };
    full.into_iter().chain([("dearest".into(), dearest)]).map(input).collect()
}

fn inputs_of(size: &str, study: &Study, clauses: Vec<u8>) -> Vec<Input> {
    let fresh = vec![0; BLOCK_LENGTH];
    let held = block_of(study);
    let turned = Study { order: (0..study.trains.len()).rev().collect(), ..study.clone() };
    let held_turned = block_of(&turned);
    let of_clauses = block_of(&held_study(&clauses));
    let load = line_of(&load_fields(study));
    let longest = line_of(&load_fields(&full_study(SEED, 1_000_000, 1)));
    // A byte 00 more keeps the sum; another one doesn't.
    let wrong_sum = [&by_radio(&longest[..longest.len() - 2]), &b"01"[..]].concat();
    let rows = [
        ("load", &held, load.clone(), "81"),
        ("load-radio", &held, by_radio(&load), "C1"),
        ("load-on-fresh", &fresh, load, "81"),
        ("add", &held, add_line(study, 1), "82"),
        ("shift", &held, shift_line(study), "83"),
        ("tighten", &held, b"04".to_vec(), "84"),
        ("tighten-radio", &held, by_radio(b"04"), "C4"),
        ("certify", &held, certify_line(study), "85"),
        ("search", &held, search_line(SMALL_BUDGET), SEARCH_REPLY),
        ("search-radio", &held, by_radio(&search_line(SMALL_BUDGET)), "C6"),
        ("search-turned", &held_turned, search_line(SMALL_BUDGET), SEARCH_REPLY),
        ("save", &held, b"07".to_vec(), "01"),
        ("round", &held, b"08".to_vec(), "88"),
        ("clauses", &of_clauses, clauses, "89"),
        ("explain", &held, explain_line(study), "8A"),
        ("order", &held, line_of(&order_fields(&turned.order)), "8B"),
        ("screen", &held, read_line(study, SCREEN), "8C"),
        ("planner", &held, read_line(study, PLANNER), "8D"),
        ("record", &held, line_of(&write_fields(&last_choices(study))), "8E"),
        ("dearest", &held, dearest_line(study), "01"),
        ("refused-character", &held, with_end(&longest, b"G"), "FF01"),
        ("refused-cost", &held, with_end(&longest, b"FFFFFE"), "FF07"),
        ("refused-kind", &held, b"10".to_vec(), "FF03"),
        ("refused-tries", &held, line_of(&size_fields(&[8; 24])), "FF18"),
        ("refused-sum", &held, wrong_sum, "FF19"),
    ];
    let input = |(name, block, line, reply): (&str, &Vec<i64>, Vec<u8>, &'static str)| Input {
        name: format!("{name}-{size}"),
        block: block.clone(),
        line,
        reply,
    };
    rows.map(input).into()
}

/// Lines whose bound is above 0, so that the step of all costs is needed, on the study as a tightening leaves it: an
/// addition that keeps the step, a tightening and a search.
fn inputs_in_steps(name: &str, mut study: Study, step: i64) -> Vec<Input> {
    operations::tighten(&mut study).expect("a loaded study can be tightened");
    let rows = [
        ("add", add_line(&study, step), "82"),
        ("tighten", b"04".to_vec(), "84"),
        ("search", search_line(SMALL_BUDGET), SEARCH_REPLY),
    ];
    let input = |(line_name, line, reply): (&str, Vec<u8>, &'static str)| Input {
        name: format!("{line_name}-{name}-steps"),
        block: block_of(&study),
        line,
        reply,
    };
    rows.map(input).into()
}

/// 24 trains of 8 choices and 48 pairs, all costs multiples of the step from 0 to `top`.
fn full_study(seed: u64, top: i64, step: i64) -> Study {
    let random = &mut Random::new(seed);
    let mut keys: Vec<[usize; 2]> = (0..24).flat_map(|j| (0..j).map(move |i| [i, j])).collect();
    random.shuffle(&mut keys);
    keys.truncate(48);
    keys.sort();
    let scale = 7;
    let mut costs = |rows: usize| {
        let loaded = repeat_with(|| Some(step * random.between(0, top / step))).take(8 * rows).collect();
        Costs::new(rows, 8, loaded, scale)
    };
    let trains = (0..24).map(|_| costs(1)).collect();
    let pairs = keys.into_iter().map(|trains| Pair { trains, costs: costs(8) }).collect();
    Study::loaded(scale, trains, pairs)
}

/// The study that a line of kind 01 or 09 loads.
fn held_study(line: &[u8]) -> Study {
    let mut block = vec![0; BLOCK_LENGTH];
    reference::answer(line, &mut block, &mut [0; reference::LEAST_BUFFER]);
    let study = model::decode(&block).ok().flatten();
    study.expect("the line loads")
}

/// As many clauses as there may be, of two literals each, for the pairs of the study by turns.
fn clause_line(study: &Study) -> Vec<u8> {
    let random = &mut Random::new(SEED);
    let count = *CLAUSES.end() as usize;
    let clause = |pair: &Pair| Clause {
        literals: pair.trains.map(|train| (train as i64 + 1) * random.pick(&[1, -1])),
        weight: random.between(0, TOP_WEIGHT),
    };
    let list = study.pairs.iter().cycle().take(count).map(clause).collect();
    line_of(&clause_fields(&Clauses { trains: study.trains.len(), scale: study.scale, list }))
}

fn block_of(study: &Study) -> Vec<i64> {
    let mut block = vec![0; BLOCK_LENGTH];
    study.encode(&mut block);
    block
}

/// These points more for the last choice of the last train that has room for them.
fn add_line(study: &Study, points: i64) -> Vec<u8> {
    let has_room = |cost: Cost| cost.loaded + points <= 1_000_000;
    let room = |costs: &Costs| costs.entries.iter().rposition(|entry| entry.is_some_and(has_room));
    let places = study.trains.iter().enumerate().rev();
    let (train, choice) =
        places.filter_map(|(train, costs)| Some((train, room(costs)?))).next().expect("some cost has room");
    line_of(&vec![(1, 2), (1, train as i64), (1, choice as i64), (3, points)])
}

/// Lifts and moves in both directions that come near the greatest constant.
fn shift_line(study: &Study) -> Vec<u8> {
    let mut rewriting = Rewriting::of(study);
    rewriting.sweep();
    line_of(&shift_fields(&rewriting.shift))
}

/// The weights of a mixture of random plans: their sums agree.
fn certify_line(study: &Study) -> Vec<u8> {
    let random = &mut Random::new(SEED);
    let zeros = |costs: &Costs| vec![0; costs.entries.len()];
    let mut single: Vec<Vec<i64>> = study.trains.iter().map(zeros).collect();
    let mut joint: Vec<Vec<i64>> = study.pairs.iter().map(|pair| zeros(&pair.costs)).collect();
    for _ in 0..PLANS {
        let plan: Vec<usize> = study.trains.iter().map(|costs| random.below(costs.columns)).collect();
        single.iter_mut().zip(&plan).for_each(|(weights, &choice)| weights[choice] += 1);
        for (weights, pair) in joint.iter_mut().zip(&study.pairs) {
            let [a, b] = pair.trains.map(|train| plan[train]);
            weights[a * pair.costs.columns + b] += 1;
        }
    }
    line_of(&certificate_fields(&Certificate { whole: PLANS, single, joint }))
}

/// The last train's last choice against a limit that nothing reaches: every pair of the train is looked at.
fn explain_line(study: &Study) -> Vec<u8> {
    let train = study.trains.len() - 1;
    let choice = study.trains[train].columns - 1;
    line_of(&vec![(1, 10), (1, train as i64), (1, choice as i64), (4, 0xFFFF_FFFF)])
}

/// Each train's last choice: a plan, where nothing is forbidden.
fn last_choices(study: &Study) -> Vec<i64> {
    study.trains.iter().map(|costs| costs.columns as i64 - 1).collect()
}

/// A line of this kind that reads the record of that plan.
fn read_line(study: &Study, kind: i64) -> Vec<u8> {
    line_of(&read_fields(kind, &true_record(study, last_choices(study))))
}

/// The dearest study of the study's sizes, as many of the first ones taken as 1 as the limit of tries asks for.
fn dearest_line(study: &Study) -> Vec<u8> {
    let size = |train: usize| study.trains[train].columns;
    let all = 0..study.trains.len();
    let sizes = |ones: usize| -> Vec<usize> {
        all.clone().map(|train| if train < ones { 1 } else { size(train) }).collect()
    };
    let mut taken = all.clone().map(sizes).filter(|sizes| tries(sizes) <= MOST_TRIES);
    line_of(&size_fields(&taken.next().expect("ones and the last size are few")))
}

/// The line in its second form.
fn by_radio(line: &[u8]) -> Vec<u8> {
    second_form(line).expect("a kind that there is, within the limit")
}

fn search_line(budget: i64) -> Vec<u8> {
    let mut bytes = vec![6];
    put(&mut bytes, 4, budget);
    digits(&bytes)
}

/// The line with other characters at its very end.
fn with_end(line: &[u8], end: &[u8]) -> Vec<u8> {
    let kept = line.len() - end.len();
    [&line[..kept], end].concat()
}
