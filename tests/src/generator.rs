//! Sessions of calls from a seed: every kind, every refusal, boundaries and damage.

use crate::calls::{Call, Outcome, Setting, FILLING};
use crate::clause_lines;
use crate::dearest;
use crate::dearest_lines::{self, few_tries};
use crate::lines::{self, LONGEST_LINE, MOVES};
use crate::model::{self, Cost, Costs, Pair, Study, BLOCK_LENGTH, FORBIDDEN, HELD_ENTRIES, ORDER, TOP};
use crate::operations::{self, Certificate, Shift};
use crate::orders::{any_order, damaged, order_fields};
use crate::radio::{self, Exchange, SUM_CHARACTERS};
use crate::radio_lines;
use crate::random::Random;
use crate::reasons::beside;
use crate::record_lines::{self, any_choices, true_record, PLANNER, SCREEN, WRITE};
use crate::records::{self, Record};
use crate::rewriting::Rewriting;
use crate::search;
use crate::steps;
use crate::studies::{clique, forbid, mispair, pairs, raise, scale};
use crate::weights::{couple, mixture, unbalance, uniform};
use crate::{LEAST_BUFFER, LONGEST_REPLY};
use std::iter::repeat_with;

/// How far a session goes.
#[derive(Clone, Copy, PartialEq, Eq)]
pub enum Reach {
    /// Studies of at most 5 trains and 3 choices, the block only as calls leave it.
    SmallLines,
    /// Studies of every size, the block only as calls leave it.
    Lines,
    /// Studies of every size, and blocks that no line has made.
    Blocks,
}

/// Every byte as the second and as the first character of a line of two, the other one being 0. On a fresh block all are
/// refused and leave it.
pub fn every_byte() -> impl Iterator<Item = Call> {
    let lines = (0..=u8::MAX).flat_map(|byte| [[b'0', byte], [byte, b'0']]);
    lines.map(|line| Call { capacity: LEAST_BUFFER, setting: Setting::AsLeft, line: line.to_vec() })
}

/// A line's fields, the kind among them, with their widths in bytes.
pub type Fields = Vec<(usize, i64)>;

pub struct Session {
    random: Random,
    reach: Reach,
    most_trains: usize,
    most_choices: usize,
    /// The last well-formed block seen.
    good: Vec<i64>,
    /// A record that was true of the study when it was made.
    record: Option<Record>,
}

impl Session {
    pub fn new(seed: u64, reach: Reach) -> Self {
        let mut random = Random::new(seed);
        let (most_trains, most_choices) = match reach {
            Reach::SmallLines => (5, 3),
            _ => random.pick(&[(5, 3), (5, 3), (6, 8), (10, 5), (24, 8)]),
        };
        Self { random, reach, most_trains, most_choices, good: vec![0; BLOCK_LENGTH], record: None }
    }

    /// The session's next call, to be given the block that the call before left.
    pub fn call(&mut self, block: &[i64]) -> Call {
        let mut setting = Setting::AsLeft;
        if model::decode(block).is_ok() {
            self.good = block.to_vec();
            if self.reach == Reach::Blocks && self.random.chance(23) {
                setting = self.setting(block);
            }
        } else if self.reach == Reach::Blocks && self.random.chance(70) {
            setting = Setting::Edited(edits(block, &self.good));
        }
        let mut given = self.good.clone();
        if let Setting::Edited(edits) = &setting {
            edits.iter().for_each(|&(place, value)| given[place] = value);
        }
        let study = model::decode(&given).ok().flatten();
        let line = self.line(study.as_ref());
        let capacity = self.capacity(&line, study.as_ref());
        Call { capacity, setting, line }
    }

    /// A buffer's length: of a line of kind 07 mostly one beside the length of the study's load line, and of kinds 0C to 0F,
    /// where a record or the dearest study's line is about as long as the least buffer or longer, beside that of its reply; by
    /// radio beside those of both forms of the reply.
    fn capacity(&mut self, line: &[u8], study: Option<&Study>) -> usize {
        let plain = radio::plain_form(line);
        let added = if plain.is_some() { SUM_CHARACTERS } else { 0 };
        let line = plain.as_deref().unwrap_or(line);
        let length = match (line.get(..2), study) {
            (Some(b"07"), Some(study)) => Some(2 * lines::saved(study).len()),
            (Some(b"0C" | b"0D" | b"0E"), Some(study)) => Some(records::length(study.trains.len())),
            (Some(b"0F"), _) => dearest_lines::length(line),
            _ => None,
        };
        let saves = line.starts_with(b"07");
        match length.map(|length| length + added).filter(|&length| saves || length >= LEAST_BUFFER) {
            Some(length) if self.random.chance(80) => {
                let less = self.random.pick(&[1, 1, added.max(1)]);
                self.random.pick(&[LEAST_BUFFER, length - less, length, length + 1, LONGEST_REPLY])
            }
            _ => match self.random.below(12) {
                0 => self.random.pick(&[0, 1, 4, 26, LEAST_BUFFER - 2, LEAST_BUFFER - 1]),
                1 => LEAST_BUFFER - 1 + self.random.below(6),
                2 => self.random.below(300),
                3 => LONGEST_REPLY,
                _ => LEAST_BUFFER,
            },
        }
    }

    fn setting(&mut self, block: &[i64]) -> Setting {
        match self.random.below(14) {
            0 => {
                let near = BLOCK_LENGTH - 1 + 2 * self.random.below(2);
                let far = self.random.below(2 * BLOCK_LENGTH);
                // Without the places of the order, and one number less.
                let without = ORDER.start - self.random.below(2);
                Setting::Length(self.random.pick(&[0, 1, near, near, far, without, without, BLOCK_LENGTH]))
            }
            1 | 2 => Setting::Edited(vec![self.strange_place()]),
            7 | 8 => Setting::Edited(self.strange_entry(block)),
            11 => Setting::Edited(self.strange_order(block)),
            choice => {
                let present = model::decode(block).ok().flatten();
                let mut study = match present {
                    Some(study) if choice != 3 => study,
                    _ => self.study(),
                };
                match choice {
                    4 => mispair(&mut self.random, &mut study),
                    9 | 10 => self.beside_bound(&mut study),
                    12 => study.order = any_order(&mut self.random, &study.order),
                    13 => self.beside_cost(&mut study),
                    _ => self.foreign(&mut study),
                }
                if self.random.chance(20) {
                    study.order = any_order(&mut self.random, &study.order);
                }
                let mut wanted = block.to_vec();
                study.encode(&mut wanted);
                Setting::Edited(edits(block, &wanted))
            }
        }
    }

    /// A place and a value that mostly make the block ill formed.
    fn strange_place(&mut self) -> (usize, i64) {
        let end = self.random.pick(&[4, 28, 124, 508, BLOCK_LENGTH]);
        let limits = [0, 8, 24, 48, 1_000, 1_000_000, TOP, i64::MIN + 1, i64::MAX - 1];
        (self.random.below(end), self.random.pick(&limits) + self.random.between(-1, 1))
    }

    /// Numbers about −1 in c0, or at one entry, used or not, of H, of T or of both.
    fn strange_entry(&mut self, block: &[i64]) -> Vec<(usize, i64)> {
        let random = &mut self.random;
        let number = random.pick(&[-2, -1, -1, -1, 0]);
        if random.chance(8) {
            return vec![(3, number)];
        }
        let places = (124..HELD_ENTRIES.end).filter(|&place| block[place] == FORBIDDEN);
        let forbidden: Vec<usize> = places.collect();
        if number == 0 && !forbidden.is_empty() {
            return vec![(random.pick(&forbidden), number)];
        }
        let study = model::decode(block).ok().flatten().filter(|_| random.chance(75));
        let (loaded, to_held) = match (study, random.chance(50)) {
            (Some(study), false) if !study.pairs.is_empty() => {
                let pair = random.below(study.pairs.len());
                let [a, b] = study.pairs[pair].trains.map(|train| random.below(study.size(train)));
                (508 + 64 * pair + 8 * a + b, 3_580 - 508)
            }
            (Some(study), _) => {
                let train = random.below(study.trains.len());
                (124 + 8 * train + random.below(study.size(train)), 316 - 124)
            }
            (None, false) => (508 + random.below(48 * 64), 3_580 - 508),
            (None, true) => (124 + random.below(24 * 8), 316 - 124),
        };
        let held = loaded + to_held;
        match random.below(3) {
            0 => vec![(loaded, number)],
            1 => vec![(held, number)],
            _ => vec![(loaded, number), (held, number)],
        }
    }

    /// Numbers of the order's places, used or not, which mostly make the block ill formed: a train twice, none that there
    /// is, or one in a place that must be 0.
    fn strange_order(&mut self, block: &[i64]) -> Vec<(usize, i64)> {
        let random = &mut self.random;
        let n = block[0];
        let place = match random.below(3) {
            0 if n < ORDER.len() as i64 => ORDER.start + n as usize,
            1 => ORDER.start + random.below(n.max(1) as usize),
            _ => random.pick(&ORDER.collect::<Vec<_>>()),
        };
        let other = block[ORDER.start + random.below(n.max(1) as usize)];
        let own = (place - ORDER.start) as i64;
        let train = random.between(0, n);
        let number = random.pick(&[other, other, own, train, n, -1, 0, 1, 255, i64::MAX, i64::MIN]);
        vec![(place, number)]
    }

    /// Gives the study a c0 and a T that have nothing to do with H.
    fn foreign(&mut self, study: &mut Study) {
        let shape = self.random.below(5);
        let palette: &[i64] = match shape {
            0 | 1 => &[0, 1, 2, 3, 10],
            2 => &[0, 0, 1, TOP / 2, TOP],
            3 => &[TOP / 2, TOP / 2 + 1, TOP - 1, TOP],
            _ => &[0, 5, 1_000, 999_999, 71_999_999_999, 123_456_789],
        };
        for cost in study.tables_mut().flat_map(Costs::permitted_mut) {
            cost.held = self.random.pick(palette);
        }
        if shape == 0 && !study.pairs.is_empty() {
            raise(&mut self.random, study);
        }
        study.constant = 0;
        let mut rewritten = study.clone();
        let rewrite = self.random.pick(&[operations::tighten, operations::round]);
        if self.random.chance(50) && rewrite(&mut rewritten).is_ok() {
            // A tightening or a round would end at L, or one beside it.
            let near = TOP - rewritten.constant + self.random.between(-1, 1);
            study.constant = near.clamp(0, TOP);
        } else {
            study.constant = self.random.pick(palette);
        }
    }

    /// Gives the study a c0 of at most one step, and a T, mostly of one train, by which plans come to the bound or to less.
    fn beside_bound(&mut self, study: &mut Study) {
        let random = &mut self.random;
        study.constant = random.between(1, study.scale * steps::step(study));
        let short = study.scale * study.bound() - study.constant;
        let less = (short - study.scale).max(0);
        let zeros = random.pick(&[50, 90, 100, 100]);
        let mut held = |zeros: u64| {
            let costs = [short, short, less, random.between(0, short), short + 1, 0];
            if random.chance(zeros) {
                0
            } else {
                random.pick(&costs)
            }
        };
        study.tables_mut().flat_map(Costs::permitted_mut).for_each(|cost| cost.held = held(zeros));
        study.trains[0].permitted_mut().for_each(|cost| cost.held = held(0));
    }

    /// Gives the study a c0 by which the published bound is what a plan costs in H, or is a step or more away from it. The plan
    /// is that of the session's record.
    fn beside_cost(&mut self, study: &mut Study) {
        let random = &mut self.random;
        let record = true_record(study, any_choices(random, study));
        let step = study.scale * steps::step(study);
        let near = random.pick(&[-step, 1 - step, 0, 0, 1, 1, 1, step, step + 1]);
        study.constant = (study.scale * record.cost + near).clamp(0, TOP);
        self.record = Some(record);
    }

    /// The session's record, if its choices are the study's.
    fn held_record(&self, study: &Study) -> Option<&Record> {
        self.record.as_ref().filter(|record| records::plan(study, &record.choices).is_ok())
    }

    /// Whether the session's record is of a plan that the published bound meets or passes, or that costs something else now, or
    /// whether every record of the study is, by radio at least, as long as the least buffer or longer.
    fn records_matter(&self, study: &Study) -> bool {
        let aside = |record: &Record| {
            let now = true_record(study, record.choices.clone());
            now.cost <= now.bound || now.cost != record.cost
        };
        let long = records::length(study.trains.len()) + SUM_CHARACTERS >= LEAST_BUFFER;
        long || self.held_record(study).is_some_and(aside)
    }

    /// A line of any kind in either form, mostly one that a service with this study accepts.
    fn line(&mut self, study: Option<&Study>) -> Vec<u8> {
        let mut line = self.plain_line(study);
        if self.random.chance(radio_lines::SHARE) {
            line = radio_lines::any_form(&mut self.random, line);
        }
        // Spoilt or damaged clauses may be over many trains: their n alone says how many.
        let trains = clause_lines::trains(radio::plain_form(&line).as_deref().unwrap_or(&line));
        let many = self.reach == Reach::SmallLines && trains > Some(self.most_trains);
        if many {
            self.junk()
        } else {
            line
        }
    }

    fn plain_line(&mut self, study: Option<&Study>) -> Vec<u8> {
        if self.random.chance(4) {
            return self.junk();
        }
        let fresh = study.is_none();
        let [dearest, clauses] = if fresh { [8, 20] } else { [3, 3] };
        let mut fields = match self.random.below(100) {
            percent if percent < dearest => dearest_lines::any_fields(&mut self.random),
            percent if percent < dearest + clauses => self.clauses(),
            _ => self.fields(study),
        };
        if self.random.chance(15) {
            self.spoil(&mut fields);
        }
        let mut line = line_of(&fields);
        if self.random.chance(if fresh { 20 } else { 6 }) {
            self.damage(&mut line);
        }
        line
    }

    /// The fields of a load, or of a line of another kind, mostly for this study.
    fn fields(&mut self, study: Option<&Study>) -> Fields {
        let load = self.random.chance(if study.is_none() { 70 } else { 8 });
        let mut substitute;
        let study = match study {
            Some(study) if !load => study,
            _ => {
                substitute = self.study();
                if load && self.random.chance(10) {
                    mispair(&mut self.random, &mut substitute);
                }
                &substitute
            }
        };
        let in_steps = study.bound() > study.points(study.constant);
        match self.random.below(38) {
            _ if load => load_fields(study),
            _ if in_steps && self.random.chance(30) => vec![(1, 6), (4, self.budget(study))],
            _ if few_tries(study).is_some() && self.random.chance(50) => self.dearest_search(study),
            _ if self.records_matter(study) && self.random.chance(16) => self.record(study, 80),
            0..=4 => self.add(study),
            5..=9 => self.shift(study),
            10..=12 => vec![(1, 4)],
            13..=16 => certificate_fields(&self.certificate(study)),
            17..=19 => vec![(1, 7)],
            20..=22 => vec![(1, 8)],
            23..=25 => self.question(study),
            26..=28 => self.order(study),
            29..=32 => self.record(study, 40),
            _ => vec![(1, 6), (4, self.budget(study))],
        }
    }

    /// A search of a dearest study with as many tries as it makes, or one less or more.
    fn dearest_search(&mut self, study: &Study) -> Fields {
        let most = few_tries(study).expect("a dearest study");
        vec![(1, 6), (4, most + self.random.pick(&[-1, -1, 0, 0, 1]))]
    }

    /// The fields of clauses, unless the session is of small studies often over as many trains as 49 pairs need, or more.
    fn clauses(&mut self) -> Fields {
        let random = &mut self.random;
        let n = match random.below(5) {
            0 if self.reach != Reach::SmallLines => 24,
            1 | 2 if self.reach != Reach::SmallLines => 11 + random.below(14),
            _ => 1 + random.below(self.most_trains),
        };
        clause_lines::any_fields(random, n)
    }

    fn study(&mut self) -> Study {
        let random = &mut self.random;
        if random.chance(5) {
            return clique(random);
        }
        let full = self.most_trains == 24 && random.chance(40);
        let n = match self.most_trains {
            24 if full => 24,
            // A record of 23 trains is as long as the least buffer, by radio one of 22, and those of more are longer.
            24 if random.chance(60) => random.pick(&[22, 23, 23]),
            most => 1 + random.below(most),
        };
        let sizes: Vec<usize> =
            (0..n).map(|_| if full { 8 } else { 1 + random.below(self.most_choices) }).collect();
        let dearest = dearest::study(&sizes).ok().filter(|study| few_tries(study).is_some());
        if let Some(study) = dearest.filter(|_| random.chance(4)) {
            return study;
        }
        let scale = scale(random);
        let step = random.pick(&[1, 1, 1, 2, 5, 7, 1_000]);
        let top = random.pick(&[0, 1, 3, 10, 1_000, 1_000_000]).min(1_000_000 / step);
        let zeros = random.pick(&[0, 0, 30, 60]);
        let all_top = random.chance(5);
        let costs = |random: &mut Random, rows: usize, columns: usize| {
            let cost = || match random.chance(zeros) {
                _ if all_top => step * top,
                true => 0,
                false => step * random.between(0, top),
            };
            let loaded = repeat_with(cost).map(Some).take(rows * columns).collect();
            Costs::new(rows, columns, loaded, scale)
        };
        let trains = sizes.iter().map(|&size| costs(random, 1, size)).collect();
        let keys = pairs(random, n, full);
        let pair = |[i, j]: [usize; 2]| Pair { trains: [i, j], costs: costs(random, sizes[i], sizes[j]) };
        let mut study = Study::loaded(scale, trains, keys.into_iter().map(pair).collect());
        (0..random.pick(&[0, 0, 1, 1, 2])).for_each(|_| forbid(random, &mut study));
        study
    }

    fn add(&mut self, study: &Study) -> Fields {
        let recorded = self.held_record(study).map(|record| record.choices.clone());
        let random = &mut self.random;
        let (train, choice) = match (random.below(8), recorded) {
            (0 | 1, _) => highest(study),
            (2, _) => hopeless(random, study).unwrap_or_else(|| any_choice(random, study)),
            (3 | 4, Some(choices)) => {
                let train = random.below(choices.len());
                (train, choices[train] as usize)
            }
            _ => any_choice(random, study),
        };
        let none = Cost { loaded: 0, held: 0 };
        let Cost { loaded, held } = study.trains[train].entries[choice].unwrap_or(none);
        let room = 1_000_000 - loaded;
        let room_held = (TOP - held) / study.scale;
        let step = steps::step(study);
        let points = match random.below(16) {
            0 => room,
            1 => room + 1,
            2 => 1_000_000,
            3 => 1_000_001,
            4 => room_held.min(room),
            5 => (room_held + 1).min(room),
            // The costs stay multiples of the step.
            6..=8 => step * random.between(0, (room / step).min(20)),
            _ => random.between(0, room.min(20)),
        };
        let (train, choice) = match random.below(20) {
            0 => (study.trains.len(), choice),
            1 => (train, study.size(train)),
            _ => (train, choice),
        };
        vec![(1, 2), (1, train as i64), (1, choice as i64), (3, points)]
    }

    /// A train, a choice and a limit, mostly one beside what constant, choice and perhaps a pair's least come to.
    fn question(&mut self, study: &Study) -> Fields {
        let random = &mut self.random;
        let (train, choice) = hopeless(random, study).unwrap_or_else(|| any_choice(random, study));
        let own = study.constant + study.trains[train].held(choice).unwrap_or(0);
        let pairs = study.pairs.iter().filter_map(|pair| beside(study, pair, train, choice));
        let sums: Vec<i64> = pairs.filter_map(|(_, least)| Some(own + least?)).collect();
        let parts = match sums.is_empty() || random.chance(25) {
            true => own,
            false => random.pick(&sums),
        };
        let near = parts / study.scale + random.pick(&[-1, 0, 0, 1, 1, 2]);
        let limit = match random.below(12) {
            0 => random.pick(&[0, 0xFFFF_FFFF]),
            1 => random.between(0, 0xFFFF_FFFF),
            _ => near.clamp(0, 0xFFFF_FFFF),
        };
        let (train, choice) = match random.below(20) {
            0 => (study.trains.len(), choice),
            1 => (train, study.size(train)),
            _ => (train, choice),
        };
        vec![(1, 10), (1, train as i64), (1, choice as i64), (4, limit)]
    }

    /// An order of the study's trains, or one that is none.
    fn order(&mut self, study: &Study) -> Fields {
        let random = &mut self.random;
        let order = any_order(random, &study.order);
        match random.chance(20) {
            true => damaged(random, &order),
            false => order_fields(&order),
        }
    }

    /// A line that writes a record, or reads one: with this chance the record that the session has, perhaps from before an
    /// addition or of another study, else one of a plan of the study, which the session then has.
    fn record(&mut self, study: &Study, chance: u64) -> Fields {
        let random = &mut self.random;
        let kind = random.pick(&[SCREEN, SCREEN, PLANNER, PLANNER, PLANNER, WRITE, WRITE]);
        let mut record = match self.record.take() {
            Some(record) if random.chance(chance) => record,
            _ => true_record(study, any_choices(random, study)),
        };
        if kind == WRITE && records::plan(study, &record.choices).is_ok() {
            record = true_record(study, record.choices);
        }
        self.record = Some(record.clone());
        record_lines::any_fields(random, study, kind, record)
    }

    fn shift(&mut self, study: &Study) -> Fields {
        let mut rewriting = Rewriting::of(study);
        let random = &mut self.random;
        match random.below(10) {
            0..=2 => {
                rewriting.flood(random.pick(&[0, 0, 100, TOP / 50]));
                (0..random.pick(&[1, 1, 2, 10])).for_each(|_| rewriting.sweep());
            }
            5..=7 if !study.permits_all() => rewriting.flood(TOP - random.pick(&[0, 0, 0, 1, TOP / 2])),
            3 | 4 => (0..random.between(1, 3)).for_each(|_| rewriting.give_back(random)),
            8 if study.constant > 0 => rewriting.give_back_less(random),
            _ => (0..random.below(2 + 4 * study.trains.len())).for_each(|_| rewriting.step(random)),
        }
        if self.random.chance(20) {
            self.strain(&mut rewriting);
        }
        shift_fields(&rewriting.shift)
    }

    /// Gives back one part more than the constant has, or brings a lift to a limit or one beyond it while the study
    /// stays as it is.
    fn strain(&mut self, rewriting: &mut Rewriting) {
        let random = &mut self.random;
        let Study { trains, pairs, constant, .. } = &rewriting.study;
        if pairs.is_empty() || random.chance(30) {
            return rewriting.lift(random.below(trains.len()), -constant - 1);
        }
        let (number, side) = (random.below(pairs.len()), random.below(2));
        let lift = rewriting.shift.lifts[pairs[number].trains[side]];
        let (low, high) = (*MOVES.start(), *MOVES.end());
        rewriting.circle(number, side, lift - random.pick(&[low - 1, low, high, high + 1]));
    }

    /// Weights whose sums mostly agree: a mixture of plans, perhaps with its pairs coupled anew, or the same weight for
    /// each usable choice of a train.
    fn certificate(&mut self, study: &Study) -> Certificate {
        let random = &mut self.random;
        let mut certificate = match random.chance(if study.permits_all() { 10 } else { 40 }) {
            true => uniform(study),
            false => mixture(random, study),
        };
        if random.chance(30) || certificate.joint.iter().flatten().all(|&weight| weight == 0) {
            couple(random, study, &mut certificate);
        }
        if random.chance(20) {
            unbalance(random, study, &mut certificate);
        }
        certificate
    }

    fn budget(&mut self, study: &Study) -> i64 {
        let random = &mut self.random;
        let n = study.trains.len() as i64;
        let plans: f64 = study.trains.iter().map(|costs| costs.columns as f64).product();
        match random.below(11) {
            0 => 1,
            1 => n - 1,
            2 => n,
            3 => random.between(1, 50),
            4 => random.between(1, 2_000),
            5 => random.between(1, 30_000),
            // The tries of the walk, one less, fewer, and some that document 01's walk spends behind the bound.
            6..=8 => {
                let count = search::walk(study, 30_000, Some(study.bound())).count;
                let fewer = random.between(n.min(count), count);
                let more = random.pick(&[-1, -1, 0, 0, 1, 2, 4]);
                if random.chance(45) {
                    fewer
                } else {
                    count + more
                }
            }
            9 if plans < 5e3 => 10_000_000,
            9 => 10_000,
            _ => random.pick(&[0, 10_000_001, 0xFFFF_FFFF, 10_000]),
        }
    }

    /// Gives one field another value, one beside a limit or beside its own.
    fn spoil(&mut self, fields: &mut Fields) {
        let end = if self.random.chance(40) { fields.len().min(6) } else { fields.len() };
        let place = self.random.below(end);
        let (width, number) = &mut fields[place];
        let limits: &[i64] = match *width {
            1 => &[1, 8, 24, 48, 255],
            2 => &[1, 500, 1_000, 0xFFFF],
            3 => &[1, 100_000, 1_000_000, lines::FORBIDDEN, lines::FORBIDDEN],
            // Budgets that are in range come from `budget`, which bounds the work.
            4 => &[0, 10_000_002, 0xFFFF_FFFF],
            _ => &[0, *MOVES.start(), *MOVES.end(), TOP, i64::MAX >> 16],
        };
        let limit = self.random.pick(limits);
        let near = if *width != 4 && self.random.chance(50) { *number } else { limit };
        *number = near + self.random.between(-1, 1);
    }

    /// Cuts or lengthens the line, changes a character, or takes lower case.
    fn damage(&mut self, line: &mut Vec<u8>) {
        let place = self.random.below(line.len());
        match self.random.below(6) {
            0 => line.truncate(place),
            1 => line.truncate(place / 2 * 2),
            2 => line.push(self.random.pick(b"0F\r\n g")),
            3 => line.extend_from_slice(self.random.pick(&[b"00", b"FF", b"0a"])),
            4 => line[place] = self.random.pick(b"0123456789ABCDEF/:@Gg \r\n\0\xFF"),
            _ => line.make_ascii_lowercase(),
        }
    }

    fn junk(&mut self) -> Vec<u8> {
        let random = &mut self.random;
        match random.below(8) {
            0 => Vec::new(),
            1 => vec![b'0'; LONGEST_LINE - 1 + random.below(4)],
            2 => vec![random.pick(b"xf\n"); LONGEST_LINE - 1 + random.below(4)],
            3 => {
                let length = random.below(40);
                repeat_with(|| random.pick(b"0123456789ABCDEF")).take(length).collect()
            }
            4 => {
                let length = random.below(8);
                repeat_with(|| random.number() as u8).take(length).collect()
            }
            5 | 6 => radio_lines::junk(random),
            _ => random
                .pick(&[
                    "00", "10", "81", "FF", "1", "01", "02", "03", "0400", "05", "06", "0700", "070707",
                    "0800", "080808", "09", "0901", "0A", "0A00", "0A0000", "0B", "0B00", "0C", "0C00", "0D",
                    "0D01", "0E", "0E00", "0F", "0F00", "0F01", "0F0101",
                ])
                .into(),
        }
    }
}

/// The calls of some sessions over every block, each with the block that it is given, its edits made, and what the
/// reference leaves.
pub fn sessions(count: u64, mut see: impl FnMut(&Call, &[i64], &Outcome)) {
    for seed in 0..count {
        let mut session = Session::new(seed, Reach::Blocks);
        let mut block = vec![0; BLOCK_LENGTH];
        for _ in 0..55 {
            let call = session.call(&block);
            let mut given = block.clone();
            if let Setting::Edited(edits) = &call.setting {
                edits.iter().for_each(|&(place, value)| given[place] = value);
            }
            let outcome = call.run(crate::answer, &mut block);
            see(&call, &given, &outcome);
        }
    }
}

/// The same, lines and replies "with the two additions removed" where their sums are right, "in a buffer two bytes shorter",
/// which may be one character or two below the least one.
pub fn plain_sessions(count: u64, mut see: impl FnMut(&Call, &[i64], &Outcome)) {
    sessions(count, |call, given, outcome| {
        let Exchange { by_radio, line, reply } = Exchange::of(&call.line, outcome.reply());
        if !by_radio {
            return see(call, given, outcome);
        }
        let capacity = call.capacity.saturating_sub(SUM_CHARACTERS);
        let plain = Call { capacity, setting: call.setting.clone(), line };
        let mut buffer = vec![FILLING; capacity];
        buffer[..reply.len()].copy_from_slice(&reply);
        see(&plain, given, &Outcome { written: reply.len(), buffer, block: outcome.block.clone() });
    });
}

/// The train and the choice with the highest cost in T.
fn highest(study: &Study) -> (usize, usize) {
    places(study)
        .max_by_key(|&(train, choice)| study.trains[train].held(choice))
        .expect("sizes are at least 1")
}

fn any_choice(random: &mut Random, study: &Study) -> (usize, usize) {
    let train = random.below(study.trains.len());
    (train, random.below(study.size(train)))
}

/// Now and then a forbidden choice, or one that no choice of a partner goes with, where there is one.
fn hopeless(random: &mut Random, study: &Study) -> Option<(usize, usize)> {
    let alone = |train, choice| {
        let mut pairs = study.pairs.iter().filter_map(|pair| beside(study, pair, train, choice));
        pairs.any(|(_, least)| least.is_none())
    };
    let forbidden = random.chance(40);
    let wanted = |&(train, choice): &(usize, usize)| match study.trains[train].held(choice) {
        None => forbidden,
        Some(_) => !forbidden && alone(train, choice),
    };
    let choices: Vec<_> = places(study).filter(wanted).collect();
    (!choices.is_empty() && random.chance(30)).then(|| random.pick(&choices))
}

/// Every train with each of its choices.
fn places(study: &Study) -> impl Iterator<Item = (usize, usize)> + '_ {
    let trains = study.trains.iter().enumerate();
    trains.flat_map(|(train, costs)| (0..costs.columns).map(move |choice| (train, choice)))
}

/// The places where the wanted block differs.
fn edits(block: &[i64], wanted: &[i64]) -> Vec<(usize, i64)> {
    let places = wanted.iter().copied().enumerate();
    places.filter(|&(place, value)| block[place] != value).collect()
}

/// The line of these fields.
pub fn line_of(fields: &Fields) -> Vec<u8> {
    let mut bytes = Vec::new();
    for &(width, number) in fields {
        lines::put(&mut bytes, width, number);
    }
    lines::digits(&bytes)
}

fn fields(width: usize, numbers: &[i64]) -> impl Iterator<Item = (usize, i64)> + '_ {
    numbers.iter().map(move |&number| (width, number))
}

pub fn load_fields(study: &Study) -> Fields {
    let mut line = vec![(1, 1), (1, study.trains.len() as i64), (2, study.scale)];
    line.extend(study.trains.iter().map(|costs| (1, costs.columns as i64)));
    let costs = |costs| lines::cost_fields(costs).map(|field| (3, field));
    line.extend(study.trains.iter().flat_map(costs));
    line.push((1, study.pairs.len() as i64));
    for pair in &study.pairs {
        line.extend(pair.trains.map(|train| (1, train as i64)));
        line.extend(costs(&pair.costs));
    }
    line
}

pub fn shift_fields(shift: &Shift) -> Fields {
    let mut line = vec![(1, 3)];
    line.extend(fields(6, &shift.lifts));
    line.extend(shift.moves.iter().flatten().flat_map(|moves| fields(6, moves)));
    line
}

pub fn certificate_fields(certificate: &Certificate) -> Fields {
    let mut line = vec![(1, 5), (3, certificate.whole)];
    let weights = certificate.single.iter().chain(&certificate.joint);
    line.extend(weights.flat_map(|weights| fields(3, weights)));
    line
}
