//! Change 12, 'Two rooms, equal ceilings', checked from the outside: by two lists of lines on one study, and where W is 1 by
//! every plan.

use crate::asked::in_either_form;
use crate::claims::{demand, feed, Ledger, Reader};
use crate::generator::{certificate_fields, line_of, load_fields, shift_fields, Fields};
use crate::linear::{highest, Highest};
use crate::model::{self, Cost, Costs, Pair, Study, BLOCK_LENGTH, FORBIDDEN};
use crate::orders::{any_order, order_fields};
use crate::random::Random;
use crate::rewriting::Rewriting;
use crate::studies::{forbid, pairs};
use crate::Service;
use std::ops::Range;

/// How often the two sentences were put to the test.
#[derive(Default, Debug)]
pub struct Rooms {
    /// Two lists that both end in a certificate that says reached, and leave equal n, s, sizes, pairs and H.
    pub pairs: usize,
    /// Of these, lists that leave different T, that show another E or W, whose constant is no whole number of points, with a
    /// forbidden entry, of which one loads clauses, and with points added.
    pub tables: usize,
    pub figures: usize,
    pub parts: usize,
    pub forbidden: usize,
    pub clauses: usize,
    pub added: usize,
    /// Two lists of which nothing is claimed.
    pub apart: usize,
    /// Certificates with W = 1 that say reached, those of studies with a forbidden entry, and those beside which another
    /// plan costs as little.
    pub plans: usize,
    pub with_forbidden: usize,
    pub several: usize,
}

/// Places of n, s and m; of sizes, pairs and H of choices; of H of pairs.
const EQUAL: [Range<usize>; 3] = [0..3, 4..316, 508..3_580];
/// Places of T, of choices and of pairs.
const TABLES: [Range<usize>; 2] = [316..508, 3_580..6_652];

/// A list of lines from fresh: its last line with its reply, the block that it leaves, and its ledger.
struct Room {
    service: Service,
    line: Vec<u8>,
    reply: Vec<u8>,
    block: Vec<i64>,
    ledger: Option<Ledger>,
}

impl Room {
    fn new(service: Service) -> Self {
        Self { service, line: Vec::new(), reply: Vec::new(), block: vec![0; BLOCK_LENGTH], ledger: None }
    }

    /// Sends the line in either form: "Lists of lines hold every kind in either form".
    fn send(&mut self, random: &mut Random, fields: &Fields) {
        self.line = line_of(fields);
        self.reply = in_either_form(self.service, random, &self.line, &mut self.block);
        feed(&mut self.ledger, &self.line, &self.reply);
    }

    fn study(&self) -> Result<Study, String> {
        model::decode(&self.block).ok().flatten().ok_or_else(|| "a list leaves no study".into())
    }

    /// A tightening, a round, a shift, an order, a search, or a line that is refused.
    fn other(&mut self, random: &mut Random) -> Result<(), String> {
        let study = self.study()?;
        let fields = match random.below(10) {
            0 | 1 => vec![(1, 4)],
            2 | 3 => vec![(1, 8)],
            4..=6 => {
                let mut rewriting = Rewriting::of(&study);
                (0..random.between(1, 8)).for_each(|_| rewriting.step(random));
                shift_fields(&rewriting.shift)
            }
            7 => order_fields(&any_order(random, &study.order)),
            8 => vec![(1, 6), (4, random.between(1, 30))],
            _ => random.pick(&[[(1, 16), (1, 0)], [(1, 4), (1, 0)], [(1, 2), (1, 24)]]).to_vec(),
        };
        self.send(random, &fields);
        Ok(())
    }

    /// A load and additions, these in their order, with other lines between them and behind.
    fn begin(&mut self, random: &mut Random, load: &Fields, adds: &[Fields]) -> Result<(), String> {
        self.send(random, load);
        for add in adds {
            for _ in 0..random.below(3) {
                self.other(random)?;
            }
            self.send(random, add);
        }
        for _ in 0..random.below(6) {
            self.other(random)?;
        }
        Ok(())
    }

    /// A shift to the highest constant, shifts that leave it there, and a certificate.
    fn end(&mut self, random: &mut Random) -> Result<(), String> {
        let Some(Highest { shift, mut weights }) = highest(random, &self.study()?) else { return Ok(()) };
        if let Some(shift) = shift {
            self.send(random, &shift_fields(&shift));
        }
        for _ in 0..random.below(6) {
            let study = self.study()?;
            let mut rewriting = Rewriting::of(&study);
            rewriting.step(random);
            if rewriting.study.constant == study.constant {
                self.send(random, &shift_fields(&rewriting.shift));
            }
        }
        let times = random.pick(&[1, 1, 1, 2, 3, 840]);
        weights.whole *= times;
        weights.single.iter_mut().chain(&mut weights.joint).flatten().for_each(|weight| *weight *= times);
        self.send(random, &certificate_fields(&weights));
        Ok(())
    }

    /// "Whose last line is a certificate that says reached."
    fn reached(&self) -> bool {
        self.line.starts_with(b"05") && self.reply.starts_with(b"8501")
    }

    /// E and W of the last reply.
    fn figures(&self) -> [i128; 2] {
        let mut fields = Reader(&self.reply[4..]);
        [8, 3].map(|width| fields.number(width).into())
    }
}

/// A study of at most 4 trains and 3 choices, and few parts a point. Often each two trains pay for the same choice or for
/// different ones, so that halves of two choices each are cheaper than every plan.
fn study(random: &mut Random) -> Study {
    let n = random.pick(&[1, 2, 3, 3, 4, 4]);
    let scale = random.pick(&[1, 2, 2, 2, 4, 6]);
    let torn = n > 2 && random.chance(70);
    let sizes: Vec<usize> = (0..n).map(|_| if torn { 2 } else { 1 + random.below(3) }).collect();
    let top = random.pick(&[1, 1, 3, 20, 1_000]);
    let zeros = random.pick(&[0, 50, 80]);
    let table = |random: &mut Random, rows: usize, columns: usize| {
        let mut cost = || if random.chance(zeros) { 0 } else { random.between(0, top) };
        Costs::new(rows, columns, (0..rows * columns).map(|_| Some(cost())).collect(), scale)
    };
    let few = |random: &mut Random| (0..2).map(|_| Some(random.pick(&[0, 0, 1]))).collect();
    let train = |&size: &usize| match torn {
        true => Costs::new(1, 2, few(random), scale),
        false => table(random, 1, size),
    };
    let trains = sizes.iter().map(train).collect();
    let keys = match torn {
        true => (0..n).flat_map(|i| (i + 1..n).map(move |j| [i, j])).collect(),
        false => pairs(random, n, false),
    };
    let pair = |trains: [usize; 2]| {
        let [rows, columns] = trains.map(|train| sizes[train]);
        let costs = if torn { for_one(random, top, scale) } else { table(random, rows, columns) };
        Pair { trains, costs }
    };
    let mut study = Study::loaded(scale, trains, keys.into_iter().map(pair).collect());
    if random.chance(30) {
        forbid(random, &mut study);
    }
    study
}

/// The costs of two trains of two choices each, for the same choice or for different ones.
fn for_one(random: &mut Random, top: i64, scale: i64) -> Costs {
    let same = random.chance(60);
    let mut cost = |cell: usize| if (cell % 3 == 0) == same { random.pick(&[1, 2, 2, top]) } else { 0 };
    Costs::new(2, 2, (0..4).map(|cell| Some(cost(cell))).collect(), scale)
}

/// The study written as clauses, where it can be: a clause for each cost above 0, and one at least for each pair.
fn clauses(study: &Study) -> Option<Fields> {
    let literal =
        |train: usize, choice: usize| if choice == 0 { -(train as i64) - 1 } else { train as i64 + 1 };
    let mut clauses: Vec<[i64; 3]> = Vec::new();
    for (train, costs) in study.trains.iter().enumerate() {
        for (choice, &Cost { loaded, .. }) in costs.permitted().enumerate() {
            clauses.extend((loaded > 0).then_some([literal(train, choice), 0, loaded]));
        }
    }
    for Pair { trains: [i, j], costs } in &study.pairs {
        for (cell, &Cost { loaded, .. }) in costs.permitted().enumerate() {
            let both = [literal(*j, cell % 2), literal(*i, cell / 2), loaded];
            clauses.extend((cell == 0 || loaded > 0).then_some(both));
        }
    }
    let mut fields =
        vec![(1, 9), (1, study.trains.len() as i64), (2, study.scale), (2, clauses.len() as i64)];
    fields.extend(clauses.into_iter().flat_map(|[one, other, weight]| [(1, one), (1, other), (3, weight)]));
    let of_two = study.trains.iter().all(|costs| costs.columns == 2);
    (of_two && study.permits_all()).then_some(fields)
}

/// An addition of few points, now and then to a forbidden choice.
fn addition(random: &mut Random, study: &Study) -> Fields {
    let train = random.below(study.trains.len());
    let choice = random.below(study.size(train));
    vec![(1, 2), (1, train as i64), (1, choice as i64), (3, random.between(0, 2))]
}

impl Rooms {
    /// Two lists from one seed: the same load, one now and then as clauses, and the same additions; all else differs.
    pub fn check_session(&mut self, service: Service, seed: u64) -> Result<(), String> {
        let mut random = Random::new(seed.rotate_left(32));
        let study = study(&mut random);
        let adds: Vec<Fields> = (0..random.below(3)).map(|_| addition(&mut random, &study)).collect();
        let load = load_fields(&study);
        let clauses = clauses(&study).filter(|_| random.chance(40));
        let mut rooms = [Room::new(service), Room::new(service)];
        for (room, load) in rooms.iter_mut().zip([clauses.as_ref().unwrap_or(&load), &load]) {
            room.begin(&mut random, load, &adds)?;
            room.end(&mut random)?;
            let Room { line, reply, ledger, .. } = room;
            let ledger = ledger.as_ref().ok_or("nothing was loaded")?;
            self.check_plan(line, reply, &ledger.costs, &ledger.plans())
                .map_err(|claim| format!("rooms of seed {seed}: {claim}"))?;
        }
        let counts = [clauses.is_some(), !adds.is_empty()];
        self.check(&rooms, counts).map_err(|claim| format!("rooms of seed {seed}: {claim}"))
    }

    /// "For two lists of lines from fresh that leave equal n, sizes, pairs, H and s ..., and whose last line is a certificate
    /// that says reached, the constants must be equal": with forbidden entries too, where they are the same. So E of the
    /// one times W of the other is E of the other times W of the one.
    fn check(&mut self, rooms: &[Room; 2], [clauses, added]: [bool; 2]) -> Result<(), String> {
        let [one, other] = rooms;
        let same = |places: &Range<usize>| one.block[places.clone()] == other.block[places.clone()];
        if !(one.reached() && other.reached() && EQUAL.iter().all(same)) {
            self.apart += 1;
            return Ok(());
        }
        let ([e, w], [f, v]) = (one.figures(), other.figures());
        let seen = |count: &mut usize, holds: bool| *count += usize::from(holds);
        seen(&mut self.pairs, true);
        seen(&mut self.tables, !TABLES.iter().all(same));
        seen(&mut self.figures, [e, w] != [f, v]);
        seen(&mut self.parts, one.block[3] % one.block[1] != 0);
        seen(&mut self.forbidden, one.block.contains(&FORBIDDEN));
        seen(&mut self.clauses, clauses);
        seen(&mut self.added, added);
        demand(one.block[3] == other.block[3], "two rooms reach different constants")?;
        demand(e * v == f * w, "two rooms show different ceilings")
    }

    /// "Where such a certificate has W = 1, the plan with weight 1 everywhere has the least total": by the line's weights
    /// there is one such plan, and by the ledger none costs less.
    pub(crate) fn check_plan(
        &mut self,
        line: &[u8],
        reply: &[u8],
        costs: &Study,
        plans: &[(Vec<usize>, i64)],
    ) -> Result<(), String> {
        let reached = line.starts_with(b"05") && reply.starts_with(b"8501");
        if !reached || Reader(&line[2..]).number(3) != 1 {
            return Ok(());
        }
        let mut fields = Reader(&line[8..]);
        let mut weights = |costs: &Costs| fields.numbers(3, costs.entries.len());
        let single: Vec<Vec<i64>> = costs.trains.iter().map(&mut weights).collect();
        let joint: Vec<Vec<i64>> = costs.pairs.iter().map(|pair| weights(&pair.costs)).collect();
        let on = |plan: &[usize]| plan.iter().zip(&single).all(|(&choice, weights)| weights[choice] == 1);
        let mut chosen = plans.iter().filter(|(plan, _)| on(plan));
        let Some((plan, cost)) = chosen.next() else {
            return Err("with W = 1 no plan has weight 1 on each of its choices".into());
        };
        demand(chosen.next().is_none(), "with W = 1 two plans have weight 1 on each of their choices")?;
        let full = |(Pair { trains: [i, j], costs }, weights): (&Pair, &Vec<i64>)| {
            weights[plan[*i] * costs.columns + plan[*j]] == 1
        };
        demand(costs.pairs.iter().zip(&joint).all(full), "an entry of the plan hasn't weight 1")?;
        demand(plans.iter().all(|(_, other)| cost <= other), "a plan costs less than the one with weight 1")?;
        self.plans += 1;
        self.with_forbidden += usize::from(!costs.permits_all());
        self.several += usize::from(plans.iter().filter(|(_, other)| other == cost).count() > 1);
        Ok(())
    }
}
