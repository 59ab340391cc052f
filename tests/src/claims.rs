//! The claims of "Lists and the ledger", of saves, of rounds, of forbidden entries, of stopping at the bound, of clauses, of
//! reasons, of bounds in steps, of orders, of records and of dearest studies, checked from the outside by every plan of small
//! studies. "Lists of lines hold every kind in either form": the additions are removed from line and reply first.

use crate::asked::Asked;
use crate::dearest::Dearest;
use crate::generator::{Reach, Session};
use crate::lines;
use crate::literals::{Literals, Text};
use crate::model::{Cost, Costs, Pair, Study, BLOCK_LENGTH, FORBIDDEN};
use crate::multiples::{Multiples, Tariff};
use crate::orders::Orders;
use crate::radio::Exchange;
use crate::random::Random;
use crate::rewriting::Rewriting;
use crate::rooms::Rooms;
use crate::saves::Saves;
use crate::second_forms::SecondForms;
use crate::stops::Stops;
use crate::taken::Taken;
use crate::Service;

/// How often each claim was put to the test.
#[derive(Default, Debug)]
pub struct Tally {
    pub calls: usize,
    /// Of these, second forms that are accepted.
    pub by_radio: usize,
    pub bounds: usize,
    /// Accepted shifts whose constant is below the one before.
    pub falls: usize,
    pub rounds: usize,
    /// Rounds of studies without forbidden entries in which no two pairs have the same second train, and those of them
    /// that raised the constant of a study with pairs.
    pub settled: usize,
    pub settled_higher: usize,
    /// Of studies without and with forbidden entries.
    pub ceilings: [Ceilings; 2],
    pub ended: usize,
    pub spent_with_plan: usize,
    pub spent_without: usize,
    pub forbidden: Forbidden,
    pub stops: Stops,
    pub clauses: Literals,
    pub reasons: Reasons,
    pub multiples: Multiples,
    pub orders: Orders,
    pub taken: Taken,
    pub rooms: Rooms,
    pub dearest: Dearest,
    pub saves: Saves,
    pub second_forms: SecondForms,
}

/// How often a ceiling was put to the test.
#[derive(Default, Debug)]
pub struct Ceilings {
    pub certificates: usize,
    pub reached: usize,
    /// Rivals whose constant is above the block's c0, and those whose constant is the ceiling.
    pub better_rivals: usize,
    pub tight_rivals: usize,
    /// Rivals that lose an amount on a forbidden entry, or get one from there.
    pub rivals_by_loss: usize,
    /// Certificates of studies without a plan, whose every rewriting would be a rival of document 01.
    pub without_plan: usize,
}

/// How often studies with forbidden entries were put to the test.
#[derive(Default, Debug)]
pub struct Forbidden {
    /// Calls after which the ledger has a forbidden entry, and those of them after which it has no plan.
    pub calls: usize,
    pub without_plan: usize,
    /// Accepted adds of points to a forbidden choice.
    pub adds: usize,
    /// Accepted rounds.
    pub rounds: usize,
    /// Adds, tightenings and rounds that gave 12.
    pub limits: [usize; 3],
    /// Searches that ended with a plan and without one, and those that were spent where there is none.
    pub ended: usize,
    pub ended_without: usize,
    pub spent_without_any: usize,
}

/// How often reasons were put to the test.
#[derive(Default, Debug)]
pub struct Reasons {
    pub neither: usize,
    pub own: usize,
    pub partner: usize,
    /// Of 01 and of 02, those whose limit is the least cost of the plans with the choice, and those without such a plan.
    pub tight: [usize; 2],
    pub without_plan: [usize; 2],
}

/// A line's or a reply's bytes, read without judging: only accepted ones come here.
pub(crate) struct Reader<'a>(pub(crate) &'a [u8]);

impl Reader<'_> {
    pub(crate) fn number(&mut self, width: usize) -> i64 {
        let (front, rest) = self.0.split_at(2 * width);
        self.0 = rest;
        let text = std::str::from_utf8(front).expect("digits");
        i64::from_str_radix(text, 16).expect("digits")
    }

    pub(crate) fn numbers(&mut self, width: usize, count: usize) -> Vec<i64> {
        (0..count).map(|_| self.number(width)).collect()
    }

    /// Costs of a load in points, a forbidden entry having none.
    fn costs(&mut self, rows: usize, columns: usize) -> Costs {
        let numbers = self.numbers(3, rows * columns).into_iter();
        let loaded =
            numbers.map(|number| Some(number).filter(|&number| number != lines::FORBIDDEN)).collect();
        Costs::new(rows, columns, loaded, 1)
    }
}

/// A plan, and its cost by the ledger.
pub(crate) type Plans = Vec<(Vec<usize>, i64)>;

/// "The ledger is fed the lines in order, each with its reply, and nothing of the block." Its costs
/// are a study in points: scale 1, constant 0, loaded and held costs the same.
#[derive(PartialEq, Eq)]
pub(crate) struct Ledger {
    scale: i64,
    pub(crate) costs: Study,
}

/// "A line is accepted if its reply isn't empty and doesn't begin with FF."
pub(crate) fn accepted(reply: &[u8]) -> bool {
    !reply.is_empty() && !reply.starts_with(b"FF")
}

pub(crate) fn feed(ledger: &mut Option<Ledger>, line: &[u8], reply: &[u8]) {
    if !accepted(reply) {
        return;
    }
    let mut fields = Reader(line);
    match (fields.number(1), ledger) {
        (1, ledger) => *ledger = Some(Ledger::load(fields)),
        // "An accepted one sets the ledger likewise and counts as an accepted load."
        (9, ledger) => *ledger = Some(Ledger::of_clauses(fields)),
        (2, Some(ledger)) => {
            let (train, choice) = (fields.number(1) as usize, fields.number(1) as usize);
            // "Forbidden entries stay so ..., additions included, in the ledger too."
            if let Some(Cost { loaded, held }) = &mut ledger.costs.trains[train].entries[choice] {
                *loaded += fields.number(3);
                *held = *loaded;
            }
        }
        _ => {}
    }
}

/// A plan's total by a study's constant and held costs. "A plan with a forbidden entry is no plan."
fn total(study: &Study, plan: &[usize]) -> Option<i64> {
    let choices = study.trains.iter().zip(plan).map(|(costs, &a)| costs.held(a));
    let entry = |Pair { trains: [i, j], costs }: &Pair| costs.held(plan[*i] * costs.columns + plan[*j]);
    let costs: Option<i64> = choices.chain(study.pairs.iter().map(entry)).sum();
    Some(study.constant + costs?)
}

impl Ledger {
    fn load(mut fields: Reader) -> Self {
        let n = fields.number(1) as usize;
        let scale = fields.number(2);
        let sizes: Vec<usize> = fields.numbers(1, n).into_iter().map(|size| size as usize).collect();
        let trains = sizes.iter().map(|&size| fields.costs(1, size)).collect();
        let m = fields.number(1);
        let pair = |_| {
            let trains = [fields.number(1) as usize, fields.number(1) as usize];
            let [rows, columns] = trains.map(|train| sizes[train]);
            Pair { trains, costs: fields.costs(rows, columns) }
        };
        let pairs = (0..m).map(pair).collect();
        Self { scale, costs: Study::loaded(1, trains, pairs) }
    }

    fn of_clauses(mut fields: Reader) -> Self {
        let (n, scale, text) = Text::read(&mut fields);
        Self { scale, costs: text.costs(n) }
    }

    pub(crate) fn plans(&self) -> Plans {
        let mut plans = vec![Vec::new()];
        for costs in &self.costs.trains {
            let longer = |plan: Vec<usize>| (0..costs.columns).map(move |a| [&plan[..], &[a]].concat());
            plans = plans.into_iter().flat_map(longer).collect();
        }
        let with_cost = |plan: Vec<usize>| {
            let cost = total(&self.costs, &plan)?;
            Some((plan, cost))
        };
        plans.into_iter().filter_map(with_cost).collect()
    }

    /// "Forbidden entries stay so under every line that doesn't load": those of the block, in H and in T, are the
    /// ledger's.
    fn check_forbidden(&self, block: &[i64]) -> Result<(), String> {
        let Study { trains, pairs, .. } = &self.costs;
        let same = |costs: &Costs, loaded: usize, held: usize| {
            costs.entries.iter().enumerate().all(|(cell, entry)| {
                let place = cell / costs.columns * 8 + cell % costs.columns;
                [loaded, held].iter().all(|from| (block[from + place] == FORBIDDEN) == entry.is_none())
            })
        };
        let choices = trains.iter().enumerate().all(|(i, costs)| same(costs, 124 + 8 * i, 316 + 8 * i));
        demand(choices, "a choice is forbidden in the block or in the ledger only")?;
        let mut pairs = pairs.iter().enumerate();
        let entries = pairs.all(|(p, pair)| same(&pair.costs, 508 + 64 * p, 3_580 + 64 * p));
        demand(entries, "a pair's entry is forbidden in the block or in the ledger only")
    }

    /// "After the list, the block's n, s, sizes and pairs are the ledger's, and every plan's total
    /// by c0 and T is s × its cost." The places are those of the document.
    fn check_block(&self, block: &[i64], plans: &Plans, tariff: &Tariff) -> Result<(), String> {
        let Study { trains, pairs, .. } = &self.costs;
        let head = [trains.len() as i64, self.scale, pairs.len() as i64];
        demand(block[..3] == head, "n, s or m differs")?;
        let same = |(i, costs): (usize, &Costs)| block[4 + i] == costs.columns as i64;
        demand(trains.iter().enumerate().all(same), "a size differs")?;
        let same =
            |(p, pair): (usize, &Pair)| pair.trains.map(|t| t as i64) == [block[28 + p], block[76 + p]];
        demand(pairs.iter().enumerate().all(same), "a pair differs")?;
        // "The published bound is at most every plan's cost": in steps of the ledger's costs.
        let bound = tariff.bound(block[3]);
        for (plan, cost) in plans {
            let choices = plan.iter().enumerate().map(|(i, a)| block[316 + 8 * i + a]);
            let cell = |pair: &Pair| 8 * plan[pair.trains[0]] + plan[pair.trains[1]];
            let pairs = pairs.iter().enumerate().map(|(p, pair)| block[3_580 + 64 * p + cell(pair)]);
            let total = block[3] + choices.chain(pairs).sum::<i64>();
            demand(total == self.scale * cost, "a plan's total isn't s × its cost")?;
            demand(bound <= *cost, "the published bound passes a plan's cost")?;
        }
        Ok(())
    }

    /// "Where every train has at most one partner of lower number, the constant afterwards equals the least total
    /// of any plan": s × the least cost. So the bound is the least cost. It is "kept for studies without forbidden
    /// entries".
    fn check_round(&self, reply: &[u8], before: i64, plans: &Plans, tally: &mut Tally) -> Result<(), String> {
        tally.rounds += 1;
        let mut fields = Reader(&reply[2..]);
        let (constant, bound) = (fields.number(6), fields.number(6));
        if !self.costs.permits_all() {
            tally.forbidden.rounds += 1;
            return Ok(());
        }
        if !self.costs.branches() {
            return Ok(());
        }
        tally.settled += 1;
        tally.settled_higher += usize::from(constant > before && !self.costs.pairs.is_empty());
        let least = least(plans).ok_or("there is no plan")?;
        demand(constant == self.scale * least, "a round's constant isn't the least total")?;
        demand(bound == least, "a round's bound isn't the least cost")
    }

    /// A bound that a reply of kinds 01 to 04, 08 and 09 shows "at that line".
    fn check_bound(
        &self,
        reply: &[u8],
        plans: &Plans,
        tariff: &Tariff,
        tally: &mut Tally,
    ) -> Result<(), String> {
        tally.bounds += 1;
        let bound = Reader(&reply[14..]).number(6);
        demand(least(plans).is_none_or(|least| bound <= least), "a bound shown passes a plan's cost")?;
        tally.multiples.check_shown(tariff, reply)
    }

    /// What a search claims "at that line". "A search that ends without a plan says 02, with cost and plan FF, and then
    /// no plan exists; a spent search may have no plan at any budget."
    fn check_search(&self, reply: &[u8], plans: &Plans, tally: &mut Tally) -> Result<(), String> {
        let mut fields = Reader(&reply[2..]);
        let flag = fields.number(1);
        fields.number(4);
        let cost = fields.numbers(1, 6);
        let choices = fields.numbers(1, self.costs.trains.len());
        let least = least(plans);
        let seen = |count: &mut usize, holds: bool| *count += usize::from(holds);
        if choices.iter().chain(&cost).all(|&byte| byte == 0xFF) {
            demand(flag != 1, "a search that says 01 shows no plan")?;
            demand(flag == 0 || least.is_none(), "a search says 02 where there is a plan")?;
            seen(&mut tally.forbidden.ended_without, flag == 2);
            seen(&mut tally.forbidden.spent_without_any, flag == 0 && least.is_none());
            seen(&mut tally.spent_without, flag == 0);
            return Ok(());
        }
        demand(flag < 2, "a search that says 02 shows a plan")?;
        let cost = cost.into_iter().fold(0, |number, byte| number << 8 | byte);
        seen(&mut tally.ended, flag == 1);
        seen(&mut tally.forbidden.ended, flag == 1 && !self.costs.permits_all());
        seen(&mut tally.spent_with_plan, flag == 0);
        let shown = plans.iter().find(|(plan, _)| plan.iter().map(|&a| a as i64).eq(choices.iter().copied()));
        demand(shown.is_some_and(|shown| shown.1 == cost), "the cost shown isn't a plan's and its own")?;
        demand(flag == 0 || least == Some(cost), "an ended search is beaten")
    }

    /// "With 02 and a train", a partner of the line's; "the last FF unless 02". "After lines from fresh, where 01 or 02
    /// stands, every plan with that choice costs the limit or more." Nothing is claimed where 00 stands.
    fn check_reason(
        &self,
        line: &[u8],
        reply: &[u8],
        plans: &Plans,
        tally: &mut Reasons,
    ) -> Result<(), String> {
        let mut fields = Reader(&line[2..]);
        let (train, choice) = (fields.number(1) as usize, fields.number(1) as usize);
        let limit = fields.number(4);
        let mut shown = Reader(&reply[2..]);
        let (reason, partner) = (shown.number(1), shown.number(1));
        let partners = [train, partner as usize];
        let named = self.costs.pairs.iter().any(|pair| {
            let [i, j] = pair.trains;
            [[i, j], [j, i]].contains(&partners)
        });
        demand(reason <= 2, "a reason is none of the three")?;
        demand(
            if reason == 2 { named } else { partner == 0xFF },
            "a reason names a train that is no partner",
        )?;
        let costs = plans.iter().filter(|(plan, _)| plan[train] == choice).map(|plan| plan.1);
        let least = costs.min();
        demand(
            reason == 0 || least.is_none_or(|least| limit <= least),
            "a plan with a choice that is out costs less than the limit",
        )?;
        let counts = [&mut tally.neither, &mut tally.own, &mut tally.partner];
        *counts[reason as usize] += 1;
        if reason > 0 {
            let place = reason as usize - 1;
            tally.tight[place] += usize::from(least == Some(limit));
            tally.without_plan[place] += usize::from(least.is_none());
        }
        Ok(())
    }

    /// "W × the constant of every rival is at most E", for some rivals.
    fn check_certificate(
        &self,
        reply: &[u8],
        constant: i64,
        plans: &Plans,
        random: &mut Random,
        tally: &mut Tally,
    ) -> Result<(), String> {
        let mut fields = Reader(&reply[2..]);
        let reached = fields.number(1) == 1;
        let (ceiling, whole) = (fields.number(8), fields.number(3));
        demand(reached == (ceiling == whole * constant), "'reached' is wrong")?;
        let tally = &mut tally.ceilings[usize::from(!self.costs.permits_all())];
        tally.certificates += 1;
        tally.reached += usize::from(reached);
        tally.without_plan += usize::from(plans.is_empty());
        for _ in 0..4 {
            let scale = random.pick(&[self.scale, 60, 1_000, 720_720]);
            let rival = self.rival(scale, plans, random);
            tally.rivals_by_loss += usize::from(rival.loses());
            // In the ledger's parts, the rival's constant is c0 × s / scale.
            let rival = i128::from(rival.study.constant) * i128::from(self.scale);
            let [ceiling, constant] = [ceiling, constant].map(|parts| i128::from(parts) * i128::from(scale));
            tally.better_rivals += usize::from(rival > constant);
            tally.tight_rivals += usize::from(rival * i128::from(whole) == ceiling);
            demand(rival * i128::from(whole) <= ceiling, "a rival's constant passes the ceiling")?;
        }
        Ok(())
    }

    /// A save's reply, read as a load line, gives what the ledger has.
    fn check_saved(&self, reply: &[u8]) -> Result<(), String> {
        demand(Ledger::load(Reader(&reply[2..])) == *self, "a save shows other numbers than the ledger's")
    }

    /// A rewriting of the ledger's costs in fractions of a point, by random lifts and moves and by sweeps. "Start from
    /// s × the ledger's costs at that line and constant 0, and make any set of lifts and moves together, fractions
    /// allowed, that leaves no permitted entry below 0." Without forbidden entries every rival of document 01 is one.
    fn rival(&self, scale: i64, plans: &Plans, random: &mut Random) -> Rewriting {
        /// Above every cost in these fractions; a rival has no upper limit.
        const LEVEL: i64 = 1_000_000_000_000_000;
        let mut rival = Rewriting::of(&self.costs);
        rival.study.tables_mut().flat_map(Costs::permitted_mut).for_each(|cost| cost.held *= scale);
        rival.flood(random.pick(&[0, 0, scale, LEVEL]));
        for _ in 0..random.below(30) {
            match random.below(10) {
                0 => drop(rival.take_and_lift(random.below(self.costs.trains.len()))),
                _ => rival.step(random),
            }
        }
        (0..random.pick(&[0, 1, 5, 30])).for_each(|_| rival.sweep());
        let permitted = rival.study.tables().flat_map(Costs::permitted).all(|cost| cost.held >= 0);
        let kept = plans.iter().all(|(plan, cost)| total(&rival.study, plan) == Some(scale * cost));
        let lifted = rival.study.constant == rival.shift.lifts.iter().sum::<i64>();
        assert!(permitted && kept && lifted, "no rival");
        rival
    }
}

/// The least cost of any plan.
fn least(plans: &Plans) -> Option<i64> {
    plans.iter().map(|&(_, cost)| cost).min()
}

pub fn demand(holds: bool, otherwise: &str) -> Result<(), String> {
    holds.then_some(()).ok_or_else(|| otherwise.into())
}

/// A call from the outside: its line and its reply, in plain form, and the block before and after it.
struct Step<'a> {
    service: Service,
    capacity: usize,
    by_radio: bool,
    line: &'a [u8],
    reply: &'a [u8],
    before: &'a [i64],
    block: &'a [i64],
}

impl Step<'_> {
    fn is(&self, kind: &[u8]) -> bool {
        self.line.starts_with(kind)
    }

    /// The call as one that leaves the block, with its buffer.
    fn asked(&self) -> Asked<'_> {
        let Step { service, capacity, by_radio, line, reply, block, .. } = *self;
        Asked { service, block, capacity, by_radio, line, reply }
    }

    /// What holds of the block, before anything is known of its costs.
    fn check_change(&self) -> Result<(), String> {
        let same = self.block == self.before;
        demand(accepted(self.reply) || same, "a refused line changed the block")?;
        let leaves = [b"07", b"0A", b"0C", b"0D", b"0E", b"0F"].into_iter().any(|kind| self.is(kind));
        demand(!leaves || same, "a save, a reason, a record or a dearest study changed the block")?;
        let rewriting = self.is(b"04") || self.is(b"08");
        demand(!rewriting || self.block[3] >= self.before[3], "tighten or round lowered the constant")
    }

    /// What holds with forbidden entries, and what only without them: "Add, tighten and the directional round may now
    /// give 12."
    fn check_forbidden(&self, ledger: &Ledger, tally: &mut Forbidden) -> Result<(), String> {
        ledger.check_forbidden(self.block)?;
        let limits = [b"02", b"04", b"08"].map(|kind| self.is(kind) && self.reply == b"FF0C");
        if ledger.costs.permits_all() {
            return demand(limits == [false; 3], "add, tighten or round gave 12");
        }
        tally.calls += 1;
        for (count, limit) in tally.limits.iter_mut().zip(limits) {
            *count += usize::from(limit);
        }
        if self.is(b"02") && accepted(self.reply) {
            let mut fields = Reader(&self.line[2..]);
            let (train, choice) = (fields.number(1) as usize, fields.number(1) as usize);
            let forbidden = ledger.costs.trains[train].entries[choice].is_none();
            demand(
                !forbidden || self.block == self.before,
                "an add to a forbidden choice changed the block",
            )?;
            tally.adds += usize::from(forbidden && fields.number(3) > 0);
        }
        Ok(())
    }

    /// Every claim after the call, by the ledger that was fed it.
    fn check(&self, ledger: Option<&Ledger>, random: &mut Random, tally: &mut Tally) -> Result<(), String> {
        self.check_change()?;
        tally.orders.check_block(self.line, self.reply, self.before, self.block)?;
        tally.taken.check_asked(&self.asked(), random)?;
        tally.dearest.check_asked(&self.asked(), random)?;
        tally.calls += 1;
        tally.by_radio += usize::from(self.by_radio && accepted(self.reply));
        tally.falls += usize::from(self.reply.starts_with(b"83") && self.block[3] < self.before[3]);
        let Some(ledger) = ledger else { return Ok(()) };
        self.check_forbidden(ledger, &mut tally.forbidden)?;
        let plans = ledger.plans();
        tally.forbidden.without_plan += usize::from(plans.is_empty());
        let tariff = Tariff::of(ledger.scale, &ledger.costs);
        ledger.check_block(self.block, &plans, &tariff)?;
        tally.multiples.check_published(&tariff, self.service, self.block, &ledger.costs)?;
        let sizes: Vec<i64> = ledger.costs.trains.iter().map(|costs| costs.columns as i64).collect();
        tally.taken.check_ledger(&self.asked(), &sizes, &plans, tariff.bound(self.block[3]))?;
        self.check_reply(ledger, &plans, &tariff, random, tally)
    }

    fn check_reply(
        &self,
        ledger: &Ledger,
        plans: &Plans,
        tariff: &Tariff,
        random: &mut Random,
        tally: &mut Tally,
    ) -> Result<(), String> {
        let Step { service, line, reply, before, block, .. } = *self;
        match reply.get(..2) {
            // Records and dearest studies are checked before, with the lines that are refused.
            None | Some(b"FF" | b"8C" | b"8D" | b"8E") => Ok(()),
            Some(b"01") if self.is(b"0F") => Ok(()),
            Some(b"01") => {
                ledger.check_saved(reply)?;
                tally.saves.check_saved(service, block, reply)
            }
            Some(b"85") => {
                tally.rooms.check_plan(line, reply, &ledger.costs, plans)?;
                ledger.check_certificate(reply, block[3], plans, random, tally)
            }
            Some(b"86") => {
                ledger.check_search(reply, plans, tally)?;
                tally.stops.check(block, line, reply)?;
                tally.orders.check_searches(service, block, line, random, plans)
            }
            Some(b"8A") => ledger.check_reason(line, reply, plans, &mut tally.reasons),
            Some(b"8B") => tally.orders.check_reply(line, reply, ledger.costs.trains.len()),
            Some(shown) => {
                if shown == b"81" {
                    tally.saves.check_load(service, block, line)?;
                }
                if shown == b"89" {
                    tally.clauses.check(line, reply, before, plans)?;
                    ledger.check_saved(&tally.saves.check_clauses(service, block)?)?;
                }
                if shown == b"88" {
                    ledger.check_round(reply, before[3], plans, tally)?;
                }
                ledger.check_bound(reply, plans, tariff, tally)
            }
        }
    }
}

/// One session from a fresh block, every claim checked after each call.
pub fn check_session(service: Service, seed: u64, calls: usize, tally: &mut Tally) -> Result<(), String> {
    let mut session = Session::new(seed, Reach::SmallLines);
    let mut random = Random::new(!seed);
    let mut block = vec![0; BLOCK_LENGTH];
    let mut ledger = None;
    for number in 0..calls {
        let before = block.clone();
        let call = session.call(&block);
        let outcome = call.run(service, &mut block);
        let Exchange { by_radio, line, reply } = Exchange::of(&call.line, outcome.reply());
        feed(&mut ledger, &line, &reply);
        let step = Step {
            service,
            capacity: call.capacity,
            by_radio,
            line: &line,
            reply: &reply,
            before: &before,
            block: &block,
        };
        step.check(ledger.as_ref(), &mut random, tally).map_err(|claim| {
            let [line, reply] = [&call.line, outcome.reply()].map(String::from_utf8_lossy);
            format!("session {seed}, call {number}: {claim}\nline {line}\nreply {reply}")
        })?;
    }
    Ok(())
}
