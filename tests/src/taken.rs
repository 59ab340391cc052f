//! Change 11, 'A plan record for platforms and planners', checked from the outside: by lines of its three kinds, by the
//! places of the block, by the ledger and by every plan of small studies.

use crate::asked::{check_calls, reply, Asked};
use crate::claims::{demand, Reader};
use crate::generator::{line_of, shift_fields};
use crate::model::{self, FORBIDDEN, ORDER};
use crate::orders;
use crate::random::Random;
use crate::record_lines::write_fields;
use crate::records::length;
use crate::rewriting::Rewriting;
use crate::{lines, Service, LEAST_BUFFER, LONGEST_REPLY};

/// How often records were put to the test.
#[derive(Default, Debug)]
pub struct Taken {
    /// Records that were written and then read by both; those of them that are longer than the least buffer, whose study has
    /// another order than a load sets, and whose study has a forbidden entry.
    pub written: usize,
    pub long: usize,
    pub ordered: usize,
    pub forbidden: usize,
    /// Lines of kind 0C, accepted and refused, that had other digits behind the choices.
    pub screens: [usize; 2],
    /// Records that screens take and planners refuse, and those that both take.
    pub screens_only: usize,
    pub both: usize,
    /// Accepted lines of kinds 0C, 0D and 0E by the ledger; those of 0D and of 0E whose bound is the cost, and those of 0D whose
    /// bound is below the published one and above it.
    pub shown: [usize; 3],
    pub tight: [usize; 2],
    pub lower: usize,
    pub higher: usize,
    /// Lines of kind 0C that show a plan with a forbidden entry.
    pub barred: usize,
    /// Lines that gave 22; lines of kind 0D that gave 23 by a forbidden entry, by the cost and by the bound; lines of kind 0E
    /// that gave 23.
    pub not_held: usize,
    pub planners_refused: [usize; 3],
    pub writes_refused: usize,
    /// Lines of kind 0E on any block: accepted, and refused by a forbidden entry and by the bound.
    pub blocks: [usize; 3],
}

/// n, the choices, the bound and the cost of a record, and n with the choices as text.
struct Shown<'a> {
    choices: Vec<i64>,
    bound: i64,
    cost: i64,
    front: &'a [u8],
}

impl<'a> Shown<'a> {
    /// "A record read is as long as its own first byte says."
    fn read(text: &'a [u8]) -> Result<Self, String> {
        let mut fields = Reader(text);
        let n = if text.len() < 2 { 0 } else { fields.number(1) as usize };
        demand(text.len() == length(n) - 2, "a record isn't as long as its own first byte says")?;
        let choices = fields.numbers(1, n);
        Ok(Self { choices, bound: fields.number(6), cost: fields.number(6), front: &text[..2 + 2 * n] })
    }
}

/// The digits of a line of this kind with these digits behind the kind.
fn of_kind(kind: &[u8], text: &[u8]) -> Vec<u8> {
    [kind, text].concat()
}

impl Taken {
    /// What is said of lines of these kinds on every block.
    pub(crate) fn check_asked(&mut self, asked: &Asked, random: &mut Random) -> Result<(), String> {
        if asked.is(b"0C") {
            self.check_screen(asked, random)?;
        }
        match asked.reply.get(..2) {
            Some(b"8C") => self.check_shown(asked),
            Some(b"8D") => self.check_read(asked),
            Some(b"8E") => self.check_written(asked.service, asked.block, asked.line, asked.reply),
            _ => Ok(()),
        }
    }

    /// "A screen's answer depends on no bound or cost byte": with other digits behind the choices, as many, the reply is the
    /// same.
    fn check_screen(&mut self, asked: &Asked, random: &mut Random) -> Result<(), String> {
        let digits = lines::open(asked.line).is_ok();
        let Some(first) = asked.line.get(2..4).filter(|_| digits) else { return Ok(()) };
        let behind = 4 + 2 * Reader(first).number(1) as usize;
        if behind >= asked.line.len() {
            return Ok(());
        }
        self.screens[usize::from(!asked.reply.starts_with(b"8C"))] += 1;
        for all in [None, None, None, Some(b'0'), Some(b'F')] {
            let mut other = asked.line.to_vec();
            let mut digit = || all.unwrap_or_else(|| random.pick(b"0123456789ABCDEF"));
            other[behind..].iter_mut().for_each(|character| *character = digit());
            let same = asked.again(&other)? == asked.reply;
            demand(same, "a screen's answer depends on bytes behind the choices")?;
        }
        Ok(())
    }

    /// "Kind 0C reads one for screens: 8C, n and choices." "A record that both take shows both the same choices": what screens
    /// take, planners in a buffer that is long enough take and are shown, or they refuse it under 23.
    fn check_shown(&mut self, asked: &Asked) -> Result<(), String> {
        let record = &asked.line[2..];
        let front = Shown::read(record)?.front;
        demand(asked.reply[2..] == *front, "a screen is shown other choices than the record's")?;
        let planner = asked.reply(&of_kind(b"0D", record), LONGEST_REPLY)?;
        let taken = planner == of_kind(b"8D", record);
        demand(taken || planner == b"FF17", "planners neither take nor refuse under 23 what a screen takes")?;
        self.both += usize::from(taken);
        self.screens_only += usize::from(!taken);
        Ok(())
    }

    /// "Kind 0D reads one for planners: 8D and the record." Screens take it too, in the least buffer, and are shown the same
    /// choices.
    fn check_read(&mut self, asked: &Asked) -> Result<(), String> {
        let record = &asked.line[2..];
        demand(asked.reply[2..] == *record, "planners are shown another record than they sent")?;
        let screen = asked.reply(&of_kind(b"0C", record), LEAST_BUFFER)?;
        demand(screen == of_kind(b"8C", Shown::read(record)?.front), "a record shows both other choices")?;
        self.both += 1;
        Ok(())
    }

    /// "A written record is taken by both straight afterwards, in a buffer as long": in one that is exactly as long, and in a
    /// longer one, by either first; planners are shown the record, and screens its front. "17 as for a save comes last": in a
    /// shorter buffer it is neither written nor read by planners.
    fn check_written(
        &mut self,
        service: Service,
        block: &[i64],
        line: &[u8],
        written: &[u8],
    ) -> Result<(), String> {
        let record = &written[2..];
        let n = block[0] as usize;
        demand(written.len() == length(n), "a written record has another length")?;
        let kinds = [(&b"0C"[..], &b"8C"[..], Shown::read(record)?.front), (b"0D", b"8D", record)];
        let least = written.len().max(LEAST_BUFFER);
        for (capacity, first) in [(least, 0), (least, 1), (LONGEST_REPLY, 0), (LONGEST_REPLY, 1)] {
            for (kind, code, shown) in [kinds[first], kinds[1 - first]] {
                let taken = reply(service, &of_kind(kind, record), block, capacity)? == of_kind(code, shown);
                demand(taken, "a written record isn't taken straight afterwards")?;
            }
        }
        for line in [line, &of_kind(b"0D", record)] {
            let short = reply(service, line, block, least - 1)?;
            demand(short.is_empty(), "a record is answered in a buffer that is shorter")?;
        }
        self.written += 1;
        self.long += usize::from(written.len() > LEAST_BUFFER);
        self.ordered += usize::from(block[ORDER] != orders::loaded(block[0]));
        self.forbidden += usize::from(block.contains(&FORBIDDEN));
        Ok(())
    }

    /// What is said after lines from fresh, by the ledger's sizes and plans, each with its cost, and by the published bound.
    pub(crate) fn check_ledger(
        &mut self,
        asked: &Asked,
        sizes: &[i64],
        plans: &[(Vec<usize>, i64)],
        published: i64,
    ) -> Result<(), String> {
        match (asked.line.get(..2), asked.reply.get(..4)) {
            (_, Some([b'8', b'C', ..])) => self.check_by_sizes(asked, sizes, plans),
            (_, Some([b'8', b'D' | b'E', ..])) => self.check_by_plans(asked, plans, published),
            (Some(b"0C" | b"0D" | b"0E"), Some(b"FF16")) => {
                self.not_held += 1;
                demand(!are_held(&choices_of(asked)?, sizes), "22 of choices that the ledger has")
            }
            (Some(b"0D"), Some(b"FF17")) => self.check_planner_refused(asked, plans),
            (Some(b"0E"), Some(b"FF17")) => {
                self.writes_refused += 1;
                let found = cost_of(plans, &choices_of(asked)?);
                demand(found.is_none(), "0E gave 23 of a plan without a forbidden entry")
            }
            (Some(kind), Some(b"FF17")) => Err(format!("kind {} gave 23", String::from_utf8_lossy(kind))),
            _ => Ok(()),
        }
    }

    /// An accepted line of kind 0C: "n is the ledger's and each choice is below its size".
    fn check_by_sizes(
        &mut self,
        asked: &Asked,
        sizes: &[i64],
        plans: &[(Vec<usize>, i64)],
    ) -> Result<(), String> {
        let mut fields = Reader(&asked.reply[2..]);
        let n = fields.number(1) as usize;
        let choices = fields.numbers(1, n);
        self.shown[0] += 1;
        self.barred += usize::from(cost_of(plans, &choices).is_none());
        demand(are_held(&choices, sizes), "a screen shows choices that the ledger hasn't")
    }

    /// An accepted line of kind 0D or 0E shows a plan of the ledger and its cost, and a bound that is at most that; the bound of
    /// 0E is the published one, and at most every plan's cost.
    fn check_by_plans(
        &mut self,
        asked: &Asked,
        plans: &[(Vec<usize>, i64)],
        published: i64,
    ) -> Result<(), String> {
        let Shown { choices, bound, cost, .. } = Shown::read(&asked.reply[2..])?;
        let written = asked.is(b"0E");
        demand(
            cost_of(plans, &choices) == Some(cost),
            "the cost of a record isn't that of a plan of the ledger",
        )?;
        demand(bound <= cost, "the bound of a record passes its cost")?;
        demand(!written || bound == published, "the bound of a written record isn't the published one")?;
        let least = plans.iter().all(|&(_, cost)| bound <= cost);
        demand(!written || least, "the bound of a written record passes a plan's cost")?;
        self.shown[1 + usize::from(written)] += 1;
        self.tight[usize::from(written)] += usize::from(bound == cost);
        self.lower += usize::from(bound < published);
        self.higher += usize::from(bound > published);
        Ok(())
    }

    /// "23, cost isn't the plan's total in H, bound above it, or a forbidden entry."
    fn check_planner_refused(&mut self, asked: &Asked, plans: &[(Vec<usize>, i64)]) -> Result<(), String> {
        let Shown { choices, bound, cost, .. } = Shown::read(&asked.line[2..])?;
        let [forbidden, by_cost, by_bound] = &mut self.planners_refused;
        match cost_of(plans, &choices) {
            None => *forbidden += 1,
            Some(total) if total != cost => *by_cost += 1,
            Some(_) => {
                *by_bound += 1;
                demand(bound > cost, "0D gave 23 of a record that is right")?;
            }
        }
        Ok(())
    }

    /// A line of kind 0E of some plan on any block that holds a study: its total in H and what is forbidden by the places of the
    /// document, and the bound that a shift of nothing shows.
    fn check_any(&mut self, service: Service, block: &[i64], random: &mut Random) -> Result<(), String> {
        let Ok(Some(study)) = model::decode(block) else { return Ok(()) };
        let still =
            reply(service, &line_of(&shift_fields(&Rewriting::of(&study).shift)), block, LEAST_BUFFER)?;
        let published = Reader(&still[14..]).number(6);
        let choices = some_choices(random, block);
        let total = total(block, &choices);
        let line = line_of(&write_fields(&choices));
        let written = reply(service, &line, block, LONGEST_REPLY)?;
        let Some(total) = total.filter(|&total| published <= total) else {
            self.blocks[1 + usize::from(total.is_some())] += 1;
            // 23 comes before 17.
            let refused = [written, reply(service, &line, block, LEAST_BUFFER)?];
            let right = refused.iter().all(|reply| reply == b"FF17");
            return demand(right, "0E doesn't give 23 of a forbidden entry or of a bound above");
        };
        self.blocks[0] += 1;
        demand(written.starts_with(b"8E"), "0E is refused")?;
        let Shown { choices: shown, bound, cost, .. } = Shown::read(&written[2..])?;
        let right = shown == choices && bound == published && cost == total;
        demand(right, "a written record shows another plan, cost or bound")?;
        self.check_written(service, block, &line, &written)
    }

    /// One session over studies of every size and blocks that no line makes: each line of these kinds, and a line of kind 0E of
    /// some plan behind each call.
    pub fn check_session(&mut self, service: Service, seed: u64, calls: usize) -> Result<(), String> {
        check_calls(service, seed, calls, "records", |asked, block, random| {
            self.check_asked(asked, random)?;
            self.check_any(service, block, random)
        })
    }
}

/// The choices of a line: all of 0E, and of the others as many as their own first byte says.
fn choices_of(asked: &Asked) -> Result<Vec<i64>, String> {
    let text = &asked.line[2..];
    match asked.is(b"0E") {
        true => Ok(Reader(text).numbers(1, text.len() / 2)),
        false => Shown::read(text).map(|shown| shown.choices),
    }
}

/// As many choices as there are trains, each below its train's size.
fn are_held(choices: &[i64], sizes: &[i64]) -> bool {
    choices.len() == sizes.len() && choices.iter().zip(sizes).all(|(choice, size)| choice < size)
}

/// The cost of the plan of these choices, if there is such a plan.
fn cost_of(plans: &[(Vec<usize>, i64)], choices: &[i64]) -> Option<i64> {
    let same = |plan: &[usize]| plan.iter().map(|&choice| choice as i64).eq(choices.iter().copied());
    plans.iter().find(|(plan, _)| same(plan)).map(|plan| plan.1)
}

/// Choices of the study of a block, none of them forbidden as far as there are others.
fn some_choices(random: &mut Random, block: &[i64]) -> Vec<i64> {
    let permitted = |train: usize| {
        let choices = 0..block[4 + train];
        choices.filter(move |&choice| block[124 + 8 * train + choice as usize] != FORBIDDEN).collect()
    };
    let mut choice = |train: usize| match permitted(train) {
        choices if Vec::is_empty(&choices) => 0,
        choices => random.pick(&choices),
    };
    (0..block[0] as usize).map(&mut choice).collect()
}

/// "The plan's total in H", by the places of the document: `None` where an entry of the plan holds −1.
fn total(block: &[i64], choices: &[i64]) -> Option<i64> {
    let choice = |train: i64| choices[train as usize] as usize;
    let own = (0..block[0]).map(|train| block[124 + 8 * train as usize + choice(train)]);
    let pairs = (0..block[2] as usize)
        .map(|pair| block[508 + 64 * pair + 8 * choice(block[28 + pair]) + choice(block[76 + pair])]);
    own.chain(pairs).map(|cost| (cost != FORBIDDEN).then_some(cost)).sum()
}
