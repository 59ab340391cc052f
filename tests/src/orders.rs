//! Change 10: orders of the generator, and what is said of orders, checked from the outside by searches in several of them.

use crate::asked::in_either_form;
use crate::claims::{accepted, demand, Reader};
use crate::generator::{line_of, Fields};
use crate::model::{BLOCK_LENGTH, ORDER};
use crate::random::Random;
use crate::Service;

/// A search of any study of the claims with this budget ends.
const ENOUGH: &[u8] = b"0600989680";

/// An order of as many trains: that of a load, as it is now, turned, with one swap, or any.
pub fn any_order(random: &mut Random, order: &[usize]) -> Vec<usize> {
    let mut trains: Vec<usize> = (0..order.len()).collect();
    match random.below(8) {
        0 => {}
        1 => trains.copy_from_slice(order),
        2 | 3 => trains.reverse(),
        4 | 5 => {
            trains.copy_from_slice(order);
            trains.swap(random.below(order.len()), random.below(order.len()));
        }
        _ => random.shuffle(&mut trains),
    }
    trains
}

/// The fields of a line of kind 0B.
pub fn order_fields(order: &[usize]) -> Fields {
    [11].into_iter().chain(order.iter().map(|&train| train as i64)).map(|number| (1, number)).collect()
}

/// An order that is none: a number twice, n, FF, a byte less or more.
pub fn damaged(random: &mut Random, order: &[usize]) -> Fields {
    let mut fields = order_fields(order);
    let n = order.len();
    let place = 1 + random.below(n);
    let other = order[random.below(n)] as i64;
    let wrong = random.pick(&[other, n as i64, 0xFF]);
    match random.below(6) {
        0..=2 => fields[place].1 = wrong,
        3 => drop(fields.pop()),
        4 => fields.push((1, random.pick(&[0, wrong]))),
        // A byte more, the rest being wrong too.
        _ => {
            fields[place].1 = wrong;
            fields.push((1, 0));
        }
    }
    fields
}

/// How often orders were put to the test.
#[derive(Default, Debug)]
pub struct Orders {
    /// Accepted lines of kind 0B, and those of them that change the order.
    pub lines: usize,
    pub changes: usize,
    /// Accepted loads, of kind 01 or 09, over another order than a load sets, and other calls that leave such a one.
    pub loads: usize,
    pub left: usize,
    /// Studies, with a plan and without, that were searched in several orders; of these searches, those that show another
    /// plan or count other tries than the first of the study, and those on the study as its save loads it.
    pub studies: [usize; 2],
    pub plans: usize,
    pub counts: usize,
    pub saved: usize,
    /// Searches with a budget that is enough in one of these orders only.
    pub spent: usize,
}

/// The flag and the cost of a search that has ended, its count, and its plan.
struct Found {
    ended: Option<[i64; 2]>,
    count: i64,
    plan: Vec<i64>,
}

impl Found {
    fn read(reply: &[u8], n: usize) -> Self {
        let mut fields = Reader(&reply[2..]);
        let (flag, count, cost) = (fields.number(1), fields.number(4), fields.number(6));
        Self { ended: (flag > 0).then_some([flag, cost]), count, plan: fields.numbers(1, n) }
    }
}

/// The order that a load of n trains sets: "0 to n−1, and unused places are 0".
pub(crate) fn loaded(n: i64) -> Vec<i64> {
    ORDER.map(|place| (place - ORDER.start) as i64).map(|place| if place < n { place } else { 0 }).collect()
}

impl Orders {
    /// Which lines change the order, and how.
    pub(crate) fn check_block(
        &mut self,
        line: &[u8],
        reply: &[u8],
        before: &[i64],
        block: &[i64],
    ) -> Result<(), String> {
        let other = before[ORDER] != loaded(before[0]);
        let kind = line.get(..2).filter(|_| accepted(reply));
        match kind {
            // "A load, also of kind 09, sets 0 to n−1, and unused places are 0."
            Some(b"01" | b"09") => {
                self.loads += usize::from(other);
                demand(block[ORDER] == loaded(block[0]), "a load leaves another order than 0 to n − 1")
            }
            Some(b"0B") => {
                let numbers = Reader(&line[2..]).numbers(1, line.len() / 2 - 1);
                let (used, unused) = block[ORDER].split_at(numbers.len());
                self.lines += 1;
                self.changes += usize::from(block != before);
                demand(
                    block[..ORDER.start] == before[..ORDER.start],
                    "an order changes more than the order",
                )?;
                demand(used == numbers, "the block hasn't the line's order")?;
                demand(unused.iter().all(|&number| number == 0), "an unused place of the order isn't 0")
            }
            _ => {
                self.left += usize::from(other);
                demand(block[ORDER] == before[ORDER], "a line that is no load and no order changes the order")
            }
        }
    }

    /// "The reply is 8B and the order": it shows each train of the ledger exactly once, as the line does.
    pub(crate) fn check_reply(&self, line: &[u8], reply: &[u8], trains: usize) -> Result<(), String> {
        let [given, shown] = [line, reply].map(|text| Reader(&text[2..]).numbers(1, text.len() / 2 - 1));
        let once = |train: i64| shown.iter().filter(|&&number| number == train).count() == 1;
        demand(shown.len() == trains, "an order shows more or fewer trains than the ledger has")?;
        demand((0..trains as i64).all(once), "an order doesn't show each train exactly once")?;
        demand(given == shown, "an order isn't the line's")
    }

    /// "After lines from fresh, this one among them, an ended search gives the same cost for every order": searches in either
    /// form, in some orders of the study, as it is and as its save loads it on a fresh block, with enough budget and with the
    /// line's own. Each shows a plan and its cost, or, where there is none, that there is none.
    pub(crate) fn check_searches(
        &mut self,
        service: Service,
        block: &[i64],
        line: &[u8],
        random: &mut Random,
        plans: &[(Vec<usize>, i64)],
    ) -> Result<(), String> {
        let n = block[0] as usize;
        let mut again = vec![0; BLOCK_LENGTH];
        let saved = in_either_form(service, random, b"07", &mut block.to_vec());
        demand(
            in_either_form(service, random, &saved, &mut again).starts_with(b"81"),
            "a saved line isn't loaded",
        )?;
        let now: Vec<usize> = block[ORDER][..n].iter().map(|&train| train as usize).collect();
        let mut first: Option<Found> = None;
        let mut enough = [false; 2];
        for number in 0..5 {
            let from_save = number == 4;
            let mut after = if from_save { again.clone() } else { block.to_vec() };
            if number > 0 {
                let order = line_of(&order_fields(&any_order(random, &now)));
                let shown = in_either_form(service, random, &order, &mut after);
                demand(shown.starts_with(b"8B"), "an order of a study is refused")?;
            }
            let found = Found::read(&in_either_form(service, random, ENOUGH, &mut after), n);
            let own = Found::read(&in_either_form(service, random, line, &mut after), n);
            demand(found.ended.is_some(), "a search with enough budget is spent")?;
            demand(own.ended.is_none() || own.ended == found.ended, "a search ends with two costs")?;
            enough[usize::from(own.ended.is_some())] = true;
            let shown =
                plans.iter().find(|(plan, _)| plan.iter().map(|&a| a as i64).eq(found.plan.iter().copied()));
            let right = match found.ended {
                Some([1, cost]) => shown.is_some_and(|shown| shown.1 == cost),
                _ => plans.is_empty(),
            };
            demand(right, "an ended search in another order shows no plan, or not its cost")?;
            self.saved += usize::from(from_save);
            match &first {
                None => first = Some(found),
                Some(first) => {
                    demand(found.ended == first.ended, "ended searches in two orders show two costs")?;
                    self.plans += usize::from(found.plan != first.plan);
                    self.counts += usize::from(found.count != first.count);
                }
            }
        }
        self.studies[usize::from(plans.is_empty())] += 1;
        self.spent += usize::from(enough == [true; 2]);
        Ok(())
    }
}
