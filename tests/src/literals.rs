//! Change 7, 'Studies written as clauses', checked from the outside: by testing the literals of a line's text.

use crate::claims::{demand, Reader};
use crate::model::{Costs, Pair, Study, FORBIDDEN};

/// How often accepted lines of clauses were put to the test.
#[derive(Default, Debug)]
pub struct Literals {
    pub lines: usize,
    /// Of these, lines by which some plans cost more than others; lines with pairs, with two clauses or more on one entry,
    /// and with a clause of two whose weight is 0.
    pub differing: usize,
    pub paired: usize,
    pub added_up: usize,
    pub weightless: usize,
    /// Lines on fresh blocks, and lines that replaced a study with a forbidden entry.
    pub on_fresh: usize,
    pub over_forbidden: usize,
}

/// The clauses of an accepted line: two literals and a weight each.
pub(crate) struct Text(Vec<([i64; 2], i64)>);

/// "Literal k is train k−1 taking choice 0, −k is choice 1." A literal of 0 is none.
fn met(literal: i64, choice: impl Fn(i64) -> usize) -> bool {
    match literal {
        1.. => choice(literal - 1) == 0,
        0 => false,
        ..0 => choice(-literal - 1) == 1,
    }
}

impl Text {
    /// Reads n and s too.
    pub(crate) fn read(fields: &mut Reader) -> (usize, i64, Self) {
        let (n, scale, count) = (fields.number(1), fields.number(2), fields.number(2));
        let literal = |fields: &mut Reader| i64::from(fields.number(1) as u8 as i8);
        let clause = |_| ([literal(fields), literal(fields)], fields.number(3));
        (n as usize, scale, Self((0..count).map(clause).collect()))
    }

    /// The weights of the clauses of these trains alone that a plan fails: "when neither literal is met". A clause of one
    /// has the train 0 beside its own, as train numbers of literals go.
    fn failed(&self, trains: Option<[i64; 2]>, choice: impl Fn(i64) -> usize) -> i64 {
        let named = |literals: &[i64; 2]| {
            let mut named = literals.map(i64::abs);
            named.sort();
            trains.is_none_or(|trains| named == trains)
        };
        let fails = |literals: &[i64; 2]| !literals.iter().any(|&literal| met(literal, &choice));
        self.0.iter().filter(|(literals, _)| named(literals) && fails(literals)).map(|clause| clause.1).sum()
    }

    /// The costs in points: "All sizes are 2", and "each two trains that some clause names together are a pair".
    pub(crate) fn costs(&self, n: usize) -> Study {
        let table = |rows: usize, cost: &dyn Fn(usize) -> i64| {
            Costs::new(rows, 2, (0..2 * rows).map(|cell| Some(cost(cell))).collect(), 1)
        };
        let train = |i: i64| table(1, &|a| self.failed(Some([0, i]), |_| a));
        let pair = |i: i64, j: i64| Pair {
            trains: [i as usize - 1, j as usize - 1],
            costs: table(2, &|cell| {
                self.failed(Some([i, j]), |train| if train == i - 1 { cell / 2 } else { cell % 2 })
            }),
        };
        let last = n as i64;
        let named =
            |i: i64, j: i64| self.0.iter().any(|([z, w], _)| [[i, j], [j, i]].contains(&[z.abs(), w.abs()]));
        let keys = (1..=last).flat_map(|i| (i + 1..=last).map(move |j| (i, j)));
        let pairs = keys.filter(|&(i, j)| named(i, j)).map(|(i, j)| pair(i, j)).collect();
        Study::loaded(1, (1..=last).map(train).collect(), pairs)
    }

    /// Whether two clauses have the same literals, in either order.
    fn adds_up(&self) -> bool {
        let mut entries: Vec<_> = self.0.iter().map(|(literals, _)| *literals).collect();
        entries.iter_mut().for_each(|literals| literals.sort());
        entries.sort();
        entries.windows(2).any(|two| two[0] == two[1])
    }
}

impl Literals {
    /// "Each plan's total in H must be the weights of the clauses it fails", by the plans with their costs; "The reply is 89
    /// as for a load".
    pub(crate) fn check(
        &mut self,
        line: &[u8],
        reply: &[u8],
        before: &[i64],
        plans: &[(Vec<usize>, i64)],
    ) -> Result<(), String> {
        let (_, _, text) = Text::read(&mut Reader(&line[2..]));
        for (plan, cost) in plans {
            let failed = text.failed(None, |train| plan[train as usize]);
            demand(*cost == failed, "a plan's cost isn't the weights of the clauses it fails")?;
        }
        let sizes = plans.first().map(|(plan, _)| 1 << plan.len());
        demand(sizes == Some(plans.len()), "a study of clauses has other plans than of two choices each")?;
        demand(reply[2..].iter().all(|&digit| digit == b'0'), "constant or bound isn't 0 after clauses")?;
        let seen = |count: &mut usize, holds: bool| *count += usize::from(holds);
        let of_two = |(literals, _): &&([i64; 2], i64)| literals[1] != 0;
        seen(&mut self.lines, true);
        seen(&mut self.differing, plans.iter().any(|plan| plan.1 != plans[0].1));
        seen(&mut self.paired, text.0.iter().any(|clause| of_two(&clause)));
        seen(&mut self.added_up, text.adds_up());
        seen(&mut self.weightless, text.0.iter().filter(of_two).any(|clause| clause.1 == 0));
        seen(&mut self.on_fresh, before[0] == 0);
        seen(&mut self.over_forbidden, before.contains(&FORBIDDEN));
        Ok(())
    }
}
