//! Change 6, 'Stopping at the bound', checked against document 01's walk, which no cost ends.

use crate::claims::{demand, Reader};
use crate::model;
use crate::search::{self, End};

/// How often searches on blocks that lines from fresh leave were put to the test.
#[derive(Default, Debug)]
pub struct Stops {
    /// Searches that ended at the bound, those of them on studies with a forbidden entry, and those whose bound is higher
    /// in steps of the tariff (change 9) than the constant in points.
    pub met: usize,
    pub forbidden: usize,
    pub in_steps: usize,
    /// Of these, searches that end without the rule too, after more tries; and searches that would be spent, with tries
    /// left and by their last one.
    pub fewer: usize,
    pub with_tries_left: usize,
    pub by_the_last: usize,
    /// Searches that the rule changes in nothing.
    pub same: usize,
}

impl Stops {
    /// "Old answers that change after lines from fresh: ended searches that met the bound early count fewer tries, and
    /// some spent ones end." These and no others: plan and cost are those of document 01's walk, and so is all else where
    /// the cost isn't the bound.
    pub fn check(&mut self, block: &[i64], line: &[u8], reply: &[u8]) -> Result<(), String> {
        let study = model::decode(block).ok().flatten().ok_or("a search without a study")?;
        let budget = Reader(&line[2..]).number(4);
        let mut fields = Reader(&reply[2..]);
        let (flag, count, cost) = (fields.number(1), fields.number(4), fields.number(6));
        let plan = fields.numbers(1, study.trains.len());
        let old = search::walk(&study, budget, None);
        let spent = old.end == End::Spent;
        let shown = match &old.best {
            Some(best) => (study.points(best.total), best.plan.iter().map(|&choice| choice as i64).collect()),
            None => (0xFFFF_FFFF_FFFF, vec![0xFF; plan.len()]),
        };
        demand((cost, plan) == shown, "a search shows another plan or cost than without the rule")?;
        let Some(best) = old.best.filter(|_| cost == study.bound()) else {
            self.same += 1;
            demand((flag == 0) == spent, "a search ends otherwise, and not by the bound")?;
            return demand(count == old.count, "a search counts otherwise, and not by the bound");
        };
        demand(flag != 0, "a spent search's cost is the bound")?;
        demand(count == best.found, "a search goes on past the bound, or stops before it")?;
        let seen = |count: &mut usize, holds: bool| *count += usize::from(holds);
        self.met += 1;
        seen(&mut self.forbidden, !study.permits_all());
        seen(&mut self.in_steps, cost > study.points(study.constant));
        seen(&mut self.fewer, !spent && count < old.count);
        seen(&mut self.with_tries_left, spent && count < budget);
        seen(&mut self.by_the_last, spent && count == budget);
        Ok(())
    }
}
