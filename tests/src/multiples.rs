//! Change 9, 'Bounds in steps of the tariff', checked from the outside: by the numbers that divide the ledger's costs.

use crate::calls::{Call, Setting};
use crate::claims::{demand, Reader};
use crate::generator::{line_of, shift_fields};
use crate::model::{Costs, Study};
use crate::rewriting::Rewriting;
use crate::{Service, LEAST_BUFFER};

/// How often published bounds were put to the test, a cost and the constant being above 0.
#[derive(Default, Debug)]
pub struct Multiples {
    pub bounds: usize,
    /// Of these, bounds above "the least whole number of points not below c0"; those of them of studies with a forbidden
    /// entry, and those that replies 82, 83, 84 and 88 show.
    pub higher: usize,
    pub forbidden: usize,
    pub shown: [usize; 4],
    /// Bounds that stay, being a multiple of a number above 1.
    pub stay: usize,
}

/// The ledger's costs as a bound sees them.
pub(crate) struct Tariff {
    scale: i64,
    /// The numbers that divide all permitted costs, ascending. "If all are 0 it is 1."
    divisors: Vec<i64>,
    /// Whether a permitted cost is above 0, and whether an entry is forbidden.
    any: bool,
    forbids: bool,
}

impl Tariff {
    /// Of costs in points: each number up to the root of the least one is tried, and the one beside it.
    pub(crate) fn of(scale: i64, costs: &Study) -> Self {
        let loaded = costs.tables().flat_map(Costs::permitted).map(|cost| cost.loaded);
        let above: Vec<i64> = loaded.filter(|&cost| cost > 0).collect();
        let least = above.iter().copied().min().unwrap_or(1);
        let tried = (1..=least.isqrt()).flat_map(|number| [number, least / number]);
        let divides_all = |number: &i64| above.iter().chain([&least]).all(|cost| cost % number == 0);
        let mut divisors: Vec<i64> = tried.filter(divides_all).collect();
        divisors.sort();
        Self { scale, divisors, any: !above.is_empty(), forbids: !costs.permits_all() }
    }

    /// "The greatest common divisor."
    fn step(&self) -> i64 {
        *self.divisors.last().expect("1 divides every number")
    }

    /// The bound of a constant: as many steps, of s × g parts each, as cover it.
    pub(crate) fn bound(&self, constant: i64) -> i64 {
        let parts = self.scale * self.step();
        (constant + parts - 1) / parts * self.step()
    }

    /// "The published bound rounds up to a multiple": it is one of every number that divides all permitted costs, it covers
    /// c0, and no lower multiple of the greatest of these numbers does.
    fn check(&self, constant: i64, bound: i64) -> Result<(), String> {
        let multiple = self.divisors.iter().all(|number| bound % number == 0);
        demand(multiple, "a bound isn't a multiple of a number that divides all costs")?;
        demand(self.scale * bound >= constant, "a bound doesn't cover the constant")?;
        let lower = bound - self.step();
        demand(lower < 0 || self.scale * lower < constant, "a lower multiple covers the constant")?;
        demand(bound == self.bound(constant), "a bound isn't that of the constant in the ledger's steps")
    }

    /// Whether the bound is above the least whole number of points not below the constant.
    fn is_higher(&self, constant: i64, bound: i64) -> bool {
        self.any && self.scale * (bound - 1) >= constant
    }
}

impl Multiples {
    /// What a reply of kinds 01 to 04, 08 and 09 shows.
    pub(crate) fn check_shown(&mut self, tariff: &Tariff, reply: &[u8]) -> Result<(), String> {
        let [constant, bound] = constant_and_bound(reply);
        let kinds = [b"82", b"83", b"84", b"88"].map(|kind| reply.starts_with(kind));
        for (count, kind) in self.shown.iter_mut().zip(kinds) {
            *count += usize::from(kind && tariff.is_higher(constant, bound));
        }
        tariff.check(constant, bound)
    }

    /// What is published after the list: a shift that moves nothing shows it, and leaves the block.
    pub(crate) fn check_published(
        &mut self,
        tariff: &Tariff,
        service: Service,
        block: &[i64],
        costs: &Study,
    ) -> Result<(), String> {
        let line = line_of(&shift_fields(&Rewriting::of(costs).shift));
        let still = Call { capacity: LEAST_BUFFER, setting: Setting::AsLeft, line };
        let mut after = block.to_vec();
        let outcome = still.run(service, &mut after);
        let accepted = outcome.reply().starts_with(b"83");
        demand(accepted && after == block, "a shift that moves nothing is refused or changed the block")?;
        let [constant, bound] = constant_and_bound(outcome.reply());
        demand(constant == block[3], "a shift that moves nothing shows another constant")?;
        if tariff.any && constant > 0 {
            let higher = tariff.is_higher(constant, bound);
            let seen = |count: &mut usize, holds: bool| *count += usize::from(holds);
            seen(&mut self.bounds, true);
            seen(&mut self.higher, higher);
            seen(&mut self.forbidden, higher && tariff.forbids);
            seen(&mut self.stay, !higher && tariff.step() > 1);
        }
        tariff.check(constant, bound)
    }
}

/// "c0 in parts (6), bound in points (6)."
fn constant_and_bound(reply: &[u8]) -> [i64; 2] {
    let mut fields = Reader(&reply[2..]);
    [fields.number(6), fields.number(6)]
}
