//! Change 9: the step of a tariff, by trial of divisors.

use crate::model::{Costs, Study};

/// "The greatest common divisor of all loaded costs as H now holds them, additions included, forbidden entries left out; if
/// all are 0 it is 1." Every number divides 0, and none above the least of the other costs divides all of them.
pub fn step(study: &Study) -> i64 {
    let loaded = study.tables().flat_map(Costs::permitted).map(|cost| cost.loaded);
    let costs: Vec<i64> = loaded.filter(|&cost| cost > 0).collect();
    let least = costs.iter().copied().min().unwrap_or(1);
    let mut common = divisors(least).filter(|divisor| costs.iter().all(|cost| cost % divisor == 0));
    common.next().expect("1 divides every number")
}

/// The divisors of a number, from the highest down: those up to its root are tried, and each has one beside it.
fn divisors(number: i64) -> impl Iterator<Item = i64> {
    let low: Vec<i64> = (1..=number.isqrt()).filter(|divisor| number % divisor == 0).collect();
    let high: Vec<i64> = low.iter().map(|divisor| number / divisor).collect();
    high.into_iter().chain(low.into_iter().rev())
}
