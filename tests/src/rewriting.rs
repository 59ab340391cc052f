//! Rewritings of a study that keep every plan's total and every permitted cost at 0 or above. What falls on a
//! forbidden entry is lost, and such an entry gives any amount.

use crate::model::{Pair, Study, TOP};
use crate::operations::Shift;
use crate::random::Random;
use crate::steps;

/// A study on its way, and the shift that leads to it from where it began.
pub struct Rewriting {
    pub study: Study,
    pub shift: Shift,
}

impl Rewriting {
    pub fn of(study: &Study) -> Self {
        let still = |pair: &Pair| [vec![0; pair.costs.rows], vec![0; pair.costs.columns]];
        let moves = study.pairs.iter().map(still).collect();
        Self { study: study.clone(), shift: Shift { lifts: vec![0; study.trains.len()], moves } }
    }

    /// Moves an amount from a line of a pair's costs to the choice beside it, or back if negative.
    fn transfer(&mut self, number: usize, side: usize, choice: usize, amount: i64) {
        let pair = &mut self.study.pairs[number];
        pair.costs.take(side, choice, amount);
        self.study.trains[pair.trains[side]].put(choice, amount);
        self.shift.moves[number][side][choice] += amount;
    }

    /// Moves an amount from every choice of a train to the constant, or gives it back if negative.
    pub fn lift(&mut self, train: usize, amount: i64) {
        self.study.trains[train].take(0, 0, amount);
        self.study.constant += amount;
        self.shift.lifts[train] += amount;
    }

    /// Whether a forbidden choice gets or gives an amount.
    pub fn loses(&self) -> bool {
        self.study.pairs.iter().zip(&self.shift.moves).any(|(pair, sides)| {
            pair.trains.iter().zip(sides).any(|(&train, moves)| {
                let mut entries = self.study.trains[train].entries.iter().zip(moves);
                entries.any(|(entry, &amount)| entry.is_none() && amount != 0)
            })
        })
    }

    /// Moves an amount from every choice of a pair's train to every choice of the other.
    fn pass(&mut self, number: usize, side: usize, amount: i64) {
        let sizes = self.study.pairs[number].trains.map(|train| self.study.size(train));
        (0..sizes[side]).for_each(|choice| self.transfer(number, side, choice, -amount));
        (0..sizes[1 - side]).for_each(|choice| self.transfer(number, 1 - side, choice, amount));
    }

    /// Passes an amount through a pair and back through the constant: the study stays as it is, and the shift has
    /// these lifts and moves more.
    pub fn circle(&mut self, number: usize, side: usize, amount: i64) {
        let trains = self.study.pairs[number].trains;
        self.pass(number, side, amount);
        self.lift(trains[1 - side], amount);
        self.lift(trains[side], -amount);
    }

    /// One random move that leaves no permitted cost and no constant below 0.
    pub fn step(&mut self, random: &mut Random) {
        if self.study.pairs.is_empty() || random.chance(30) {
            return self.lift_step(random);
        }
        let number = random.below(self.study.pairs.len());
        let side = random.below(2);
        let Pair { trains, costs } = &self.study.pairs[number];
        let [train, other] = [side, 1 - side].map(|side| &self.study.trains[trains[side]]);
        let choice = random.below(train.columns);
        match random.below(3) {
            // From the pair to a choice.
            0 => {
                let amount = given(random, costs.least(side, choice), train.held(choice));
                self.transfer(number, side, choice, amount);
            }
            // From a choice to the pair.
            1 => {
                let amount = given(random, train.held(choice), costs.line_held(side, choice).max());
                self.transfer(number, side, choice, -amount);
            }
            // From every choice of this train to every choice of the other.
            _ => {
                let amount = given(random, train.least(0, 0), other.line_held(0, 0).max());
                self.pass(number, side, amount);
            }
        }
    }

    /// A part of the constant goes to every choice of a train.
    pub fn give_back(&mut self, random: &mut Random) {
        self.lift(random.below(self.study.trains.len()), -part(random, self.study.constant));
    }

    /// A part of the constant that is less than one step goes to every choice of a train.
    pub fn give_back_less(&mut self, random: &mut Random) {
        let parts = self.study.scale * steps::step(&self.study);
        let amount = random.between(0, (parts - 1).min(self.study.constant));
        self.lift(random.below(self.study.trains.len()), -amount);
    }

    /// A move between trains and the constant.
    fn lift_step(&mut self, random: &mut Random) {
        let [train, other] = [(); 2].map(|()| random.below(self.study.trains.len()));
        let amount = given(random, self.study.trains[train].least(0, 0), Some(self.study.constant));
        match random.below(4) {
            0 => self.give_back(random),
            // One train lifts what another gets: the lifts' sum is 0.
            1 => {
                self.lift(train, amount);
                self.lift(other, -amount);
            }
            _ => self.lift(train, amount),
        }
    }

    /// Raises what forbidden entries can raise, up to a level: each line of a pair beside a forbidden choice, and each
    /// choice beside a line of forbidden entries.
    pub fn flood(&mut self, level: i64) {
        for number in 0..self.study.pairs.len() {
            for side in 0..2 {
                let train = self.study.pairs[number].trains[side];
                for choice in 0..self.study.size(train) {
                    let costs = &self.study.pairs[number].costs;
                    let amount =
                        match (costs.line_held(side, choice).max(), self.study.trains[train].held(choice)) {
                            (Some(highest), None) => highest.min(level) - level,
                            (None, Some(cost)) => level - cost.min(level),
                            _ => 0,
                        };
                    self.transfer(number, side, choice, amount);
                }
            }
        }
    }

    /// Each train takes what its pairs can give, lifts, and shares the rest among its pairs; at the
    /// end each train takes and lifts. Many sweeps come near the greatest constant.
    pub fn sweep(&mut self) {
        for train in 0..self.study.trains.len() {
            let sides = self.take_and_lift(train);
            for choice in 0..self.study.size(train) {
                for (place, &(number, side)) in sides.iter().enumerate() {
                    let rest = self.study.trains[train].held(choice).unwrap_or(0);
                    self.transfer(number, side, choice, -rest / (sides.len() - place) as i64);
                }
            }
        }
        for train in 0..self.study.trains.len() {
            self.take_and_lift(train);
        }
    }

    /// Each permitted choice of a train takes what its pairs can give, then the train lifts. Gives the numbers of the
    /// train's pairs, each with the train's side.
    pub fn take_and_lift(&mut self, train: usize) -> Vec<(usize, usize)> {
        let place = |pair: &Pair| pair.trains.iter().position(|&member| member == train);
        let pairs = self.study.pairs.iter().enumerate();
        let sides: Vec<_> = pairs.filter_map(|(number, pair)| Some((number, place(pair)?))).collect();
        for &(number, side) in &sides {
            for choice in 0..self.study.size(train) {
                let least = self.study.pairs[number].costs.least(side, choice);
                let permitted = self.study.trains[train].held(choice).and(least);
                self.transfer(number, side, choice, permitted.unwrap_or(0));
            }
        }
        self.lift(train, self.study.trains[train].least(0, 0).unwrap_or(0));
        sides
    }
}

/// The whole amount or a random part of it.
fn part(random: &mut Random, amount: i64) -> i64 {
    if random.chance(50) {
        amount
    } else {
        random.between(0, amount)
    }
}

/// What is given by entries whose least permitted cost is this one, to numbers of which this is the highest. Where the
/// giving entries are all forbidden, it is little, or as much as brings the highest to L.
fn given(random: &mut Random, least: Option<i64>, highest: Option<i64>) -> i64 {
    let room = (TOP - highest.unwrap_or(0)).max(0);
    match least {
        Some(least) => part(random, least),
        None => random.pick(&[1, 5, 100, room / 2, room]).min(room),
    }
}
