//! The highest constant that a shift can reach, and weights that show it: the linear programme of source document 000,
//! solved by the simplex method in whole numbers over one denominator.

use crate::model::{Costs, Pair, Study};
use crate::operations::{Certificate, Shift};
use crate::random::Random;

/// A shift to the highest constant, where one of whole parts was found, and weights that reach it.
pub struct Highest {
    pub shift: Option<Shift>,
    pub weights: Certificate,
}

/// One inequality for each permitted entry: what is taken off it is at most what stands there. Behind the amounts, each
/// once above and once below 0, stand what is left of each entry, and the right side. The last row is the sum of lifts.
struct Tableau {
    rows: Vec<Vec<i64>>,
    /// The variable of each row but the last.
    basis: Vec<usize>,
    denominator: i64,
}

impl Tableau {
    fn new(inequalities: &[(Vec<(usize, i64)>, i64)], amounts: usize, lifts: usize) -> Self {
        let count = inequalities.len();
        let width = 2 * amounts + count + 1;
        let row = |(number, (taken, held)): (usize, &(Vec<(usize, i64)>, i64))| {
            let mut row = vec![0; width];
            for &(amount, factor) in taken {
                row[amount] = factor;
                row[amounts + amount] = -factor;
            }
            row[2 * amounts + number] = 1;
            row[width - 1] = *held;
            row
        };
        let mut rows: Vec<Vec<i64>> = inequalities.iter().enumerate().map(row).collect();
        let mut sum = vec![0; width];
        sum[..lifts].fill(-1);
        sum[amounts..][..lifts].fill(1);
        rows.push(sum);
        Self { rows, basis: (2 * amounts..2 * amounts + count).collect(), denominator: 1 }
    }

    /// Every row is made free of the column but this one, whose number there becomes the denominator.
    fn pivot(&mut self, row: usize, column: usize) {
        let pivot = self.rows[row].clone();
        let by = pivot[column];
        for (number, other) in self.rows.iter_mut().enumerate() {
            let factor = other[column];
            if number != row && (factor != 0 || by != self.denominator) {
                for (entry, &taken) in other.iter_mut().zip(&pivot) {
                    *entry = (*entry * by - factor * taken) / self.denominator;
                }
            }
        }
        self.denominator = by;
        self.basis[row] = column;
    }

    /// The first variable of the order that raises the sum enters, the first of the order that bounds it leaves: so no
    /// basis comes twice. Whether the sum has a highest value.
    fn solve(&mut self, order: &[usize]) -> bool {
        let mut place = vec![0; order.len()];
        order.iter().enumerate().for_each(|(at, &variable)| place[variable] = at);
        let right = order.len();
        while let Some(&column) = order.iter().find(|&&column| self.rows[self.basis.len()][column] < 0) {
            let bounding = (0..self.basis.len()).filter(|&row| self.rows[row][column] > 0);
            let leaving = bounding.min_by(|&row, &other| {
                let [[a, b], [c, d]] = [row, other].map(|row| [right, column].map(|at| self.rows[row][at]));
                (a * d).cmp(&(c * b)).then(place[self.basis[row]].cmp(&place[self.basis[other]]))
            });
            let Some(row) = leaving else { return false };
            self.pivot(row, column);
        }
        true
    }

    /// A variable's value, times the denominator.
    fn value(&self, variable: usize) -> i64 {
        let row = self.basis.iter().position(|&member| member == variable);
        row.map_or(0, |row| *self.rows[row].last().expect("a right side"))
    }
}

/// Where the amounts of a study stand: lifts by train, then by pair the moves of its first and of its second train.
struct Amounts {
    lifts: usize,
    /// By pair and side, the first.
    moves: Vec<[usize; 2]>,
    count: usize,
}

impl Amounts {
    fn of(study: &Study) -> Self {
        let lifts = study.trains.len();
        let mut count = lifts;
        let mut side = |size: usize| {
            count += size;
            count - size
        };
        let pair = |Pair { costs, .. }: &Pair| [costs.rows, costs.columns].map(&mut side);
        let moves = study.pairs.iter().map(pair).collect();
        Self { lifts, moves, count }
    }

    /// What is taken off each permitted entry, and what stands there, in the order of weights.
    fn inequalities(&self, study: &Study) -> Vec<(Vec<(usize, i64)>, i64)> {
        let mut all = Vec::new();
        for (train, costs) in study.trains.iter().enumerate() {
            for choice in 0..costs.columns {
                let Some(held) = costs.held(choice) else { continue };
                let mut taken = vec![(train, 1)];
                for (pair, from) in study.pairs.iter().zip(&self.moves) {
                    let sides = (0..2).filter(|&side| pair.trains[side] == train);
                    taken.extend(sides.map(|side| (from[side] + choice, -1)));
                }
                all.push((taken, held));
            }
        }
        for (Pair { costs, .. }, [first, second]) in study.pairs.iter().zip(&self.moves) {
            for cell in 0..costs.entries.len() {
                let taken = vec![(first + cell / costs.columns, 1), (second + cell % costs.columns, 1)];
                all.extend(costs.held(cell).map(|held| (taken, held)));
            }
        }
        all
    }
}

impl Amounts {
    /// The lifts and moves that were found, where all are whole.
    fn shift(&self, study: &Study, tableau: &Tableau) -> Option<Shift> {
        let found = |amount: usize| tableau.value(amount) - tableau.value(self.count + amount);
        let whole = |from: usize, count: usize| -> Option<Vec<i64>> {
            let part = |amount: usize| {
                (found(amount) % tableau.denominator == 0).then(|| found(amount) / tableau.denominator)
            };
            (from..from + count).map(part).collect()
        };
        let pair = |(Pair { costs, .. }, [first, second]): (&Pair, &[usize; 2])| {
            Some([whole(*first, costs.rows)?, whole(*second, costs.columns)?])
        };
        let moves = study.pairs.iter().zip(&self.moves).map(pair).collect::<Option<_>>()?;
        Some(Shift { lifts: whole(0, self.lifts)?, moves })
    }
}

/// What a part more at each permitted entry would raise the sum by, over the denominator: these are weights that reach it.
fn weights(study: &Study, prices: &[i64], denominator: i64) -> Certificate {
    let common = prices.iter().fold(denominator, |common, &price| greatest_divisor(common, price));
    let mut prices = prices.iter().map(|price| price / common);
    let mut table = |costs: &Costs| -> Vec<i64> {
        let weight = |entry: &Option<_>| entry.as_ref().map_or(0, |_| prices.next().expect("a price"));
        costs.entries.iter().map(weight).collect()
    };
    let single = study.trains.iter().map(&mut table).collect();
    let joint = study.pairs.iter().map(|pair| table(&pair.costs)).collect();
    Certificate { whole: denominator / common, single, joint }
}

fn greatest_divisor(a: i64, b: i64) -> i64 {
    if b == 0 {
        a
    } else {
        greatest_divisor(b, a % b)
    }
}

/// From the study as it is held, in an order of variables that the random numbers decide; `None` where the constant has no
/// highest value: then no weights agree and spare what is forbidden.
pub fn highest(random: &mut Random, study: &Study) -> Option<Highest> {
    let amounts = Amounts::of(study);
    let inequalities = amounts.inequalities(study);
    let mut tableau = Tableau::new(&inequalities, amounts.count, amounts.lifts);
    let mut order: Vec<usize> = (0..2 * amounts.count + inequalities.len()).collect();
    random.shuffle(&mut order);
    tableau.solve(&order).then(|| {
        let prices = &tableau.rows[inequalities.len()][2 * amounts.count..][..inequalities.len()];
        Highest {
            shift: amounts.shift(study, &tableau),
            weights: weights(study, prices, tableau.denominator),
        }
    })
}
