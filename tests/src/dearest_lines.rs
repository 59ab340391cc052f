//! Lines of kind 0F of the generator: sizes on both sides of 10,000,000 tries, and each damage.

use crate::dearest::{self, tries, MOST_TRIES};
use crate::generator::Fields;
use crate::lines;
use crate::model::Study;
use crate::random::Random;

/// Sizes whose tries are 10,000,000 exactly. A train of one choice in front adds a try, and one behind adds the last product.
pub const EXACT: [usize; 13] = [8, 1, 6, 6, 1, 8, 1, 6, 2, 8, 4, 5, 1];
const MOST_TRAINS: usize = 24;
const MOST_CHOICES: usize = 8;
/// A study of the generator that is to be searched has no more tries.
const FEW_TRIES: u128 = 20_000;

/// The fields of a line of kind 0F.
pub fn size_fields(sizes: &[usize]) -> Fields {
    let sizes = sizes.iter().map(|&size| (1, size as i64));
    [(1, 15), (1, sizes.len() as i64)].into_iter().chain(sizes).collect()
}

/// How many characters the reply to this line has, if it is an accepted one of kind 0F.
pub fn length(line: &[u8]) -> Option<usize> {
    let (_, fields) = lines::open(line).ok()?;
    let study = dearest::study(&lines::sizes(fields).ok()?).ok()?;
    Some(2 * lines::saved(&study).len())
}

/// How many tries a search of the study makes, if it is the dearest of its sizes, as its load leaves it, and they are few.
pub fn few_tries(held: &Study) -> Option<i64> {
    let sizes: Vec<usize> = held.trains.iter().map(|costs| costs.columns).collect();
    let few = Some(tries(&sizes)).filter(|&tries| tries <= FEW_TRIES)?;
    let dearest = dearest::study(&sizes).ok().as_ref() == Some(held);
    dearest.then_some(few as i64)
}

/// The fields of a line of kind 0F, now and then of one that is refused.
pub fn any_fields(random: &mut Random) -> Fields {
    let mut fields = size_fields(&any_sizes(random));
    let last = fields.len() - 1;
    match random.below(12) {
        // A size, or how many there are, outside its range.
        0 => fields[2 + random.below(last - 1)].1 = random.pick(&[0, 9, 255]),
        1 => fields[1].1 = random.pick(&[0, 25, 255]),
        // A size less or more.
        2 => drop(fields.pop()),
        3 => fields.push((1, random.pick(&[0, 1, 9]))),
        _ => {}
    }
    fields
}

/// Sizes: few tries, any, as many as there may be and their neighbours, and the longest lines.
pub fn any_sizes(random: &mut Random) -> Vec<usize> {
    match random.below(10) {
        0..=2 => {
            let n = 1 + random.below(6);
            (0..n).map(|_| 1 + random.below(4)).collect()
        }
        3 | 4 => beside_limit(random),
        5 => grown(random),
        6 => vec![MOST_CHOICES; random.pick(&[1, 6, 7, 8, MOST_TRAINS])],
        7 => {
            let n = 1 + random.below(MOST_TRAINS);
            vec![random.pick(&[1, 2]); random.pick(&[n, n, MOST_TRAINS])]
        }
        8 => {
            // The longest line that is taken, and the same sizes turned, which are too many.
            let mut sizes = [vec![1; 16], vec![4], vec![MOST_CHOICES; 7]].concat();
            if random.chance(50) {
                sizes.reverse();
            }
            sizes
        }
        _ => {
            let n = 1 + random.below(MOST_TRAINS);
            (0..n).map(|_| 1 + random.below(MOST_CHOICES)).collect()
        }
    }
}

/// The exact sizes, or these with a train more in front, two neighbours swapped, or a size one lower or higher.
fn beside_limit(random: &mut Random) -> Vec<usize> {
    let mut sizes = EXACT.to_vec();
    let place = random.below(sizes.len());
    match random.below(6) {
        0 | 1 => {}
        2 => sizes.insert(0, 1),
        3 => sizes.swap(place, (place + 1) % EXACT.len()),
        4 => sizes[place] = (sizes[place] + 1).min(MOST_CHOICES),
        _ => sizes[place] = (sizes[place] - 1).max(1),
    }
    sizes
}

/// Sizes that grow by a train at a time as far as the limit, and perhaps by the one that goes past it.
fn grown(random: &mut Random) -> Vec<usize> {
    let past = random.chance(50);
    let most = random.pick(&[2, 3, MOST_CHOICES]);
    let mut sizes = vec![1 + random.below(MOST_CHOICES)];
    while sizes.len() < MOST_TRAINS {
        sizes.push(1 + random.below(most));
        if tries(&sizes) > MOST_TRIES {
            if !past {
                sizes.pop();
            }
            break;
        }
    }
    sizes
}
