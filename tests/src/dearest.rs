//! Change 13: the dearest study of given sizes, and what is said of it, checked from the outside by loads and searches.

use crate::asked::{check_calls, reply, Asked};
use crate::calls::{Call, Setting};
use crate::claims::{accepted, demand, Reader};
use crate::clause_lines::{any_clauses, clause_fields};
use crate::clauses::Clauses;
use crate::dearest_lines::{size_fields, EXACT};
use crate::generator::{line_of, load_fields};
use crate::model::{self, Costs, Pair, Refusal, Study, BLOCK_LENGTH, FORBIDDEN, ORDER, TOP};
use crate::random::Random;
use crate::studies::{forbid, pairs, scale};
use crate::{Service, LEAST_BUFFER, LONGEST_REPLY};

/// "That sum exceeds 10,000,000" is 24.
pub const MOST_TRIES: u128 = 10_000_000;
/// The most tries of a study that is searched here, but for the one that has as many as there may be.
const MOST_SEARCHED: u128 = 20_000;

/// "The sum of the products of the first 1, 2, up to n sizes." Of 24 sizes of 8 it is below 2^73.
pub fn tries(sizes: &[usize]) -> u128 {
    let product = |count: usize| sizes[..count].iter().map(|&size| size as u128).product::<u128>();
    (1..=sizes.len()).map(product).sum()
}

/// The study that the line loads: "s = 1", no pairs, and the costs 0, but 1 for each choice of the last train. A choice of
/// another train comes to 0, which is below every plan's cost, and each plan costs 1, which no bound of 0 equals.
pub fn study(sizes: &[usize]) -> Result<Study, Refusal> {
    if tries(sizes) > MOST_TRIES {
        return Err(Refusal::Tries);
    }
    let costs = |(train, &size): (usize, &usize)| {
        let cost = i64::from(train + 1 == sizes.len());
        Costs::new(1, size, vec![Some(cost); size], 1)
    };
    Ok(Study::loaded(1, sizes.iter().enumerate().map(costs).collect(), Vec::new()))
}

/// How often dearest studies were put to the test.
#[derive(Default, Debug)]
pub struct Dearest {
    /// Accepted lines of kind 0F, those on a fresh block, and those on a block with a study.
    pub lines: usize,
    pub fresh: usize,
    pub loaded: usize,
    /// Lines that gave 24, and those whose reply their buffer doesn't hold.
    pub too_many: usize,
    pub too_long: usize,
    /// Searches of dearest studies that ended, and those that one try less spent.
    pub ended: usize,
    pub spent: usize,
    /// Other studies of the same sizes that were searched in the order of a load: those that clauses load, those with a
    /// forbidden entry, those with another T than a load's, and those that came to as many tries.
    pub studies: usize,
    pub clauses: usize,
    pub forbidden: usize,
    pub rewritten: usize,
    pub as_many: usize,
    /// All searches, in the order of a load and in another one, and those of them that made as many tries as sizes in that
    /// order can cause.
    pub searches: [usize; 2],
    pub all_tried: [usize; 2],
}

/// The sizes of a line of kind 0F that has them all.
fn sizes_of(line: &[u8]) -> Vec<usize> {
    let numbers = Reader(&line[4..]).numbers(1, line.len() / 2 - 2);
    numbers.into_iter().map(|size| size as usize).collect()
}

/// The block that an accepted load, or line of clauses, leaves of this one.
fn load(service: Service, line: &[u8], block: &[i64]) -> Option<Vec<i64>> {
    let mut after = block.to_vec();
    let call = Call { capacity: LEAST_BUFFER, setting: Setting::AsLeft, line: line.to_vec() };
    let outcome = call.run(service, &mut after);
    accepted(outcome.reply()).then_some(after)
}

/// The flag and the count of a search with this budget.
fn search(service: Service, block: &[i64], budget: u128) -> Result<(i64, u128), String> {
    let line = line_of(&vec![(1, 6), (4, budget as i64)]);
    let shown = reply(service, &line, block, LEAST_BUFFER)?;
    demand(shown.starts_with(b"86"), "a search is refused")?;
    Ok(flag_and_count(&shown))
}

fn flag_and_count(shown: &[u8]) -> (i64, u128) {
    let mut fields = Reader(&shown[2..]);
    (fields.number(1), fields.number(4) as u128)
}

/// Some study of these sizes: any pairs and costs, some perhaps forbidden.
fn any_study(random: &mut Random, sizes: &[usize]) -> Study {
    let scale = scale(random);
    let top = random.pick(&[0, 1, 1, 3, 10, 1_000_000]);
    let costs = |random: &mut Random, rows: usize, columns: usize| {
        let loaded = (0..rows * columns).map(|_| Some(random.between(0, top))).collect();
        Costs::new(rows, columns, loaded, scale)
    };
    let trains = sizes.iter().map(|&size| costs(random, 1, size)).collect();
    let keys = match random.chance(40) {
        true => Vec::new(),
        false => pairs(random, sizes.len(), false),
    };
    let pair = |[i, j]: [usize; 2]| Pair { trains: [i, j], costs: costs(random, sizes[i], sizes[j]) };
    let mut study = Study::loaded(scale, trains, keys.into_iter().map(pair).collect());
    (0..random.pick(&[0, 0, 1])).for_each(|_| forbid(random, &mut study));
    study
}

/// Gives the block's study a T and a c0 that have nothing to do with H.
fn rewrite(random: &mut Random, block: &mut [i64]) {
    let Ok(Some(mut study)) = model::decode(block) else { return };
    let held = random.pick(&[&[0, 1][..], &[0, 0, 0, 1, 5], &[0, TOP / 2, TOP]]);
    study.tables_mut().flat_map(Costs::permitted_mut).for_each(|cost| cost.held = random.pick(held));
    study.constant = random.pick(held);
    study.encode(block);
}

impl Dearest {
    /// A line and its reply, on any block: each line of kind 0F, and each search.
    pub(crate) fn check_asked(&mut self, asked: &Asked, random: &mut Random) -> Result<(), String> {
        let Asked { block, capacity, line, reply: shown, .. } = *asked;
        match (line.get(..2), shown) {
            (Some(b"0F"), [b'0', b'1', ..]) => self.check_line(asked, random),
            (Some(b"0F"), b"FF18") => {
                self.too_many += 1;
                demand(tries(&sizes_of(line)) > MOST_TRIES, "24 of sizes whose tries don't exceed the limit")
            }
            (Some(b"0F"), []) if capacity >= LEAST_BUFFER => {
                self.too_long += 1;
                let longer = asked.reply(line, LONGEST_REPLY)?;
                demand(accepted(&longer) && longer.len() > asked.room(), "17 of a line that the buffer holds")
            }
            (_, [b'8', b'6', ..]) => self.check_count(block, shown),
            _ => Ok(()),
        }
    }

    /// "As any study of those sizes, searched in loaded order, can cause", and in another order as the sizes in that order.
    fn check_count(&mut self, block: &[i64], shown: &[u8]) -> Result<(), String> {
        let order = &block[ORDER][..block[0] as usize];
        let sizes: Vec<usize> = order.iter().map(|&train| block[4 + train as usize] as usize).collect();
        let (_, count) = flag_and_count(shown);
        let place = usize::from(!order.is_sorted());
        self.searches[place] += 1;
        self.all_tried[place] += usize::from(count == tries(&sizes));
        demand(count <= tries(&sizes), "a search tries more choices than a study of its sizes can cause")
    }

    /// The reply to an accepted line of kind 0F loads everywhere; its search "with enough budget" counts "the sum of the
    /// products", with a try less it is spent; and no other study of the sizes, searched in the order of a load, counts more.
    fn check_line(&mut self, asked: &Asked, random: &mut Random) -> Result<(), String> {
        let Asked { service, block, line, reply: shown, .. } = *asked;
        let sizes = sizes_of(line);
        let most = tries(&sizes);
        self.lines += 1;
        self.fresh += usize::from(block[0] == 0);
        self.loaded += usize::from(block[0] > 0);
        demand(most <= MOST_TRIES, "a line of too many tries is accepted")?;
        check_damaged(asked, random)?;
        for before in [&[0; BLOCK_LENGTH], block] {
            check_equal(asked, before)?;
            let after = load(service, shown, before).ok_or("a dearest study isn't loaded")?;
            let n = sizes.len() as i64;
            let given = sizes.iter().map(|&size| size as i64).chain((n..24).map(|_| 0));
            let right = after[..2] == [n, 1] && after[4..28].iter().copied().eq(given);
            demand(right, "a dearest study has other sizes, or its s isn't 1")?;
            if most <= MOST_SEARCHED {
                self.check_searches(service, &after, most)?;
            }
        }
        if most <= MOST_SEARCHED {
            (0..3).try_for_each(|_| self.check_other(service, &sizes, random))?;
        }
        Ok(())
    }

    /// "Whose search straight after loading, with enough budget, tries as many".
    fn check_searches(&mut self, service: Service, block: &[i64], most: u128) -> Result<(), String> {
        for budget in [most, most + 1, MOST_TRIES] {
            let ended = search(service, block, budget)? == (1, most);
            demand(ended, "a dearest study's search tries fewer or more")?;
            self.ended += 1;
        }
        if most > 1 {
            let spent = search(service, block, most - 1)? == (0, most - 1);
            demand(spent, "a try less is enough for a dearest study")?;
            self.spent += 1;
        }
        Ok(())
    }

    /// "As any study of those sizes, searched in loaded order, can cause": one that a line loads, as it is or with another T.
    fn check_other(&mut self, service: Service, sizes: &[usize], random: &mut Random) -> Result<(), String> {
        let n = sizes.len();
        let fresh = [0; BLOCK_LENGTH];
        let twos = sizes.iter().all(|&size| size == 2) && random.chance(50);
        let by_clauses = twos.then(|| {
            let clauses = Clauses { trains: n, scale: scale(random), list: any_clauses(random, n) };
            load(service, &line_of(&clause_fields(&clauses)), &fresh)
        });
        self.clauses += usize::from(matches!(by_clauses, Some(Some(_))));
        let loaded = match by_clauses.flatten() {
            Some(block) => Some(block),
            None => load(service, &line_of(&load_fields(&any_study(random, sizes))), &fresh),
        };
        let mut block = loaded.ok_or("a study isn't loaded")?;
        let rewritten = random.chance(50);
        if rewritten {
            rewrite(random, &mut block);
        }
        let (_, count) = search(service, &block, MOST_TRIES)?;
        self.studies += 1;
        self.forbidden += usize::from(block.contains(&FORBIDDEN));
        self.rewritten += usize::from(rewritten);
        self.as_many += usize::from(count == tries(sizes));
        demand(count <= tries(sizes), "a study of these sizes causes more tries than the dearest")
    }

    /// The line of these sizes on a fresh block. It must be accepted.
    pub fn check_sizes(
        &mut self,
        service: Service,
        sizes: &[usize],
        random: &mut Random,
    ) -> Result<(), String> {
        let line = line_of(&size_fields(sizes));
        let block = &[0; BLOCK_LENGTH];
        let shown = reply(service, &line, block, LONGEST_REPLY)?;
        demand(accepted(&shown), "a line of kind 0F is declined")?;
        let capacity = LONGEST_REPLY;
        let asked = Asked { service, block, capacity, by_radio: false, line: &line, reply: &shown };
        self.check_line(&asked, random)
    }

    /// As many tries as there may be: the highest budget is just enough. A train of one choice more, in front or behind, is 24.
    pub fn check_limit(&mut self, service: Service) -> Result<(), String> {
        let fresh = [0; BLOCK_LENGTH];
        let shown = reply(service, &line_of(&size_fields(&EXACT)), &fresh, LONGEST_REPLY)?;
        let block = load(service, &shown, &fresh).ok_or("the dearest study of the limit isn't loaded")?;
        let ended = search(service, &block, MOST_TRIES)? == (1, MOST_TRIES);
        let spent = search(service, &block, MOST_TRIES - 1)? == (0, MOST_TRIES - 1);
        self.ended += 1;
        self.spent += 1;
        demand(ended && spent, "the dearest study of the limit has another count")?;
        [[&[1], &EXACT[..]], [&EXACT, &[1]]].into_iter().try_for_each(|sizes| {
            let line = line_of(&size_fields(&sizes.concat()));
            let refused = reply(service, &line, &fresh, LEAST_BUFFER)? == b"FF18";
            demand(refused, "more tries than the limit allows are accepted")
        })
    }

    /// One session over studies of every size and blocks that no line makes: each line of kind 0F, and each search.
    pub fn check_session(&mut self, service: Service, seed: u64, calls: usize) -> Result<(), String> {
        check_calls(service, seed, calls, "dearest studies", |asked, _, random| {
            self.check_asked(asked, random)
        })
    }
}

/// "Equal sizes get equal lines", on this block too and in every buffer that holds the line. The block stays.
fn check_equal(asked: &Asked, block: &[i64]) -> Result<(), String> {
    let Asked { service, line, reply: shown, .. } = *asked;
    let least = shown.len().max(LEAST_BUFFER);
    for (capacity, expected) in [(least, shown), (least - 1, &[]), (LONGEST_REPLY, shown)] {
        let same = reply(service, line, block, capacity)? == expected;
        demand(same, "equal sizes get another line")?;
    }
    Ok(())
}

/// "Of the block only 16 is judged": a number of its head below 0, and a number less.
fn check_damaged(asked: &Asked, random: &mut Random) -> Result<(), String> {
    let Asked { service, block, line, .. } = *asked;
    let mut damaged = block.to_vec();
    damaged[random.below(4)] = -1;
    for block in [&damaged[..], &block[1..]] {
        let refused = reply(service, line, block, LONGEST_REPLY)? == b"FF10";
        demand(refused, "a dearest study is shown on a block that isn't well formed")?;
    }
    Ok(())
}
