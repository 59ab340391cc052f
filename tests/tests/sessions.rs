//! The document's claims on sessions of small studies, saves, records and dearest studies on sessions of every size, and the
//! generator's reach.

use reference::claims::{check_session, Ceilings, Forbidden, Reasons, Tally};
use reference::dearest::Dearest;
use reference::generator::plain_sessions;
use reference::lines::{saved, MOVES};
use reference::literals::Literals;
use reference::model::{decode, Costs, Study, TOP};
use reference::multiples::Multiples;
use reference::operations;
use reference::orders::Orders;
use reference::saves::Saves;
use reference::stops::Stops;
use reference::taken::Taken;
use reference::LEAST_BUFFER;
use std::cmp::Ordering;
use std::collections::BTreeMap;
use std::mem::replace;

#[test]
fn the_claims_hold_by_every_plan() {
    let mut tally = Tally::default();
    for seed in 0..1_500 {
        if let Err(claim) = check_session(reference::answer, seed, 66, &mut tally) {
            panic!("{claim}");
        }
    }
    // Each claim was put to the test.
    assert!(tally.rounds > 1_000 && tally.settled > 500 && tally.settled_higher > 100, "{tally:?}");
    assert!(tally.bounds > 5_000 && tally.falls > 300, "{tally:?}");
    assert!(tally.ended > 500 && tally.spent_with_plan > 500 && tally.spent_without > 100, "{tally:?}");
    let Stops { met, forbidden, in_steps, fewer, with_tries_left, by_the_last, same } = tally.stops;
    assert!(met > 500 && forbidden > 50 && in_steps > 50 && fewer > 200 && same > 500, "{tally:?}");
    assert!(with_tries_left > 20 && by_the_last > 100, "{tally:?}");
    let Saves { loaded, rewritten, forbidden, given_back, of_clauses, ordered } = tally.saves;
    assert!(loaded > 500 && rewritten > 300 && forbidden > 200 && given_back > 500, "{tally:?}");
    assert!(ordered > 200, "{tally:?}");
    let Orders { lines, changes, loads, left, studies, plans, counts, saved, spent } = tally.orders;
    assert!(lines > 1_500 && changes > 800 && loads > 400 && left > 5_000, "{tally:?}");
    assert!(studies[0] > 2_000 && studies[1] > 600 && saved == studies[0] + studies[1], "{tally:?}");
    assert!(plans > 80 && counts > 4_000 && spent > 400, "{tally:?}");
    were_tested(&tally.taken);
    were_searched(&tally.dearest);
    let Literals { lines, differing, paired, added_up, weightless, on_fresh, over_forbidden } = tally.clauses;
    assert!(lines > 300 && of_clauses == lines && differing > 180 && paired > 170, "{tally:?}");
    assert!(added_up > 160 && weightless > 140 && on_fresh > 50 && over_forbidden > 90, "{tally:?}");
    let Reasons { neither, own, partner, tight, without_plan } = tally.reasons;
    assert!(neither > 500 && own > 500 && partner > 200, "{tally:?}");
    assert!(tight.iter().chain(&without_plan).all(|&count| count > 30), "{tally:?}");
    let Multiples { bounds, higher, forbidden, shown, stay } = tally.multiples;
    assert!(bounds > 10_000 && higher > 1_000 && forbidden > 400 && stay > 5_000, "{tally:?}");
    assert!(shown.iter().all(|&count| count > 10), "{tally:?}");
    assert!(tally.by_radio > 10_000, "{tally:?}");
    for (ceilings, least) in tally.ceilings.iter().zip([500, 100]) {
        let Ceilings { certificates, reached, better_rivals, tight_rivals, .. } = ceilings;
        assert!(*certificates > 2 * least && *reached > least, "{tally:?}");
        assert!(*better_rivals > least && *tight_rivals > least, "{tally:?}");
    }
    let Ceilings { rivals_by_loss, without_plan, .. } = tally.ceilings[1];
    assert!(rivals_by_loss > 200 && without_plan > 25, "{tally:?}");
    let Forbidden { calls, without_plan, adds, rounds, limits, ended, ended_without, spent_without_any } =
        tally.forbidden;
    assert!(calls > 5_000 && without_plan > 2_000 && adds > 100 && rounds > 500, "{tally:?}");
    assert!(limits.iter().all(|&limit| limit > 30), "{tally:?}");
    assert!(ended > 200 && ended_without > 200 && spent_without_any > 100, "{tally:?}");
}

/// Each claim about records was put to the test.
fn were_tested(taken: &Taken) {
    let Taken { written, ordered, forbidden, screens, screens_only, both, .. } = taken;
    assert!(*written > 500 && *ordered > 80 && *forbidden > 80, "{taken:?}");
    assert!(screens.iter().all(|&count| count > 500) && *screens_only > 300 && *both > 1_000, "{taken:?}");
    let Taken { shown, tight, lower, higher, barred, not_held, planners_refused, writes_refused, .. } = taken;
    assert!(shown.iter().all(|&count| count > 500) && tight.iter().all(|&count| count > 300), "{taken:?}");
    assert!(*lower > 40 && *higher > 15 && *barred > 150 && *not_held > 600, "{taken:?}");
    assert!(planners_refused.iter().all(|&count| count > 50) && *writes_refused > 150, "{taken:?}");
}

/// Each claim about dearest studies was put to the test.
fn were_searched(dearest: &Dearest) {
    let Dearest { lines, fresh, loaded, too_many, too_long, ended, spent, .. } = dearest;
    assert!(*lines > 250 && *fresh > 8 && *loaded > 200, "{dearest:?}");
    assert!(*too_many > 80 && *too_long > 80 && *ended > 800 && *spent > 300, "{dearest:?}");
    let Dearest { studies, clauses, forbidden, rewritten, as_many, searches, all_tried, .. } = dearest;
    assert!(*studies > 400 && *clauses > 20 && *forbidden > 70 && *rewritten > 200, "{dearest:?}");
    assert!(*as_many > 100 && searches.iter().chain(all_tried).all(|&count| count > 50), "{dearest:?}");
}

/// What is said of dearest studies, and of the number of tries of every search, on blocks that no line makes too.
#[test]
fn dearest_studies_hold_on_every_block() {
    let mut dearest = Dearest::default();
    for seed in 0..300 {
        if let Err(claim) = dearest.check_session(reference::answer, seed, 50) {
            panic!("{claim}");
        }
    }
    let Dearest { lines, fresh, loaded, too_many, too_long, ended, spent, searches, all_tried, .. } = dearest;
    assert!(lines > 20 && fresh > 0 && loaded > 15 && too_many > 5 && too_long > 5, "{dearest:?}");
    assert!(ended > 40 && spent > 15, "{dearest:?}");
    assert!(searches.iter().chain(&all_tried).all(|&count| count > 5), "{dearest:?}");
}

/// What is said of records on blocks that no line makes too, in buffers as long as a record.
#[test]
fn records_hold_on_every_block() {
    let mut taken = Taken::default();
    for seed in 0..80 {
        if let Err(claim) = taken.check_session(reference::answer, seed, 50) {
            panic!("{claim}");
        }
    }
    let Taken { written, long, ordered, forbidden, screens, blocks, .. } = taken;
    assert!(written > 1_000 && long > 100 && ordered > 300 && forbidden > 300, "{taken:?}");
    assert!(screens.iter().all(|&count| count > 50), "{taken:?}");
    assert!(blocks.iter().all(|&count| count > 400), "{taken:?}");
}

#[test]
fn saves_hold_on_every_block() {
    let mut saves = Saves::default();
    for seed in 0..80 {
        if let Err(claim) = saves.check_session(reference::answer, seed, 50) {
            panic!("{claim}");
        }
    }
    assert!(saves.loaded > 2_000 && saves.rewritten > 1_000 && saves.given_back > 100, "{saves:?}");
    assert!(saves.forbidden > 1_000 && saves.ordered > 400 && saves.of_clauses > 15, "{saves:?}");
}

/// Which buffers, none below the least, saves of loaded blocks come with.
#[derive(Default, Debug)]
struct SaveBuffers {
    /// Too short by one character or by more, and a line of kind 07 with bytes left over in such a buffer.
    short_by_one: usize,
    shorter: usize,
    left_over: usize,
    /// As long as the line, one longer, and longer still.
    just_fits: usize,
    longer_by_one: usize,
    longer: usize,
    /// Lines that the least buffer holds.
    least_holds: usize,
}

impl SaveBuffers {
    fn count(&mut self, line: &[u8], capacity: usize, length: usize, reply: &[u8]) {
        let count = match (line, capacity.cmp(&length)) {
            (b"07", Ordering::Less) if capacity + 1 == length => &mut self.short_by_one,
            (b"07", Ordering::Less) => &mut self.shorter,
            (_, Ordering::Less) if reply == b"FF05" => &mut self.left_over,
            (b"07", Ordering::Equal) => &mut self.just_fits,
            (b"07", Ordering::Greater) if capacity == length + 1 => &mut self.longer_by_one,
            (b"07", Ordering::Greater) if capacity == LEAST_BUFFER => &mut self.least_holds,
            (b"07", Ordering::Greater) => &mut self.longer,
            _ => return,
        };
        *count += 1;
    }
}

#[test]
fn the_generator_reaches_every_buffer_of_a_save() {
    let mut seen = SaveBuffers::default();
    plain_sessions(900, |call, _, outcome| {
        if call.line.starts_with(b"07") && call.capacity >= LEAST_BUFFER {
            if let Ok(Some(study)) = decode(&outcome.block) {
                let length = 2 * saved(&study).len();
                seen.count(&call.line, call.capacity, length, outcome.reply());
                // 17 comes late only to a save that is longer than its buffer.
                assert_eq!(outcome.written == 0, call.line == b"07" && call.capacity < length);
            }
        }
    });
    let SaveBuffers { short_by_one, shorter, left_over, just_fits, longer_by_one, longer, least_holds } =
        seen;
    let counts = [short_by_one, shorter, just_fits, longer_by_one, longer];
    assert!(counts.iter().all(|&count| count > 200) && left_over > 20 && least_holds > 20, "{seen:?}");
}

/// Which lifts the shifts of loaded blocks have.
#[derive(Default, Debug)]
struct Lifts {
    /// Accepted, a lift being the lowest there is, or the highest.
    lowest: usize,
    highest: usize,
    /// Refused, a lift being one below or one above these.
    lower: usize,
    higher: usize,
    /// Accepted, a lift being below 0: the constant falls, or stays.
    falls: usize,
    stays: usize,
    /// Refused since the constant would be below 0.
    overdrawn: usize,
}

impl Lifts {
    /// A shift's lifts, the block's constant before it, and the reply.
    fn count(&mut self, lifts: &[i64], constant: i64, reply: &[u8]) {
        let (low, high) = (*MOVES.start(), *MOVES.end());
        let sum: i64 = lifts.iter().sum();
        let has = |lift: i64| lifts.contains(&lift);
        let seen = |count: &mut usize, holds: bool| *count += usize::from(holds);
        match reply {
            b"FF0B" => {
                seen(&mut self.lower, has(low - 1));
                seen(&mut self.higher, has(high + 1));
            }
            b"FF0C" => seen(&mut self.overdrawn, sum == -constant - 1),
            [b'8', b'3', ..] => {
                seen(&mut self.lowest, has(low));
                seen(&mut self.highest, has(high));
                seen(&mut self.falls, sum < 0);
                seen(&mut self.stays, sum == 0 && lifts.iter().any(|&lift| lift < 0));
            }
            _ => {}
        }
    }
}

/// The lifts of a line of kind 03, where all are there.
fn lifts(line: &[u8], trains: usize) -> Option<Vec<i64>> {
    let digits = std::str::from_utf8(line.get(2..2 + 12 * trains)?).ok()?;
    let lift = |place: usize| Some(i64::from_str_radix(&digits[12 * place..][..12], 16).ok()? << 16 >> 16);
    (0..trains).map(lift).collect()
}

#[test]
fn the_generator_reaches_the_limits_of_lifts() {
    let mut seen = Lifts::default();
    plain_sessions(600, |call, given, outcome| {
        if let (b"03", Ok(Some(study))) = (&call.line[..call.line.len().min(2)], decode(given)) {
            if let Some(lifts) = lifts(&call.line, study.trains.len()) {
                seen.count(&lifts, study.constant, outcome.reply());
            }
        }
    });
    let Lifts { lowest, highest, lower, higher, falls, stays, overdrawn } = seen;
    let counts = [lowest, highest, lower, higher, falls, stays, overdrawn];
    assert!(counts.iter().all(|&count| count > 50), "{seen:?}");
}

/// Which studies rounds are made on.
#[derive(Default, Debug)]
struct Rounds {
    /// Accepted, with some pairs: each train has at most one partner of lower number; another forest; with a circle.
    branches: usize,
    forests: usize,
    circles: usize,
    /// Accepted, the constant being L at the end, or an entry being above L on the way.
    highest: usize,
    above: usize,
    /// Refused, the constant alone being one above L at the end; an entry being above L, but not the constant.
    constants: usize,
    entries: usize,
}

impl Rounds {
    fn count(&mut self, study: &Study, reply: &[u8]) {
        let mut end = study.clone();
        let judged = operations::round(&mut end);
        let seen = |count: &mut usize, holds: bool| *count += usize::from(holds);
        match reply {
            b"FF0C" => {
                seen(&mut self.entries, end.constant <= TOP);
                end.constant = TOP.max(end.constant - 1);
                seen(&mut self.constants, end.constant == TOP && end.judge().is_ok());
            }
            [b'8', b'8', ..] => {
                assert!(judged.is_ok());
                let shape = match (study.branches(), is_forest(study)) {
                    (true, _) => &mut self.branches,
                    (_, true) => &mut self.forests,
                    _ => &mut self.circles,
                };
                seen(shape, study.pairs.len() > 1);
                seen(&mut self.highest, end.constant == TOP);
                seen(&mut self.above, passes_top(study));
            }
            _ => {}
        }
    }
}

/// Whether no pair closes a circle.
fn is_forest(study: &Study) -> bool {
    let mut groups: Vec<usize> = (0..study.trains.len()).collect();
    study.pairs.iter().all(|pair| {
        let [one, other] = pair.trains.map(|train| groups[train]);
        groups.iter_mut().filter(|group| **group == other).for_each(|group| *group = one);
        one != other
    })
}

/// Whether an entry passes L when its pair, the first of its second train, takes what that train has at the
/// beginning.
fn passes_top(study: &Study) -> bool {
    let mut taken = vec![false; study.trains.len()];
    study.pairs.iter().any(|pair| {
        let train = pair.trains[1];
        let first = !replace(&mut taken[train], true);
        let passes = |costs: &Costs, cell: usize| {
            let taken = study.trains[train].held(cell % costs.columns)?;
            Some(costs.held(cell)? + taken > TOP)
        };
        first && (0..pair.costs.entries.len()).any(|cell| passes(&pair.costs, cell) == Some(true))
    })
}

#[test]
fn the_generator_reaches_every_round() {
    let mut seen = Rounds::default();
    plain_sessions(900, |call, given, outcome| {
        if let (b"08", Ok(Some(study))) = (&call.line[..], decode(given)) {
            seen.count(&study, outcome.reply());
        }
    });
    let Rounds { branches, forests, circles, highest, above, constants, entries } = seen;
    assert!([branches, forests, circles].iter().all(|&count| count > 50), "{seen:?}");
    assert!([highest, above, constants, entries].iter().all(|&count| count > 20), "{seen:?}");
}

/// The kinds, known and unknown, with their refusals.
const REFUSALS: [(&str, &[u8]); 17] = [
    ("01", &[1, 5, 6, 7, 8, 16]),
    ("02", &[1, 4, 5, 7, 9, 10, 12, 16]),
    ("03", &[1, 4, 5, 11, 12, 16]),
    ("04", &[1, 4, 5, 12, 16]),
    ("05", &[1, 4, 5, 13, 14, 16, 18]),
    ("06", &[1, 4, 5, 15, 16]),
    ("07", &[1, 4, 5, 16]),
    ("08", &[1, 4, 5, 12, 16]),
    ("09", &[1, 5, 6, 7, 10, 16, 19, 20]),
    ("0A", &[1, 4, 5, 9, 16]),
    ("0B", &[1, 4, 5, 16, 21]),
    ("0C", &[1, 4, 5, 16, 22]),
    ("0D", &[1, 4, 5, 16, 22, 23]),
    ("0E", &[1, 4, 5, 16, 22, 23]),
    ("0F", &[1, 5, 6, 16, 24]),
    ("00", &[2, 3]),
    ("10", &[3]),
];

#[test]
fn the_generator_reaches_every_answer() {
    let mut seen: BTreeMap<(String, String), usize> = BTreeMap::new();
    plain_sessions(600, |call, _, outcome| {
        let reply = String::from_utf8(outcome.reply().to_vec()).unwrap();
        let start = if reply.starts_with("FF") { 4 } else { 2 };
        let kind = String::from_utf8_lossy(&call.line[..call.line.len().min(2)]);
        let start = reply.chars().take(start).collect();
        *seen.entry((kind.into(), start)).or_default() += 1;
    });
    let often = |kind: &str, start: &str| {
        let count = seen.get(&(kind.into(), start.into())).copied().unwrap_or(0);
        assert!(count >= 3, "{start} for {kind:?}: {count}");
    };
    for (kind, numbers) in REFUSALS {
        numbers.iter().for_each(|number| often(kind, &format!("FF{number:02X}")));
        // "Kind 07 ... answers with a load line", and so does kind 0F.
        let shown = match kind {
            "00" | "10" => continue,
            "07" | "0F" => "01".into(),
            _ => kind.replacen('0', "8", 1),
        };
        often(kind, &shown);
        often(kind, "");
    }
}
