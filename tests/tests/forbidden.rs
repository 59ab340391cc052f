//! The generator's reach among forbidden entries.

use reference::calls::{Call, Outcome, Setting};
use reference::generator::plain_sessions;
use reference::model::{decode, Cost, Costs, Study, BLOCK_LENGTH, FORBIDDEN, HELD_ENTRIES, TOP};
use seen::Seen;

mod seen;

impl Seen {
    /// Looks at a call, the block that it was given, and what it left.
    fn call(&mut self, call: &Call, given: &[i64], outcome: &Outcome) {
        if let Setting::Edited(edits) = &call.setting {
            self.block(edits, given);
        }
        let reply = outcome.reply();
        let Ok(Some(study)) = decode(given) else { return };
        match call.line.get(..2) {
            Some(b"01") => self.load(&call.line, reply, &outcome.block),
            _ if study.permits_all() => {}
            Some(b"02") => self.add(&study, &call.line, reply),
            Some(b"03") => self.shift(&study, &call.line, outcome),
            Some(b"04") if reply.starts_with(b"84") => self.tighten(&study),
            Some(b"08") if reply.starts_with(b"88") => self.round(&study),
            Some(b"05") => self.certify(&study, &call.line, reply),
            Some(b"06") => {
                self.count("search: ended", reply.starts_with(b"8601"));
                self.count("search: ended without a plan", reply.starts_with(b"8602"));
                self.count("search: spent", reply.starts_with(b"8600"));
            }
            Some(b"07") => self.count("save", reply.starts_with(b"01")),
            _ => {}
        }
    }

    /// Edits of c0 or of one entry.
    fn block(&mut self, edits: &[(usize, i64)], given: &[i64]) {
        let well_formed = decode(given).is_ok();
        self.count("block: −1 in c0", !well_formed && edits == [(3, FORBIDDEN)]);
        let [(loaded, _), rest @ ..] = edits else { return };
        let loaded = *loaded;
        let Some(held) = mate(loaded).filter(|&held| rest.iter().all(|&(place, _)| place == held)) else {
            return;
        };
        let mut mended = given.to_vec();
        [loaded, held].iter().for_each(|&place| mended[place] = 0);
        let Ok(Some(study)) = decode(&mended) else { return };
        let used = used(&study, loaded);
        let [one, other] = [given[loaded], given[held]].map(|number| number == FORBIDDEN);
        let in_h = loaded < 316 || (508..3_580).contains(&loaded);
        self.count("block: −1 in H only", !well_formed && used && one && !other && in_h);
        self.count("block: −1 in T only", !well_formed && used && one && !other && !in_h);
        self.count("block: −1 left in H or T only", !well_formed && used && given[loaded] == 0 && other);
        self.count("block: −1 in an unused place", !well_formed && !used && one);
        self.count("block: −2", !well_formed && used && given[loaded] == -2);
        self.count("block: −1 in both", well_formed && used && one && other && rest.len() == 1);
    }

    fn load(&mut self, line: &[u8], reply: &[u8], block: &[i64]) {
        let highest = line.windows(6).any(|field| field == b"FFFFFE");
        self.count("load: FFFFFE", reply == b"FF07" && highest);
        let (true, Ok(Some(study))) = (reply.starts_with(b"81"), decode(block)) else { return };
        let without = |costs: &Costs| costs.permitted().count() == 0;
        let empty = |side: usize| {
            study.pairs.iter().any(|pair| {
                let choices = study.size(pair.trains[side]);
                (0..choices).any(|choice| pair.costs.least(side, choice).is_none()) && !without(&pair.costs)
            })
        };
        let all: usize = study.tables().map(|costs| costs.entries.len()).sum();
        let forbidden = all - study.tables().flat_map(Costs::permitted).count();
        self.count("load: a few forbidden", forbidden > 0 && 10 * forbidden < all);
        self.count("load: many forbidden", 2 * forbidden > all);
        self.count("load: all forbidden", forbidden == all);
        self.count("load: a train without a permitted choice", study.trains.iter().any(without));
        self.count(
            "load: a pair without a permitted entry",
            study.pairs.iter().any(|pair| without(&pair.costs)),
        );
        self.count("load: a row without a permitted entry", empty(0));
        self.count("load: a column without a permitted entry", empty(1));
        let clique = study.trains.len() == 3 && study.pairs.len() == 3 && {
            let equal =
                |costs: &Costs| costs.entries.iter().map(Option::is_none).eq([true, false, false, true]);
            study.pairs.iter().all(|pair| equal(&pair.costs))
        };
        self.count("load: the clique", clique);
    }

    fn add(&mut self, study: &Study, line: &[u8], reply: &[u8]) {
        let Some(&[train, choice]) = numbers(line, 1, 0, 2).as_deref() else { return };
        let costs = study.trains.get(train as usize);
        if costs.and_then(|costs| costs.entries.get(choice as usize)).is_none_or(Option::is_some) {
            return;
        }
        assert!(reply != b"FF0A" && reply != b"FF0C", "10 or 12 at a forbidden choice");
        let points = numbers(line, 3, 2, 1).map(|numbers| numbers[0]);
        self.count("add: to a forbidden choice", reply.starts_with(b"82") && points > Some(0));
        self.count("add: too many points for a forbidden choice", reply == b"FF07");
    }

    fn shift(&mut self, study: &Study, line: &[u8], outcome: &Outcome) {
        if !outcome.reply().starts_with(b"83") {
            return;
        }
        let n = study.trains.len();
        let signed = |number: i64| number << 16 >> 16;
        let lifts = numbers(line, 6, 0, n).expect("accepted").into_iter().map(signed);
        let without = |costs: &Costs| costs.permitted().count() == 0;
        let lifted = study.trains.iter().zip(lifts).any(|(costs, lift)| without(costs) && lift > 0);
        self.count("shift: a train without a permitted choice is lifted", lifted);
        let mut place = 6 * n;
        for pair in &study.pairs {
            for (side, train) in pair.trains.into_iter().enumerate() {
                for choice in 0..study.size(train) {
                    let amount = signed(numbers(line, 6, place, 1).expect("accepted")[0]);
                    place += 6;
                    let permitted = study.trains[train].entries[choice].is_some();
                    let dead = pair.costs.least(side, choice).is_none();
                    self.count("shift: to a forbidden choice", !permitted && !dead && amount > 0);
                    self.count("shift: from a forbidden choice", !permitted && !dead && amount < 0);
                    self.count(
                        "shift: from a line without a permitted entry",
                        permitted && dead && amount > 0,
                    );
                    self.count("shift: to a line without a permitted entry", permitted && dead && amount < 0);
                }
            }
        }
        let ends = decode(&outcome.block).ok().flatten().expect("accepted");
        let count =
            |study: &Study| study.tables().flat_map(Costs::permitted).filter(|cost| cost.held == TOP).count();
        self.count("shift: an entry is brought to L", count(&ends) > count(study));
    }

    /// Rows come first, so that their leasts are those of the block.
    fn tighten(&mut self, study: &Study) {
        let lost = study.pairs.iter().any(|pair| {
            let choices = study.trains[pair.trains[0]].entries.iter().enumerate();
            let mut forbidden = choices.filter(|(_, entry)| entry.is_none());
            forbidden.any(|(choice, _)| pair.costs.least(0, choice) > Some(0))
        });
        self.count("tighten: a least is lost", lost);
    }

    fn round(&mut self, study: &Study) {
        let second = |wanted: fn(Option<i64>, Option<i64>) -> bool| {
            study.pairs.iter().any(|pair| {
                let costs = &study.trains[pair.trains[1]];
                (0..costs.columns).any(|choice| wanted(costs.held(choice), pair.costs.least(1, choice)))
            })
        };
        let lost = second(|cost, least| cost > Some(0) && least.is_none());
        self.count("round: a cost is lost on its column", lost);
        self.count("round: a cost isn't taken", second(|cost, least| cost.is_none() && least.is_some()));
    }

    fn certify(&mut self, study: &Study, line: &[u8], reply: &[u8]) {
        self.count("certify: reached", reply.starts_with(b"8501"));
        self.count("certify: not reached", reply.starts_with(b"8500"));
        self.count("certify: a weight on a forbidden entry", reply == b"FF12");
        let entries: Vec<_> = study.tables().flat_map(|costs| &costs.entries).collect();
        if let Some(weights) = numbers(line, 3, 3, entries.len()) {
            let heavy = weights.iter().zip(entries).any(|(&weight, entry)| weight > 0 && entry.is_none());
            self.count("certify: such a weight, and sums that disagree", heavy && reply == b"FF0E");
        }
    }
}

/// Numbers of a line, from a byte behind its kind on.
fn numbers(line: &[u8], width: usize, from: usize, count: usize) -> Option<Vec<i64>> {
    let digits = line.get(2 + 2 * from..2 + 2 * (from + width * count))?;
    let number = |digits: &[u8]| i64::from_str_radix(std::str::from_utf8(digits).ok()?, 16).ok();
    digits.chunks(2 * width).map(number).collect()
}

/// From a place of H to that of T, and back.
fn mate(place: usize) -> Option<usize> {
    match place {
        124..316 => Some(place + 192),
        316..508 => Some(place - 192),
        508..3_580 => Some(place + 3_072),
        _ if HELD_ENTRIES.contains(&place) => Some(place - 3_072),
        _ => None,
    }
}

/// Whether the study uses a place of H or T.
fn used(study: &Study, place: usize) -> bool {
    let mut study = study.clone();
    let ones = Some(Cost { loaded: 1, held: 1 });
    study.tables_mut().flat_map(|costs| &mut costs.entries).for_each(|entry| *entry = ones);
    let mut block = vec![0; BLOCK_LENGTH];
    study.encode(&mut block);
    block[place] == 1
}

#[test]
fn the_generator_reaches_forbidden_entries() {
    let mut seen = Seen::default();
    plain_sessions(600, |call, given, outcome| seen.call(call, given, outcome));
    seen.each_over(5);
}
