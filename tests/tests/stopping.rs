//! Change 6 on every block: what stopping at the bound leaves as it is, and the generator's reach.

use reference::calls::{Call, Outcome, Setting};
use reference::generator::plain_sessions;
use reference::model::{decode, Study};
use reference::search::{walk, Best, End, Walk};
use seen::Seen;

mod seen;

/// A search with the rule, and document 01's walk with the same budget.
struct Both {
    study: Study,
    budget: i64,
    stopping: Walk,
    document: Walk,
}

impl Both {
    /// Of an accepted search.
    fn of(call: &Call, given: &[i64], outcome: &Outcome) -> Option<Self> {
        let searched = call.line.starts_with(b"06") && outcome.reply().starts_with(b"86");
        let study = decode(given).ok().flatten().filter(|_| searched)?;
        let budget = i64::from_str_radix(std::str::from_utf8(&call.line[2..]).ok()?, 16).ok()?;
        let [stopping, document] = [Some(study.bound()), None].map(|bound| walk(&study, budget, bound));
        Some(Self { study, budget, stopping, document })
    }

    fn costs(&self) -> [Option<i64>; 2] {
        let cost = |best: &Best| self.study.points(best.total);
        [&self.stopping, &self.document].map(|walk| walk.best.as_ref().map(cost))
    }

    fn totals(&self) -> [Option<i64>; 2] {
        [&self.stopping, &self.document].map(|walk| walk.best.as_ref().map(|best| best.total))
    }

    /// Where no best meets the bound, total, count and end are those of document 01's walk. Where one does, the cost is, if
    /// the bound is the constant in points. In steps of the tariff (change 9) the bound may be above it, and pass a plan's
    /// cost on blocks that no line makes: "an ended plan may be beaten" there.
    fn check(&self) {
        let Both { study, stopping, document, .. } = self;
        let [cost, old] = self.costs();
        let in_steps = study.bound() > study.points(study.constant);
        assert_eq!(stopping.end == End::Bound, cost == Some(study.bound()));
        if stopping.end == End::Bound {
            assert!(old == cost || in_steps && (Some(0)..cost).contains(&old));
            assert_eq!(stopping.best.as_ref().map(|best| best.found), Some(stopping.count));
            assert!(stopping.count <= document.count);
        } else {
            let [total, old] = self.totals();
            assert_eq!((total, stopping.count, stopping.end), (old, document.count, document.end));
        }
    }

    /// Counts the search, made behind an accepted line whose reply begins so, the block being as that line left it.
    fn count(&self, after: &str, seen: &mut Seen) {
        let Both { study, budget, stopping: Walk { end, count, best }, document } = self;
        let bound = *end == End::Bound;
        let spent = *end == End::Spent;
        seen.count("spent with a plan", spent && best.is_some());
        seen.count("spent without a plan", spent && best.is_none());
        seen.count("all tried, with a plan", *end == End::Tried && best.is_some());
        seen.count("all tried, without a plan", *end == End::Tried && best.is_none());
        seen.count("all tried by the last try", *end == End::Tried && count == budget);
        seen.count("bound", bound);
        seen.count("bound above 0", bound && study.constant > 0);
        seen.count("bound, with a forbidden entry", bound && !study.permits_all());
        seen.count("bound, by a plan that isn't the first", bound && *count > study.trains.len() as i64);
        seen.count(
            "bound, ended with more tries before",
            bound && document.end == End::Tried && *count < document.count,
        );
        seen.count(
            "bound, spent with more tries before",
            bound && document.end == End::Spent && count < budget,
        );
        let [total, lower] = self.totals();
        seen.count("bound, by a total that is above the constant", bound && total > Some(study.constant));
        seen.count("bound, by a total that another plan's is below", bound && total > lower);
        let next = spent && walk(study, budget + 1, Some(study.bound())).end == End::Bound;
        for line in ["83", "84", "88"] {
            let behind = after == line && study.constant > 0;
            seen.count(format!("bound by the last try, behind {line}"), behind && bound && count == budget);
            seen.count(format!("spent one try before the bound, behind {line}"), behind && next);
        }
    }
}

#[test]
fn searches_stop_at_the_bound() {
    let mut seen = Seen::default();
    let mut after = String::new();
    plain_sessions(1_600, |call, given, outcome| {
        if matches!(call.setting, Setting::Edited(_)) {
            after.clear();
        }
        if let Some(both) = Both::of(call, given, outcome) {
            both.check();
            both.count(&after, &mut seen);
        }
        // Certificates, searches, saves and refused lines leave the block.
        let start = String::from_utf8_lossy(&outcome.reply()[..outcome.written.min(2)]).into_owned();
        if ["81", "82", "83", "84", "88"].contains(&start.as_str()) {
            after = start;
        }
    });
    seen.each_over(5);
}
