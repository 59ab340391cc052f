//! Change 9: bounds in steps of the tariff, by the document, and the generator's reach among them.

use reference::calls::{Call, Outcome, Setting};
use reference::generator::plain_sessions;
use reference::model::{decode, Costs, Study, BLOCK_LENGTH, HELD_ENTRIES, TOP};
use reference::search::{walk, Best, End};
use reference::steps::step;
use reference::LEAST_BUFFER;
use seen::Seen;
use session::{last, replies};
use std::ops::Range;

mod seen;
mod session;

const J: &str = "010200010202000002000000000000000000010001000001000000000003000002";
/// One train whose choices cost 15 and 20, and a shift after which the constant is 11.
const T: &str = "010100010200000F00001400";
const ELEVEN: &str = "0300000000000B";
/// Two trains of one choice, which cost 6 and 9, and a shift after which the constant is 4.
const TWO: &str = "01020001010100000600000900";
const FOUR: &str = "03000000000004000000000000";
/// One train of a forbidden choice and one that costs 10, and a shift after which the constant is 7.
const F: &str = "0101000102FFFFFF00000A00";
const SEVEN: &str = "03000000000007";
const FIVES: &str = "010100010200000500000500";
const SEARCH: &str = "0600000009";

/// The reply to a line on the block that a load leaves, these of its places having these values.
fn placed(load: &str, edits: &str, line: &str) -> String {
    let mut block = vec![0; BLOCK_LENGTH];
    reference::answer(load.as_bytes(), &mut block, &mut [0; LEAST_BUFFER]);
    let call = Call::parse(format!("{LEAST_BUFFER} {edits} {line}").as_bytes()).unwrap();
    String::from_utf8(call.run(reference::answer, &mut block).reply().to_vec()).unwrap()
}

#[test]
fn fixed_replies() {
    let pair = "010200010202000006000006000006000006010001000004000004000004000004";
    let lift = format!("03000000000003{}", "0".repeat(60));
    let zeros = format!("84{}", "0".repeat(24));
    for (lines, reply) in [
        // "A bound of 11 already means 15", and the first plan costs it.
        (&[T, ELEVEN][..], "8300000000000B00000000000F"),
        (&[T, ELEVEN, SEARCH], "86010000000100000000000F00"),
        // "Additions included": 16 and 20.
        (&[T, ELEVEN, "020000000001"], "8200000000000B00000000000C"),
        (&[T, ELEVEN, "020000000001", SEARCH], "86010000000200000000001000"),
        (&[TWO, FOUR], "83000000000004000000000006"),
        (&[TWO, FOUR, "020000000001"], "82000000000004000000000004"),
        // "All loaded costs": those of pairs count.
        (&[pair, &lift], "83000000000003000000000004"),
        // "Forbidden entries left out."
        (
            &["010200010202FFFFFF00000A00000F00000A00", "03000000000000000000000007"],
            "8300000000000700000000000A",
        ),
        (&[F, SEVEN, "020000000003"], "8200000000000700000000000A"),
        (&[F, SEVEN, "020000000003", "020001000001"], "8200000000000700000000000B"),
        // Two clauses of weight 5, and a scale of 2.
        (&["0901000200020100000005FF00000005", "03000000000003"], "83000000000003000000000005"),
        // "If all are 0 it is 1", and so where all are forbidden.
        (&["010100010200000000000000", "04"], &zeros),
        (&["0101000102FFFFFFFFFFFF00", SEVEN], "83000000000007000000000007"),
        // J's costs have no common step.
        (&[J, "04", "060000000A"], "8601000000030000000000020001"),
    ] {
        assert_eq!(last(lines), reply, "{lines:?}");
    }
    // A bound of 5, and totals of 5 and 1: an equal cost ends the walk, and the plan is beaten.
    assert_eq!(placed(FIVES, "3=1,316=4,317=0", SEARCH), "86010000000100000000000500");
    // A cost of 1 below the bound 5 does not end it.
    assert_eq!(placed(FIVES, "3=1,316=0,317=4", SEARCH), "86010000000200000000000100");
}

/// A bound that is a multiple already stays, and 0 is one of every step.
#[test]
fn multiples_stay() {
    let lines = [T, "0300000000000A", "03000000000005", "03FFFFFFFFFFF1", "03000000000001"];
    let answers = [
        "8300000000000A00000000000A",
        "8300000000000F00000000000F",
        "83000000000000000000000000",
        "83000000000001000000000005",
    ];
    assert_eq!(replies(&lines)[1..], answers);
    // A scale of 2: 20 parts are 10 points, and 21 are 11.
    let with_scale = T.replacen("01010001", "01010002", 1);
    let lines = [&with_scale, "03000000000014", "03000000000001"];
    assert_eq!(replies(&lines)[1..], ["8300000000001400000000000A", "8300000000001500000000000F"]);
    // The highest cost, and the highest constant with a step of 7, which does not divide it.
    assert_eq!(last(&["01010001010F424000", "03000000000001"]), "830000000000010000000F4240");
    assert_eq!(placed("010100010100000700", "3=72000000000,316=0", "04"), "840010C388D0000010C388D002");
}

/// "As H now holds them": after the addition, and no other line changes it.
#[test]
fn additions_change_the_step() {
    // 20 and 20.
    assert_eq!(last(&[T, ELEVEN, "020000000005"]), "8200000000000B000000000014");
    // 15 and 25, then 15 and 26.
    let lines = [T, ELEVEN, "020001000005", "020001000001", "0200000F4240", "03000000000000", "07"];
    let answers = [
        "8300000000000B00000000000F",
        "8200000000000B00000000000F",
        "8200000000000B00000000000B",
        "FF0A",
        "8300000000000B00000000000B",
        "010100010200000F00001A00",
    ];
    assert_eq!(replies(&lines)[1..], answers);
    // A declined addition changes no step.
    assert_eq!(last(&[T, ELEVEN, "0200000F4240", "03000000000000"]), "8300000000000B00000000000F");
    // A load begins with a constant of 0.
    assert_eq!(last(&[TWO, FOUR, T]), "81000000000000000000000000");
}

/// A permitted entry of a pair counts though a choice of it is forbidden.
#[test]
fn entries_beside_forbidden_choices_count() {
    let load = |entry: &str| format!("010200010201FFFFFF00000A00000A010001{entry}00000A");
    let lift = format!("03000000000000000000000007{}", "0".repeat(36));
    for (entry, bound) in [("000003", 7), ("000004", 8), ("000005", 10), ("000000", 10), ("FFFFFF", 10)] {
        assert_eq!(last(&[&load(entry), &lift]), format!("83000000000007{bound:012X}"), "{entry}");
    }
}

/// "Everything that shows or uses the bound follows", and nothing else: not a cost, a ceiling or a reason. T and c0 have no
/// say in the step.
#[test]
fn all_that_shows_a_bound() {
    let shown = |line: &str| placed(FIVES, "3=1,316=4,317=0", line);
    let five = "000000000001000000000005";
    assert_eq!(shown("020000000000"), format!("82{five}"));
    assert_eq!(shown("020000000001"), "82000000000001000000000001");
    assert_eq!(shown("03000000000000"), format!("83{five}"));
    assert_eq!(shown("04"), format!("84{five}"));
    assert_eq!(shown("08"), format!("88{five}"));
    assert_eq!(shown(FIVES), "81000000000000000000000000");
    assert_eq!(shown("090100010000"), "89000000000000000000000000");
    assert_eq!(shown("05000001000000000001"), "85010000000000000001000001");
    assert_eq!(shown("0A000100000001"), "8A01FF");
    assert_eq!(shown("0A000100000002"), "8A00FF");
    // The bound comes before the budget; with a cost of 1 below it the walk is spent.
    assert_eq!(shown("0600000001"), "86010000000100000000000500");
    assert_eq!(placed(FIVES, "3=1,316=0,317=4", "0600000001"), "86000000000100000000000100");
    // A cost of 6 doesn't end the walk, one of 5 by its last try does.
    assert_eq!(placed(FIVES, "3=1,316=5,317=4", "0600000002"), "86010000000200000000000501");
    assert_eq!(placed(FIVES, "3=1,316=5,317=4", "0600000001"), "86000000000100000000000600");
    // A scale of 2: 9 parts cost 5, 11 cost 6, and 8 cost 4.
    assert_eq!(placed(FIVES, "1=2,3=1,316=8,317=0", SEARCH), "86010000000100000000000500");
    assert_eq!(placed(FIVES, "1=2,3=1,316=10,317=7", SEARCH), "86010000000200000000000401");
}

/// Places of T: of choices and of pairs.
const HELD: [Range<usize>; 2] = [316..508, HELD_ENTRIES];

/// The greatest common divisor of some costs by Euclid, 0 of none above 0.
fn divisor(costs: impl Iterator<Item = i64>) -> i64 {
    costs.fold(0, |mut last, mut next| {
        while next != 0 {
            (last, next) = (next, last % next);
        }
        last
    })
}

/// The least multiple of a step that is not below the points.
fn rounded(points: i64, step: i64) -> i64 {
    (points + step - 1) / step * step
}

fn loaded(costs: &Costs) -> impl Iterator<Item = i64> + '_ {
    costs.permitted().map(|cost| cost.loaded)
}

/// The costs of pairs beside two permitted choices.
fn beside_permitted(study: &Study) -> impl Iterator<Item = i64> + '_ {
    study.pairs.iter().flat_map(|pair| {
        let [rows, columns] = pair.trains.map(|train| &study.trains[train].entries);
        let both = rows.iter().flat_map(move |row| columns.iter().map(move |column| row.and(*column)));
        let entries = pair.costs.entries.iter().zip(both);
        entries.filter_map(|(entry, both)| Some(both.and(*entry)?.loaded))
    })
}

/// What was seen of bounds.
#[derive(Default)]
struct Watch {
    seen: Seen,
    /// Bounds that are higher than before change 9.
    higher: usize,
    /// Whether H is of an accepted line of clauses, and what was added.
    of_clauses: bool,
}

impl Watch {
    fn call(&mut self, call: &Call, given: &[i64], outcome: &Outcome) {
        if let Setting::Edited(edits) = &call.setting {
            self.of_clauses &=
                edits.iter().all(|&(place, _)| place == 3 || HELD.iter().any(|held| held.contains(&place)));
        }
        let reply = outcome.reply();
        let Some(kind) = reply.get(..2).map(|digits| String::from_utf8_lossy(digits).into_owned()) else {
            return;
        };
        match &kind[..] {
            "81" | "89" => self.of_clauses = kind == "89" && !matches!(call.setting, Setting::Length(_)),
            "82" | "83" | "84" | "88" => {
                let [before, after] = [given, &outcome.block].map(|block| decode(block).unwrap().unwrap());
                self.bound(&kind, &after, reply);
                if kind == "82" {
                    self.addition(&call.line, &before, &after);
                }
            }
            "86" => self.search(&call.line, &decode(given).unwrap().unwrap()),
            _ => {}
        }
    }

    /// A bound that is shown, and the study behind it.
    fn bound(&mut self, kind: &str, study: &Study, reply: &[u8]) {
        let shown = i64::from_str_radix(std::str::from_utf8(&reply[14..]).unwrap(), 16).unwrap();
        let points = study.points(study.constant);
        let all = divisor(study.tables().flat_map(loaded));
        let by = |divisor: i64| rounded(points, divisor.max(1));
        assert_eq!(step(study), all.max(1));
        assert_eq!(shown, by(all));
        let choices = divisor(study.trains.iter().flat_map(loaded));
        let entries = divisor(study.pairs.iter().flat_map(|pair| loaded(&pair.costs)));
        let permitted = divisor([choices].into_iter().chain(beside_permitted(study)));
        let held = divisor(study.tables().flat_map(Costs::permitted).map(|cost| cost.held));
        let higher = shown > points;
        let of_clauses = self.of_clauses;
        self.higher += usize::from(higher);
        let mut seen = |case: &str, holds: bool| self.seen.count(case, holds);
        seen(&format!("higher, in {kind}"), higher);
        for step in [2, 5, 7, 1_000] {
            seen(&format!("higher, in steps of {step}"), higher && all == step);
        }
        seen("higher, in other steps", higher && ![2, 5, 7, 1_000].contains(&all));
        seen("higher, a scale above 1", higher && study.scale > 1);
        seen("higher, the constant is no whole number of points", higher && study.constant % study.scale > 0);
        seen("higher, with forbidden entries", higher && !study.permits_all());
        seen("higher, of clauses", higher && of_clauses);
        seen("a multiple above 0 stays", !higher && points > 0 && all > 1);
        seen("0, in steps", shown == 0 && all > 1);
        seen("above L", shown > TOP);
        seen("all 0", points > 0 && all == 0 && study.permits_all());
        seen("all forbidden", points > 0 && study.tables().all(|costs| costs.permitted().count() == 0));
        seen("another by choices alone", by(choices) != shown);
        seen("another by pairs alone", by(entries) != shown);
        seen("another without entries beside forbidden choices", by(permitted) != shown);
        seen("another by T", by(held) != shown);
    }

    /// An accepted addition.
    fn addition(&mut self, line: &[u8], before: &Study, after: &Study) {
        let field = |place: usize, digits: usize| {
            let text = std::str::from_utf8(&line[place..place + digits]).unwrap();
            i64::from_str_radix(text, 16).unwrap()
        };
        let (train, choice, points) = (field(2, 2) as usize, field(4, 2) as usize, field(6, 6));
        let [old, new] = [before, after].map(step);
        let forbidden = before.trains[train].entries[choice].is_none();
        let permitted = points > 0 && !forbidden;
        let higher = after.bound() > after.points(after.constant);
        let mut seen = |case: &str, holds: bool| self.seen.count(case, holds);
        seen("an addition keeps the step", permitted && higher && new == old);
        seen("an addition breaks the step, the bound falls", new < old && after.bound() < before.bound());
        seen("an addition makes the step longer", new > old);
        seen(
            "an addition makes the step longer, the bound rises",
            new > old && after.bound() > before.bound(),
        );
        seen("an addition to a forbidden choice", forbidden && higher && points % old > 0);
    }

    /// An accepted search, beside the same by the bound before change 9 and by none.
    fn search(&mut self, line: &[u8], study: &Study) {
        let budget = i64::from_str_radix(std::str::from_utf8(&line[2..]).unwrap(), 16).unwrap();
        let (points, bound) = (study.points(study.constant), study.bound());
        let [now, before, least] = [Some(bound), Some(points), None].map(|bound| walk(study, budget, bound));
        let cost = |best: &Best| study.points(best.total);
        let [shown, least] = [&now, &least].map(|walk| walk.best.as_ref().map(cost));
        let first = study.trains.len() as i64;
        let mut seen = |case: &str, holds: bool| self.seen.count(case, holds && bound > points);
        let ends = now.end == End::Bound;
        seen("search: fewer tries", ends && before.end == End::Tried && now.count < before.count);
        seen("search: spent before", ends && before.end == End::Spent && now.count < budget);
        seen(
            "search: spent before, by the last try",
            ends && before.end == End::Spent && now.count == budget,
        );
        seen("search: ended at the bound before, goes on", !ends && before.end == End::Bound);
        seen("search: the first plan ends it", ends && now.count == first);
        seen("search: a later plan ends it", ends && now.count > first);
        seen("search: the plan that ends it is beaten", ends && least < shown);
        let below = shown.is_some_and(|cost| cost < bound);
        let above = shown.is_some_and(|cost| cost > bound);
        seen("search: all tried, a cost below the bound", now.end == End::Tried && below);
        seen("search: all tried, all costs above the bound", now.end == End::Tried && above);
        seen("search: all tried, no plan", now.end == End::Tried && shown.is_none());
        seen("search: spent, a cost below the bound", now.end == End::Spent && below);
        seen("search: spent, a cost above the bound", now.end == End::Spent && above);
    }
}

#[test]
fn the_generator_reaches_every_step() {
    let mut watch = Watch::default();
    plain_sessions(1_600, |call, given, outcome| watch.call(call, given, outcome));
    assert!(watch.higher >= 200, "{}", watch.higher);
    watch.seen.each_over(5);
}
