//! Change 10: the order in which trains are tried, by the document, and the generator's reach among orders.

use reference::calls::{Call, Outcome, Setting};
use reference::generator::plain_sessions;
use reference::model::{decode, order, Costs, Pair, Study, BLOCK_LENGTH, ORDER};
use reference::search::{walk, Best, End, Walk};
use reference::{LEAST_BUFFER, LONGEST_REPLY};
use seen::Seen;
use session::{last, replies};

mod seen;
mod session;

const J: &str = "010200010202000002000000000000000000010001000001000000000003000002";
/// Three trains of 2, 3 and 2 choices, each two of which are a pair.
const G: &str = "\
    0103000102030200000000000000000000000000000200000100000003000100000200000300000000000000000000000100020000040000\
    040000010000000102000000000001000000000007000002000000";
/// Two plans cost nothing.
const TWO_PLANS: &str = "010200010202000000000000000000000000010001000001000000000000000001";
/// Train 0 has one choice left, and no choice of train 1 goes with it.
const NO_PLAN: &str = "010200010202FFFFFF000000000000000000010001000000000000FFFFFFFFFFFF";
/// Clauses 1 ∨ 2 and −2, each of weight 1.
const Q: &str = "0902000100020100000001FE00000001";
const SEARCH: &str = "060000000A";
/// The replies to loads, and to a tightening of J.
const ZERO: &str = "81000000000000000000000000";
const CLAUSES_ZERO: &str = "89000000000000000000000000";
const TIGHTENED: &str = "84000000000002000000000002";

#[test]
fn the_order_decides_the_count() {
    assert_eq!(replies(&[J, "0B0100", SEARCH])[1..], ["8B0100", "8601000000060000000000020001"]);
    let lines = [J, "04", SEARCH, "0B0100", SEARCH];
    let answers = [ZERO, TIGHTENED, "8601000000030000000000020001", "8B0100", "8601000000050000000000020001"];
    assert_eq!(replies(&lines), answers);
    // Another plan of the same cost.
    let lines = [TWO_PLANS, "0600000063", "0B0100", "0600000063"];
    let answers = ["8601000000030000000000000001", "8B0100", "8601000000030000000000000100"];
    assert_eq!(replies(&lines)[1..], answers);
    // Every order of three trains: the same plan, by train number.
    for (order, count) in
        [("000102", 18), ("000201", 18), ("010002", 13), ("010200", 11), ("020001", 15), ("020100", 14)]
    {
        let answers = [format!("8B{order}"), format!("8601{count:08X}000000000001010001")];
        assert_eq!(replies(&[G, &format!("0B{order}"), "06000003E7"])[1..], answers);
    }
}

/// With a budget that is not enough, a plan by train number, or none.
#[test]
fn spent_searches() {
    let lines = [G, "0B020100", "0600000009", "0600000002"];
    let answers = ["8B020100", "860000000009000000000002010000", "860000000002FFFFFFFFFFFFFFFFFF"];
    assert_eq!(replies(&lines)[1..], answers);
}

/// A forbidden entry bars when the later of its two trains is tried.
#[test]
fn studies_without_a_plan() {
    let lines = [NO_PLAN, SEARCH, "0B0100", SEARCH];
    let answers = ["860200000004FFFFFFFFFFFFFFFF", "8B0100", "860200000006FFFFFFFFFFFFFFFF"];
    assert_eq!(replies(&lines)[1..], answers);
}

/// 4, 5 and then 21; 9 is not used.
#[test]
fn orders_that_are_refused() {
    for line in ["0B0100", "0B", "0B00FF"] {
        assert_eq!(last(&[line]), "FF04");
    }
    assert_eq!(last(&[J, "0B0"]), "FF01");
    for line in ["0B", "0B00", "0B000100", "0B02", "0B000000", "0B00FF00", "0BFF"] {
        assert_eq!(last(&[J, line]), "FF05", "{line}");
    }
    for line in ["0B0000", "0B0101", "0B0002", "0B00FF", "0B0200", "0BFFFF"] {
        assert_eq!(last(&[J, line]), "FF15", "{line}");
    }
    assert_eq!(last(&[J, "10"]), "FF03");
    // One train.
    assert_eq!(
        replies(&["01010001010000000001", "010100010100000000", "0B00", "0B01"])[2..],
        ["8B00", "FF15"]
    );
    // As many trains as there may be, turned, and with the last one twice.
    let load = format!("01180001{}{}00", "01".repeat(24), "000000".repeat(24));
    let turned: String = (0..24).rev().map(|train| format!("{train:02X}")).collect();
    let twice = format!("{}{}", &turned[..46], "17");
    let answers = [ZERO, &format!("8B{turned}"), "FF15", "FF05", "FF05"];
    let [line, wrong, less] = [&turned[..], &twice, &turned[..46]].map(|bytes| format!("0B{bytes}"));
    assert_eq!(replies(&[&load, &line, &wrong, &less, &format!("{line}00")]), answers);
}

/// Every other line leaves the order, accepted or declined.
#[test]
fn lines_that_leave_the_order() {
    let lines = [J, "0B0100", "04", "0B0101", "020101000000", "08", SEARCH];
    let answers = [
        ZERO,
        "8B0100",
        TIGHTENED,
        "FF15",
        "82000000000002000000000002",
        "88000000000002000000000002",
        "8601000000050000000000020001",
    ];
    assert_eq!(replies(&lines), answers);
    let nothing = format!("03{}", "0".repeat(72));
    let certificate = "05000001000001000000000000000001000000000001000000000000";
    // Shift, certify, save, explain, a load and clauses that are declined; then a search.
    let others =
        [&nothing, certificate, "07", "0A000000000001", "0102000102", "0902000100020100", "FF", "0B0000"];
    for line in others {
        assert_eq!(last(&[J, "04", "0B0100", line, SEARCH]), "8601000000050000000000020001", "{line}");
    }
    // An order of no change, and one that is given back.
    assert_eq!(last(&[J, "04", "0B0001", SEARCH]), "8601000000030000000000020001");
    assert_eq!(last(&[J, "04", "0B0100", "0B0001", SEARCH]), "8601000000030000000000020001");
}

/// "A load, also of kind 09, sets 0 to n−1", and a save doesn't hold the order.
#[test]
fn loads_set_the_order() {
    let lines = [J, "0B0100", "07", J, "04", SEARCH];
    let answers = [ZERO, "8B0100", J, ZERO, TIGHTENED, "8601000000030000000000020001"];
    assert_eq!(replies(&lines), answers);
    let lines = [Q, "0B0100", SEARCH, Q, SEARCH];
    let answers = [
        CLAUSES_ZERO,
        "8B0100",
        "8601000000050000000000000001",
        CLAUSES_ZERO,
        "8601000000030000000000000001",
    ];
    assert_eq!(replies(&lines), answers);
    // From three trains to two and back: 24 places each time.
    let mut block = vec![0; BLOCK_LENGTH];
    for (line, order) in
        [(G, &[0, 1, 2][..]), ("0B020100", &[2, 1, 0]), (J, &[0, 1]), ("0B0100", &[1, 0]), (Q, &[0, 1])]
    {
        reference::answer(line.as_bytes(), &mut block, &mut [0; LEAST_BUFFER]);
        let (used, unused) = block[ORDER].split_at(order.len());
        assert!(used == order && unused.iter().all(|&place| place == 0), "{line}");
    }
}

/// "Replies are digits": the order is shown as the line has it, and only the places of the order change.
#[test]
fn an_order_changes_its_places_alone() {
    let mut block = vec![0; BLOCK_LENGTH];
    for line in [G, "04", "020100000003"] {
        reference::answer(line.as_bytes(), &mut block, &mut [0; LEAST_BUFFER]);
    }
    let mut expected = block.clone();
    expected[ORDER.start..ORDER.start + 3].copy_from_slice(&[2, 0, 1]);
    let mut reply = [7; LEAST_BUFFER];
    assert_eq!(reference::answer(b"0B020001", &mut block, &mut reply), 8);
    assert!(&reply[..8] == b"8B020001" && reply[8..].iter().all(|&byte| byte == 7) && block == expected);
}

/// The reply to a line on the block that J leaves, with this change of the block or the length.
fn judged(setting: &str, line: &str) -> String {
    let mut block = vec![0; BLOCK_LENGTH];
    reference::answer(J.as_bytes(), &mut block, &mut [0; LEAST_BUFFER]);
    let call = Call::parse(format!("{LEAST_BUFFER} {setting} {line}").as_bytes()).unwrap();
    String::from_utf8(call.run(reference::answer, &mut block).reply().to_vec()).unwrap()
}

/// "A loaded block's order is judged likewise under 16."
#[test]
fn orders_of_the_block() {
    for setting in [
        "6653=0",
        "6654=1",
        "6652=2",
        "6652=-1",
        "len=6652",
        "len=6675",
        "len=6677",
        "len=6651",
        "6652=1",
        "6654=-1",
        "6654=2",
        "6675=1",
        "6652=1,6653=2",
        "6653=9223372036854775807",
        "6652=-9223372036854775808",
    ] {
        for line in ["04", J, "0B0100"] {
            assert_eq!(judged(setting, line), "FF10", "{setting}");
        }
    }
    assert_eq!(judged("len=6676", "04"), TIGHTENED);
    assert_eq!(judged("6652=1,6653=0", SEARCH), "8601000000060000000000020001");
    assert_eq!(judged("6652=1,6653=0,3=2,316=0,317=0,3588=1,3589=0", SEARCH), "8601000000050000000000020001");
    // Fresh is all zeros: a block with nothing but an order is none.
    let mut block = vec![0; BLOCK_LENGTH];
    block[ORDER.start + 1] = 1;
    let mut reply = [0; LEAST_BUFFER];
    assert_eq!(reference::answer(J.as_bytes(), &mut block, &mut reply), 4);
    assert_eq!(&reply[..4], b"FF10");
}

/// The study with its trains renamed so that its order is 0 to n−1: pairs whose trains come the other way round are turned
/// over.
fn renamed(study: &Study) -> Study {
    let place = |train: usize| study.order.iter().position(|&one| one == train).unwrap();
    let trains = study.order.iter().map(|&train| study.trains[train].clone()).collect();
    let turned = |pair: &Pair| {
        let [i, j] = pair.trains.map(place);
        let costs = &pair.costs;
        if i < j {
            return Pair { trains: [i, j], costs: costs.clone() };
        }
        let cells = (0..costs.columns).flat_map(|b| costs.line(1, b));
        let entries = cells.map(|cell| costs.entries[cell]).collect();
        Pair { trains: [j, i], costs: Costs { rows: costs.columns, columns: costs.rows, entries } }
    };
    let mut pairs: Vec<Pair> = study.pairs.iter().map(turned).collect();
    pairs.sort_by_key(|pair| pair.trains);
    Study { constant: study.constant, ..Study::loaded(study.scale, trains, pairs) }
}

/// The numbers of a line behind its kind, as many bytes as there are.
fn bytes(line: &[u8]) -> Option<Vec<i64>> {
    let digits = std::str::from_utf8(line.get(2..)?).ok()?;
    let number = |place: usize| i64::from_str_radix(digits.get(place..place + 2)?, 16).ok();
    (0..digits.len()).step_by(2).map(number).collect()
}

fn is_loaded(order: &[usize]) -> bool {
    order.is_sorted()
}

/// What was seen of orders.
#[derive(Default)]
struct Watch {
    seen: Seen,
    /// Searches in another order than that of a load.
    searches: usize,
}

impl Watch {
    fn call(&mut self, call: &Call, given: &[i64], outcome: &Outcome) {
        let reply = outcome.reply();
        match &call.setting {
            Setting::Edited(edits) => self.block(edits, given),
            Setting::Length(length) if call.capacity >= LEAST_BUFFER => {
                assert_eq!(reply == b"FF10", *length != BLOCK_LENGTH);
                for near in [6_651, 6_652, 6_675, 6_676, 6_677] {
                    self.seen.count(format!("{near} numbers"), *length == near && given[0] > 0);
                }
                return;
            }
            _ => {}
        }
        let Ok(study) = decode(given) else { return };
        let loaded = study.as_ref().is_none_or(|study| is_loaded(&study.order));
        if !matches!(call.setting, Setting::Length(_)) {
            self.others(&call.line, reply, loaded, given, &outcome.block);
        }
        if call.line.starts_with(b"0B") {
            self.order(&call.line, study.as_ref(), reply);
        }
        match study {
            Some(study) if call.line.starts_with(b"06") && reply.starts_with(b"86") => {
                self.search(&call.line, &study);
            }
            _ => {}
        }
    }

    /// Edits of one place of the order.
    fn block(&mut self, edits: &[(usize, i64)], given: &[i64]) {
        let well_formed = decode(given).is_ok();
        let n = given[0] as usize;
        let all_in_order = edits.iter().all(|(place, _)| ORDER.contains(place));
        let mut seen =
            |case: &str, holds: bool| self.seen.count(format!("block: {case}"), holds && all_in_order);
        seen("another order", well_formed && edits.len() > 1);
        let &[(place, number)] = edits else { return };
        let mut mended = given.to_vec();
        mended[ORDER].copy_from_slice(&[0; 24]);
        (0..n.min(24)).for_each(|train| mended[ORDER.start + train] = train as i64);
        if decode(&mended).is_err() || !ORDER.contains(&place) {
            return;
        }
        let (used, unused) = given[ORDER].split_at(n);
        let right = order(used).is_some();
        let twice = used.iter().filter(|&&train| train == number).count() > 1;
        let of_trains = (0..n as i64).contains(&number);
        let in_use = place < ORDER.start + n;
        seen("well formed", well_formed && n > 0);
        seen("a train twice", !well_formed && in_use && of_trains && twice);
        seen("n", !well_formed && in_use && number == n as i64);
        seen("−1", !well_formed && in_use && number == -1);
        seen("255", !well_formed && in_use && number == 255);
        seen("the highest number", !well_formed && in_use && number == i64::MAX);
        seen("the lowest number", !well_formed && in_use && number == i64::MIN);
        seen("behind the order, n", !well_formed && n > 0 && right && !in_use && number == n as i64);
        seen("behind the order, −1", !well_formed && n > 0 && right && !in_use && number == -1);
        seen(
            "behind the order, a train",
            !well_formed && n > 0 && right && !in_use && of_trains && number > 0,
        );
        seen("behind the order, the next place", !well_formed && n > 0 && right && place == ORDER.start + n);
        seen("on a fresh block", !well_formed && n == 0 && unused.iter().any(|&place| place != 0));
    }

    /// Which lines leave the order.
    fn others(&mut self, line: &[u8], reply: &[u8], loaded: bool, given: &[i64], block: &[i64]) {
        let accepted = !reply.is_empty() && !reply.starts_with(b"FF");
        let kind = String::from_utf8_lossy(&line[..line.len().min(2)]).into_owned();
        let mut seen = |case: String, holds: bool| self.seen.count(case, holds && !loaded);
        if accepted && ["01", "09"].contains(&&kind[..]) {
            assert!(is_loaded(&decode(block).unwrap().unwrap().order));
        } else if !accepted || kind != "0B" {
            assert!(given[ORDER] == block[ORDER]);
        }
        for known in ["01", "02", "03", "04", "05", "06", "07", "08", "09", "0A", "0B", "0C", "0D", "0E"] {
            seen(format!("{known} over another order"), accepted && kind == known);
            seen(format!("{known} refused over another order"), !accepted && kind == known);
        }
        seen("fewer trains over another order".into(), accepted && kind == "01" && block[0] < given[0]);
        seen("more trains over another order".into(), accepted && kind == "01" && block[0] > given[0]);
    }

    /// A line of kind 0B.
    fn order(&mut self, line: &[u8], study: Option<&Study>, reply: &[u8]) {
        let mut seen = |case: &str, holds: bool| self.seen.count(case, holds);
        seen("17", reply.is_empty());
        let Some(study) = study else {
            seen("4", reply == b"FF04");
            return;
        };
        let Some(numbers) = bytes(line) else { return };
        let n = study.trains.len();
        let distinct = |numbers: &[i64]| {
            let mut sorted = numbers.to_vec();
            sorted.sort();
            sorted.dedup();
            sorted.len()
        };
        let below = numbers.iter().all(|&train| train < n as i64);
        let is = |number: &[u8]| reply == number;
        seen("5, no number", is(b"FF05") && numbers.is_empty());
        seen("5, a byte less", is(b"FF05") && numbers.len() + 1 == n && n > 1);
        seen("5, a byte more", is(b"FF05") && numbers.len() == n + 1);
        seen(
            "5, a byte more, the others right",
            is(b"FF05") && numbers.len() == n + 1 && order(&numbers[..n]).is_some(),
        );
        seen("5 before 21", is(b"FF05") && numbers.len() > n && order(&numbers[..n]).is_none());
        seen("21, a train twice", is(b"FF15") && below);
        seen("21, n", is(b"FF15") && !below && numbers.contains(&(n as i64)) && distinct(&numbers) == n);
        seen("21, FF", is(b"FF15") && numbers.contains(&0xFF) && distinct(&numbers) == n);
        seen("21, one train", is(b"FF15") && n == 1);
        seen("21, 24 trains", is(b"FF15") && n == 24);
        if !reply.starts_with(b"8B") {
            return;
        }
        assert!(reply[2..] == line[2..] && order(&numbers).is_some() && numbers.len() == n);
        let moved = numbers.iter().zip(0..).filter(|&(&train, place)| train != place).count();
        let turned = numbers.iter().rev().copied().eq(0..n as i64);
        let now = study.order.iter().map(|&train| train as i64);
        let same = now.clone().eq(numbers.iter().copied());
        let differing = now.zip(&numbers).filter(|(now, number)| now != *number).count();
        seen("8B, 0 to n − 1", moved == 0 && n > 1);
        seen("8B, 0 to n − 1 over another", moved == 0 && !same);
        seen("8B, turned", turned && n > 2);
        seen("8B, one swap", differing == 2 && n > 2);
        seen("8B, one swap of another order", differing == 2 && n > 2 && !is_loaded(&study.order));
        seen("8B, every place another", moved == n && !turned && n > 2);
        seen("8B, as it is, another than a load's", same && moved > 0);
        seen("8B, one train", n == 1);
        seen("8B, 24 trains", n == 24 && moved > 0);
        seen("8B, with a constant", study.constant > 0 && moved > 0);
        seen("8B, with forbidden entries", !study.permits_all() && moved > 0);
    }

    /// An accepted search, beside that of the renamed study and that in the order of a load.
    fn search(&mut self, line: &[u8], study: &Study) {
        let budget = bytes(line).unwrap().into_iter().fold(0, |number, byte| number << 8 | byte);
        let bound = Some(study.bound());
        let found = walk(study, budget, bound);
        let by_place = walk(&renamed(study), budget, bound);
        assert_eq!((found.end, found.count), (by_place.end, by_place.count));
        assert_eq!(found.best.is_some(), by_place.best.is_some());
        if let (Some(best), Some(by_place)) = (&found.best, &by_place.best) {
            assert_eq!((best.total, best.found), (by_place.total, by_place.found));
            let choices: Vec<usize> = study.order.iter().map(|&train| best.plan[train]).collect();
            assert_eq!(choices, by_place.plan);
        }
        if is_loaded(&study.order) {
            return;
        }
        self.searches += 1;
        let same = Study { order: (0..study.trains.len()).collect(), ..study.clone() };
        self.beside(study, &found, &walk(&same, budget, bound), budget);
    }

    /// Counts a search in another order beside the same in the order of a load.
    fn beside(&mut self, study: &Study, found: &Walk, loaded: &Walk, budget: i64) {
        let plan = |walk: &Walk| walk.best.as_ref().map(|best| best.plan.clone());
        let cost = |best: &Best| study.points(best.total);
        let [ends, ends_loaded] = [found, loaded].map(|walk| walk.end != End::Spent);
        let [shown, shown_loaded] = [found, loaded].map(|walk| walk.best.as_ref().map(cost));
        let bounds = [found, loaded].iter().all(|walk| walk.end != End::Bound);
        // Where no bound ends either, the least total is the same in every order, on every block.
        assert!(!(ends && ends_loaded && bounds) || shown == shown_loaded);
        let place = |train: usize| study.order.iter().position(|&one| one == train).unwrap();
        let turned = |pair: &&Pair| place(pair.trains[1]) < place(pair.trains[0]);
        let uneven = |pair: &Pair| pair.costs.rows != pair.costs.columns;
        let by_rows = |pair: &Pair| {
            let [rows, columns] = [pair.costs.rows, pair.costs.columns];
            let entry = |a: usize, b: usize| pair.costs.entries[a * columns + b].map(|cost| cost.held);
            (0..rows).all(|a| (0..columns).all(|b| a >= columns || b >= rows || entry(a, b) == entry(b, a)))
        };
        let barred = |pair: &Pair| pair.costs.entries.iter().any(Option::is_none);
        let mut over = study.pairs.iter().filter(turned);
        let mut seen = |case: &str, holds: bool| self.seen.count(format!("search: {case}"), holds);
        seen("ended with a plan", ends && found.best.is_some());
        seen("ended without a plan", ends && found.best.is_none());
        seen("ended at the bound", found.end == End::Bound);
        seen("ended at the bound by the last try", found.end == End::Bound && found.count == budget);
        seen("ended by the last try", found.end == End::Tried && found.count == budget);
        seen("spent with a plan", !ends && found.best.is_some());
        seen("spent without a plan", !ends && found.best.is_none());
        seen(
            "a plan in which choices differ",
            plan(found).is_some_and(|plan| plan.iter().any(|&a| a != plan[0])),
        );
        seen("ended in this order only", ends && !ends_loaded);
        seen("spent in this order only", !ends && ends_loaded);
        seen("both ended, more tries", ends && ends_loaded && found.count > loaded.count);
        seen("both ended, fewer tries", ends && ends_loaded && found.count < loaded.count);
        seen("both ended, another plan", ends && ends_loaded && plan(found) != plan(loaded));
        seen(
            "no plan, other tries",
            found.best.is_none() && ends && ends_loaded && found.count != loaded.count,
        );
        seen("a pair turned over", over.clone().count() > 0);
        seen("a pair as it is, and one turned over", (1..study.pairs.len()).contains(&over.clone().count()));
        seen("a pair of two sizes turned over", over.clone().any(uneven));
        seen("a pair turned over whose rows are not its columns", over.clone().any(|pair| !by_rows(pair)));
        seen("a pair with a forbidden entry turned over", over.any(barred));
        seen("24 trains", study.trains.len() == 24);
    }
}

#[test]
fn the_generator_reaches_every_order() {
    let mut watch = Watch::default();
    plain_sessions(1_200, |call, given, outcome| watch.call(call, given, outcome));
    assert!(watch.searches >= 500, "{}", watch.searches);
    watch.seen.each_over(5);
}

/// A reply shows as many bytes as there are trains, and a buffer of the least length holds it.
#[test]
fn the_least_buffer_holds_every_order() {
    let load = format!("01180001{}{}00", "01".repeat(24), "000000".repeat(24));
    let line = format!("0B{}", (0..24).map(|train| format!("{train:02X}")).collect::<String>());
    let mut block = vec![0; BLOCK_LENGTH];
    reference::answer(load.as_bytes(), &mut block, &mut [0; LEAST_BUFFER]);
    for capacity in [LEAST_BUFFER, LONGEST_REPLY] {
        let mut reply = vec![7; capacity];
        assert_eq!(reference::answer(line.as_bytes(), &mut block, &mut reply), 50);
        assert!(&reply[..2] == b"8B" && reply[2..50] == line.as_bytes()[2..]);
    }
}
