//! Change 13: the dearest study of given sizes, by the document and by searches, and the generator's reach among sizes.

use reference::calls::{Call, Outcome, Setting};
use reference::dearest::{study, tries, Dearest, MOST_TRIES};
use reference::dearest_lines::{any_sizes, length};
use reference::generator::{line_of, load_fields, plain_sessions};
use reference::lines;
use reference::model::{decode, Costs, Pair, Study, BLOCK_LENGTH};
use reference::random::Random;
use reference::search::{walk, End};
use reference::{answer, LEAST_BUFFER, LONGEST_REPLY};
use seen::Seen;
use session::{last, replies};

mod seen;
mod session;

const J: &str = "010200010202000002000000000000000000010001000001000000000003000002";
/// Clauses 1 ∨ 2 of weight 5, −1 of weight 2 and −2 ∨ 1 of weight 1.
const Q: &str = "0902000100030102000005FF00000002FE01000001";
const ZERO: &str = "81000000000000000000000000";
/// The dearest study of 2 and 2 choices.
const TWO: &str = "01020001020200000000000000000100000100";
/// 10,000,000 tries exactly, and one more.
const MOST: &str = "0F0D08010606010801060208040501";
const ONE_MORE: &str = "0F0E0108010606010801060208040501";

/// The reply to a line on a block in a buffer of this length. The block and the buffer behind the reply stay.
fn asked(block: &[i64], capacity: usize, line: &str) -> String {
    let mut after = block.to_vec();
    let mut reply = vec![7; capacity];
    let written = answer(line.as_bytes(), &mut after, &mut reply);
    assert!(after == block && reply[written..].iter().all(|&byte| byte == 7), "{line}");
    String::from_utf8(reply[..written].to_vec()).unwrap()
}

/// The block that lines leave, from fresh.
fn left(lines: &[&str]) -> Vec<i64> {
    let mut block = vec![0; BLOCK_LENGTH];
    for line in lines {
        answer(line.as_bytes(), &mut block, &mut [0; LONGEST_REPLY]);
    }
    block
}

/// "It answers with a load line": s = 1, the sizes, and costs of 0 but for the last train.
#[test]
fn lines_that_are_answered() {
    assert_eq!(last(&["0F0101"]), "010100010100000100");
    assert_eq!(last(&["0F020202"]), TWO);
    let of_two_three_four = "0103000102030400000000000000000000000000000000000100000100000100000100";
    assert_eq!(last(&["0F03020304"]), of_two_three_four);
    // J stays: it is saved as it was loaded, and its order is the one that was set.
    let lines = [J, "0B0100", "0F020202", "07", "0E0100", "060000000A"];
    let answers = replies(&lines);
    assert_eq!(answers[2..5], [TWO, J, "8E020100000000000000000000000003"]);
    assert_eq!(answers[5], last(&[J, "0B0100", "060000000A"]));
    // The reply loads, and its save is the reply.
    assert_eq!(replies(&["0F020202", TWO, "07"]), [TWO, ZERO, TWO]);
}

/// "The sum of the products of the first 1, 2, up to n sizes."
#[test]
fn numbers_of_tries() {
    for (sizes, expected) in [
        (&[1][..], 1),
        (&[8], 8),
        (&[2, 2], 6),
        (&[2, 3, 4], 2 + 6 + 24),
        (&[4, 3, 2], 4 + 12 + 24),
        (&[1; 24], 24),
        (&[8; 7], 2_396_744),
        (&[8; 8], 19_173_960),
    ] {
        assert_eq!(tries(sizes), expected, "{sizes:?}");
    }
    assert_eq!(tries(&[8; 24]), (8u128.pow(25) - 8) / 7);
}

/// "Whose search straight after loading, with enough budget, tries as many": with N it has ended.
#[test]
fn their_searches() {
    let three = last(&["0F03020304"]);
    let search = |line: &str| last(&[&three, line]);
    assert_eq!(search("0600000020"), "860100000020000000000001000000");
    assert_eq!(search("0600000021"), "860100000020000000000001000000");
    assert_eq!(search("0600989680"), "860100000020000000000001000000");
    assert_eq!(search("060000001F"), "86000000001F000000000001000000");
    // Before the first plan.
    assert_eq!(search("0600000002"), "860000000002FFFFFFFFFFFFFFFFFF");
    assert_eq!(last(&[&last(&["0F0101"]), "0600000001"]), "86010000000100000000000100");
}

/// As many tries as there may be: the highest budget is just enough.
#[test]
fn as_many_tries_as_there_may_be() {
    let most = last(&[MOST]);
    let found = |flag: &str, count: &str| format!("86{flag}{count}000000000001{}", "00".repeat(13));
    assert_eq!(last(&[&most, "0600989680"]), found("01", "00989680"));
    assert_eq!(last(&[&most, "060098967F"]), found("00", "0098967F"));
    Dearest::default().check_limit(answer).unwrap();
}

/// "Searched in loaded order": another order of the same study can cause more.
#[test]
fn other_orders() {
    let dearest = last(&["0F020102"]);
    assert_eq!(last(&[&dearest, "060000000A"]), "8601000000030000000000010000");
    // Train 0 costs 1, both choices of train 1 cost 0. With train 1 first: 2 tries, and 1 more behind each of them.
    let other = "01020001010200000100000000000000";
    assert_eq!(last(&[other, "060000000A"]), "8601000000030000000000010000");
    assert_eq!(last(&[other, "0B0100", "060000000A"]), "8601000000040000000000010000");
}

/// 5, then 6, each field judged as it is read; 24 behind all of 5.
#[test]
fn lines_that_are_refused() {
    for before in [&[][..], &[J], &[J, "04"]] {
        let block = left(before);
        let refused = |line: &str, number: u8| {
            assert_eq!(asked(&block, LEAST_BUFFER, line), format!("FF{number:02X}"), "{line}");
        };
        for line in ["0F", "0F01", "0F02020200", "0F010100", "0F0208", "0F18", "0F010101"] {
            refused(line, 5);
        }
        for line in
            ["0F00", "0F19", "0FFF", "0F0100", "0F0109", "0F01FF", "0F0200", "0F0209", "0F0202FF", "0F010000"]
        {
            refused(line, 6);
        }
        for line in ["0F080808080808080808", ONE_MORE] {
            refused(line, 24);
            refused(&format!("{line}00"), 5);
            refused(&line[..line.len() - 2], 5);
            refused(&format!("{}09", &line[..line.len() - 2]), 6);
        }
        for line in ["0f0101", "0F010", "0F01 01", "0F010g"] {
            refused(line, 1);
        }
        refused("10", 3);
        refused("8F", 3);
    }
}

/// "Exceeds 10,000,000": that number itself is taken. Products count from the first size on.
#[test]
fn both_sides_of_the_limit() {
    assert_eq!(last(&[MOST]).len(), 378);
    assert_eq!(last(&[ONE_MORE]), "FF18");
    assert_eq!(last(&[&format!("0F07{}", "08".repeat(7))]).len(), 2 * (5 + 7 + 3 * 56));
    let longest = format!("0F18{}04{}", "01".repeat(16), "08".repeat(7));
    assert_eq!(last(&[&longest]).len(), 514);
    assert_eq!(last(&[&format!("0F18{}04{}", "08".repeat(7), "01".repeat(16))]), "FF18");
    assert_eq!(last(&[&format!("0F18{}", "01".repeat(24))]).len(), 2 * (5 + 24 + 72));
    assert_eq!(last(&[&format!("0F18{}", "08".repeat(24))]), "FF18");
}

/// "17 as for a save, last": in a buffer of at least 74, only where the line is longer.
#[test]
fn buffers() {
    let fresh = left(&[]);
    let line = last(&["0F020808"]);
    assert_eq!(line.len(), 110);
    for (capacity, holds) in [(73, false), (74, false), (109, false), (110, true), (111, true)] {
        assert_eq!(asked(&fresh, capacity, "0F020808"), if holds { &line } else { "" }, "{capacity}");
    }
    // 16, 5, 6 and 24 come before it.
    for (text, number) in [("0F02080800", 5), ("0F020809", 6), (ONE_MORE, 24), ("0F080808080808080808", 24)] {
        assert_eq!(asked(&fresh, LEAST_BUFFER, text), format!("FF{number:02X}"));
        assert_eq!(asked(&fresh, LEAST_BUFFER - 1, text), "");
    }
    assert_eq!(asked(&fresh[1..], LEAST_BUFFER, "0F020808"), "FF10");
    // A line that the least buffer holds.
    assert_eq!(asked(&fresh, LEAST_BUFFER, "0F020202"), TWO);
    assert_eq!(asked(&fresh, LEAST_BUFFER - 1, "0F020202"), "");
}

/// "Of the block only 16 is judged", and "equal sizes get equal lines" on every other.
#[test]
fn blocks() {
    let lines = ["0F0101", "0F020202", "0F03020304", MOST];
    let expected = lines.map(|line| last(&[line]));
    for before in [&[][..], &[J], &[J, "04"], &[J, "0B0100"], &[Q], &["0F020202", TWO], &[&expected[3]]] {
        let block = left(before);
        for (line, expected) in lines.iter().zip(&expected) {
            assert_eq!(asked(&block, LONGEST_REPLY, line), *expected, "{before:?}");
        }
        for place in 0..4 {
            let mut damaged = block.clone();
            damaged[place] = -1;
            assert_eq!(asked(&damaged, LONGEST_REPLY, "0F020202"), "FF10");
        }
        for other in [&block[1..], &[], &[&block[..], &[0]].concat()] {
            assert_eq!(asked(other, LONGEST_REPLY, "0F020202"), "FF10");
        }
    }
    // A number of the line's own costs, and a train of its order, in a block that holds something else.
    for (place, number) in [(124, 1_000_001), (6_652, 1), (BLOCK_LENGTH - 1, 1)] {
        let mut damaged = left(&[TWO]);
        damaged[place] = number;
        assert_eq!(asked(&damaged, LONGEST_REPLY, "0F020202"), "FF10");
    }
}

/// "As any study of those sizes ... can cause": all studies of two trains of two choices whose costs are 0, 1 or forbidden.
#[test]
fn every_small_study() {
    let mut as_many = 0;
    for number in 0..3usize.pow(8) {
        let entry = |place: u32| [None, Some(0), Some(1)][number / 3usize.pow(place) % 3];
        let costs = |rows: usize, from: u32| {
            let loaded = (from..from + 2 * rows as u32).map(entry).collect();
            Costs::new(rows, 2, loaded, 1)
        };
        let pair = Pair { trains: [0, 1], costs: costs(2, 4) };
        let study = Study::loaded(1, vec![costs(1, 0), costs(1, 2)], vec![pair]);
        let found = walk(&study, 100, Some(study.bound()));
        assert!(found.count <= 6 && found.end != End::Spent);
        as_many += usize::from(found.count == 6);
    }
    assert!(as_many > 100, "{as_many}");
}

#[test]
fn what_is_said_of_them() {
    let mut random = Random::new(13);
    let mut seen = Dearest::default();
    while seen.lines < 400 {
        let sizes = any_sizes(&mut random);
        match study(&sizes) {
            Ok(_) => seen.check_sizes(answer, &sizes, &mut random).unwrap(),
            Err(_) => assert!(tries(&sizes) > MOST_TRIES),
        }
    }
    let Dearest { fresh, ended, spent, studies, clauses, forbidden, rewritten, as_many, .. } = seen;
    for count in [fresh, ended, spent, studies, clauses, forbidden, rewritten, as_many] {
        assert!(count > 20, "{seen:?}");
    }
}

/// The bytes of a line behind its kind, where it is a line of digits.
fn bytes(line: &[u8]) -> Option<Vec<usize>> {
    lines::open(line).ok()?;
    let digits = std::str::from_utf8(&line[2..]).ok()?;
    (0..digits.len())
        .step_by(2)
        .map(|place| usize::from_str_radix(&digits[place..place + 2], 16).ok())
        .collect()
}

/// What was seen of dearest studies.
#[derive(Default)]
struct Watch(Seen);

impl Watch {
    fn call(&mut self, call: &Call, given: &[i64], outcome: &Outcome) {
        let (line, reply) = (&call.line[..], outcome.reply());
        let other_length = matches!(call.setting, Setting::Length(length) if length != BLOCK_LENGTH);
        let held = decode(given);
        if line.starts_with(b"0F") {
            self.block(&held, other_length, reply);
            if held.is_ok() && !other_length {
                self.buffers(call, reply);
                self.line(line, reply);
            }
        }
        if let (Ok(Some(study)), true) = (held, line.starts_with(b"06") && reply.starts_with(b"86")) {
            self.search(&study, line, reply);
        }
    }

    fn count(&mut self, case: &str, holds: bool) {
        self.0.count(case, holds);
    }

    fn block(
        &mut self,
        held: &Result<Option<Study>, reference::model::Refusal>,
        other_length: bool,
        reply: &[u8],
    ) {
        let answered = reply.starts_with(b"01");
        self.count("a block of another length", other_length && reply == b"FF10");
        self.count("a block that is not well formed", held.is_err() && reply == b"FF10");
        self.count("a fresh block", matches!(held, Ok(None)) && answered);
        let study = held.as_ref().ok().and_then(Option::as_ref).filter(|_| answered);
        self.count("a loaded block", study.is_some());
        self.count("a block in another order", study.is_some_and(|study| !study.order.is_sorted()));
        self.count("a block with a constant", study.is_some_and(|study| study.constant > 0));
    }

    /// Cases of 17, and of buffers that just do.
    fn buffers(&mut self, call: &Call, reply: &[u8]) {
        let capacity = call.capacity;
        self.count("17 before all", capacity < LEAST_BUFFER && reply.is_empty());
        if capacity < LEAST_BUFFER {
            return;
        }
        self.count("24 in the least buffer", capacity == LEAST_BUFFER && reply == b"FF18");
        self.count("6 in the least buffer", capacity == LEAST_BUFFER && reply == b"FF06");
        let Some(length) = length(&call.line) else { return };
        assert_eq!(reply.is_empty(), length > capacity);
        self.count("a character short", capacity + 1 == length && length > LEAST_BUFFER);
        self.count("the least buffer, too short", capacity == LEAST_BUFFER && length > capacity);
        self.count("just fits", capacity == length);
        self.count("a character more", capacity == length + 1);
        self.count("the longest line", reply.len() == 514);
    }

    /// Cases of 5, 6 and 24, and of numbers of tries.
    fn line(&mut self, line: &[u8], reply: &[u8]) {
        let Some(numbers) = bytes(line) else { return };
        let five = reply == b"FF05";
        self.count("5, no n", five && numbers.is_empty());
        let Some((&n, sizes)) = numbers.split_first() else { return };
        self.count("5, a size less", five && sizes.len() + 1 == n);
        self.count("5, a byte more", five && sizes.len() == n + 1);
        let six = reply == b"FF06";
        self.count("6, n of 0", six && n == 0);
        self.count("6, n of 25", six && n == 25);
        let wrong = sizes.iter().position(|size| !(1..=8).contains(size));
        if let Some(first) = wrong.filter(|_| six && (1..=24).contains(&n)) {
            self.count("6, a size of 0", sizes[first] == 0);
            self.count("6, a size of 9", sizes[first] == 9);
            self.count("6, the last size", sizes.len() == n && first + 1 == n);
            self.count("6, sizes missing", sizes.len() < n);
        }
        let taken = reply.starts_with(b"01");
        if !taken && reply != b"FF18" {
            return;
        }
        let most = tries(sizes);
        assert_eq!(taken, most <= MOST_TRIES);
        self.count("10,000,000 tries", most == MOST_TRIES);
        self.count("10,000,001 tries", most == MOST_TRIES + 1);
        self.count("some fewer", (9_000_000..MOST_TRIES).contains(&most));
        self.count("some more", (MOST_TRIES + 2..11_000_000).contains(&most));
        self.count("the limit by the last size", taken && most * 8 > MOST_TRIES);
        self.count("few tries", most <= 20_000);
        self.count("one train", taken && n == 1);
        self.count("24 trains", taken && n == 24);
        self.count("24 trains of one choice", taken && sizes == [1; 24]);
        self.count("trains of 8 choices", taken && n > 1 && sizes.iter().all(|&size| size == 8));
        self.count("24 trains of 8 choices", sizes == [8; 24]);
        let turned: Vec<usize> = sizes.iter().copied().rev().collect();
        self.count("24, and taken if turned round", !taken && tries(&turned) <= MOST_TRIES);
        self.count("taken, and 24 if turned round", taken && tries(&turned) > MOST_TRIES);
    }

    /// Searches of a dearest study as its load leaves it.
    fn search(&mut self, held: &Study, line: &[u8], reply: &[u8]) {
        let sizes: Vec<usize> = held.trains.iter().map(|costs| costs.columns).collect();
        if study(&sizes).ok().as_ref() != Some(held) || sizes.iter().all(|&size| size == 1) {
            return;
        }
        let number = |text: &[u8]| u128::from_str_radix(std::str::from_utf8(text).unwrap(), 16).unwrap();
        let (budget, count, most) = (number(&line[2..10]), number(&reply[4..12]), tries(&sizes));
        assert_eq!(count, budget.min(most));
        let ended = reply.starts_with(b"8601");
        assert_eq!(ended, budget >= most);
        self.count("all its tries", ended && budget == most);
        self.count("a try less", !ended && budget + 1 == most);
        self.count("some more than its tries", ended && budget > most);
        self.count("many tries less", !ended && budget + 1 < most);
    }
}

#[test]
fn the_generator_reaches_every_line() {
    let mut watch = Watch::default();
    plain_sessions(2_400, |call, given, outcome| watch.call(call, given, outcome));
    watch.0.each_over(5);
}

/// Every load line that is a dearest study's is the reply to its sizes.
#[test]
fn the_line_is_its_study() {
    let mut random = Random::new(1);
    for _ in 0..200 {
        let sizes = any_sizes(&mut random);
        let Ok(study) = study(&sizes) else { continue };
        let text: String = sizes.iter().map(|size| format!("{size:02X}")).collect();
        let line = String::from_utf8(line_of(&load_fields(&study))).unwrap();
        assert_eq!(last(&[&format!("0F{:02X}{text}", sizes.len())]), line);
    }
}
