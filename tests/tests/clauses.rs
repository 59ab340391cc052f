//! Change 7: studies written as clauses, by the document, and the generator's reach among them.

use reference::calls::{Call, Outcome, Setting};
use reference::clause_lines::clause_fields;
use reference::clauses::{Clause, Clauses};
use reference::generator::{line_of, plain_sessions};
use reference::lines;
use reference::model::{decode, BLOCK_LENGTH, FORBIDDEN};
use reference::LEAST_BUFFER;
use seen::Seen;
use session::{last, replies};
use std::collections::{BTreeMap, BTreeSet};

mod seen;
mod session;

/// The reply to an accepted line.
const ZERO: &str = "89000000000000000000000000";
/// Clauses 1 ∨ 2 of weight 5, −1 of weight 2 and −2 ∨ 1 of weight 1.
const THREE: &str = "0902000100030102000005FF00000002FE01000001";
/// Two trains, with a forbidden choice of train 0 and a forbidden entry of the pair.
const FORBIDS: &str = "010200010202000002FFFFFF000000000000010001000001000000000003FFFFFF";

/// The line of clauses over n trains, two literals and a weight each.
fn line(n: usize, clauses: &[(i64, i64, i64)]) -> String {
    let clause = |&(first, second, weight): &(i64, i64, i64)| Clause { literals: [first, second], weight };
    let list = clauses.iter().map(clause).collect();
    String::from_utf8(line_of(&clause_fields(&Clauses { trains: n, scale: 1, list }))).unwrap()
}

/// Clauses of weight 1 that name so many pairs of 24 trains.
fn naming(pairs: usize) -> Vec<(i64, i64, i64)> {
    let keys = (1..=24).flat_map(|i| (i + 1..=24).map(move |j| (i, j, 1)));
    keys.take(pairs).collect()
}

/// The block that the lines leave, and the last reply.
fn left(lines: &[&str]) -> (Vec<i64>, String) {
    let mut block = vec![0; BLOCK_LENGTH];
    let mut reply = [0; LEAST_BUFFER];
    let mut written = 0;
    lines.iter().for_each(|line| written = reference::answer(line.as_bytes(), &mut block, &mut reply));
    (block, String::from_utf8(reply[..written].to_vec()).unwrap())
}

/// An accepted line, on a fresh block and over a study with forbidden entries, a constant and rewritten tables, and the
/// save after it: loading that one makes the same block.
fn saved(clauses: &str, save: &str) {
    assert_eq!(replies(&[clauses, "07"]), [ZERO, save]);
    let (block, _) = left(&[clauses]);
    assert!(block == left(&[FORBIDS, "04", clauses]).0);
    assert!(block == left(&[save]).0);
}

/// A declined line, which leaves the block as it is.
fn refused(line: &str, number: u8) {
    let reply = format!("FF{number:02X}");
    for before in [&[][..], &[THREE], &[FORBIDS, "04"]] {
        let lines = [before, &[line]].concat();
        assert_eq!(last(&lines), reply, "{line}");
        assert!(left(&lines).0 == left(before).0, "{line}");
    }
}

#[test]
fn clauses_are_saved_as_a_load() {
    assert_eq!(last(&[THREE]), ZERO);
    saved(THREE, "010200010202000002000000000000000000010001000000000000000001000005");
    assert_eq!(last(&[THREE, "060000000A"]), "8601000000060000000000010100");
    // One entry by a clause and by the same turned over.
    saved(
        "09020001000201020000050201000007",
        "01020001020200000000000000000000000001000100000000000000000000000C",
    );
    // A clause of weight 0 makes its pair.
    saved(
        "09030001000103FF000000",
        "01030001020202000000000000000000000000000000000000010002000000000000000000000000",
    );
    // Three pairs, named in another order, and a scale of 2.
    saved(
        "09030002000303FE000004FF030000060201000008",
        "010300020202020000000000000000000000000000000000000300010000000000000000000000080002000000\
         0000060000000000000102000000000004000000000000",
    );
    // No clause: all costs are 0.
    saved("090100010000", "010100010200000000000000");
    saved("090200030000", &format!("010200030202{}00", "0".repeat(24)));
}

/// Each literal alone and each two signs: what a plan fails.
#[test]
fn literals_charge_the_other_choice() {
    for (first, choices) in [(1, "000000000007"), (-1, "000007000000")] {
        let save = format!("01010001 02 {choices} 00").replace(' ', "");
        saved(&line(1, &[(first, 0, 7)]), &save);
    }
    for (literals, entries) in [
        ((1, 2), "000000000000000000000007"),
        ((1, -2), "000000000000000007000000"),
        ((-1, 2), "000000000007000000000000"),
        ((-1, -2), "000007000000000000000000"),
    ] {
        let save = format!("010200010202{}010001{entries}", "0".repeat(24));
        saved(&line(2, &[(literals.0, literals.1, 7)]), &save);
        saved(&line(2, &[(literals.1, literals.0, 7)]), &save);
    }
    // Both clauses of one on one train, both signs: each choice costs its own.
    saved(&line(1, &[(1, 0, 2), (-1, 0, 3), (1, 0, 4)]), "010100010200000300000600");
}

#[test]
fn literals_that_are_refused() {
    for literals in [
        (0, 1),
        (0, 0),
        (0, 3),
        (3, 0),
        (-3, 0),
        (3, 1),
        (1, 3),
        (1, -3),
        (-128, 0),
        (1, -128),
        (127, 1),
        (1, 1),
        (1, -1),
        (-2, 2),
        (-2, -2),
        (-128, -128),
    ] {
        let clause = (literals.0, literals.1, 1);
        refused(&line(2, &[clause]), 19);
        refused(&line(2, &[(1, 2, 3), clause]), 19);
        // Before the weight is looked for, and before it is judged.
        let wrong = line(2, &[clause]);
        refused(&wrong[..wrong.len() - 6], 19);
        refused(&line(2, &[(literals.0, literals.1, 0xFF_FFFF)]), 19);
        // The first clause that is wrong, by whatever it has.
        refused(&line(2, &[(1, 2, 1_000_001), clause]), 7);
        refused(&line(2, &[clause, (1, 2, 1_000_001)]), 19);
    }
    refused("0902000100010001", 19);
    refused("0902000100018000000001", 19);
    refused("09020001000101FF000001", 19);
    // A missing second literal is 5, whatever the first is.
    refused("09020001000100", 5);
    refused("09020001000180", 5);
    assert_eq!(last(&[&line(24, &[(24, -23, 1)])]), ZERO);
    refused(&line(24, &[(25, -23, 1)]), 19);
    refused(&line(24, &[(24, -25, 1)]), 19);
}

#[test]
fn fields_from_left_to_right() {
    // n, s and count are judged as soon as they are read, and before any clause is looked for.
    for (line, number) in [
        ("09", 5),
        ("0900", 6),
        ("0919", 6),
        ("0901", 5),
        ("090100", 5),
        ("09010000", 6),
        ("090103E9", 6),
        ("09010001", 5),
        ("0901000100", 5),
        ("0901000101F5", 6),
        ("09010001FFFF", 6),
        ("0901000101F50000", 6),
        ("0901000101F4", 5),
        ("090100010001", 5),
        ("09010001000101", 5),
        ("0901000100010100", 5),
        ("09010001000101000000", 5),
        ("09010001000001", 5),
        ("0902000100010102FFFFFF", 7),
        ("09020001000101020F4241", 7),
        ("09020001000101020F4241FF", 7),
        ("090200010001010200000100", 5),
        ("0902000100010102000001FFFF", 5),
    ] {
        refused(line, number);
    }
    // 2, 1 and 3 come before all fields; 4 is not judged.
    assert_eq!(last(&["090"]), "FF01");
    assert_eq!(last(&["09010001000g"]), "FF01");
    assert_eq!(last(&["10"]), "FF03");
    assert_eq!(last(&["090100010000"]), ZERO);
    assert_eq!(last(&["09020001000101020F4240"]), ZERO);
}

#[test]
fn counts_have_a_limit() {
    let clauses = |count: usize| vec![(1, 2, 2_000); count];
    let at_limit = line(2, &clauses(500));
    saved(&at_limit, "0102000102020000000000000000000000000100010000000000000000000F4240");
    refused(&line(2, &clauses(501)), 6);
    // With a weight of 2,001 in one of them the sum is one above.
    let mut above = clauses(500);
    above[250].2 = 2_001;
    refused(&line(2, &above), 10);
}

#[test]
fn pairs_have_a_limit() {
    let with = |more: &[(i64, i64, i64)], pairs: usize| line(24, &[&naming(pairs), more].concat());
    assert_eq!(last(&[&with(&[], 48)]), ZERO);
    refused(&with(&[], 49), 20);
    // Turned over, repeated, with other signs and of one: still 48 pairs.
    assert_eq!(last(&[&with(&[(2, 1, 1), (-1, 2, 1), (1, 2, 1), (24, 0, 1), (-24, 0, 1)], 48)]), ZERO);
    // A pair of weight 0 counts.
    refused(&with(&[(23, 24, 0)], 48), 20);
    // Bytes left over are 5 before 20, and 20 is before 10.
    refused(&format!("{}00", with(&[], 49)), 5);
    let above = [(1, 2, 1_000_000), (5, 0, 1_000_000), (5, 0, 1)];
    refused(&with(&above, 49), 20);
    refused(&with(&above, 48), 10);
    refused(&format!("{}00", with(&above, 48)), 5);
    // 19, 7 and 5 of a clause behind the 49th pair are before 20.
    refused(&with(&[(0, 1, 1)], 49), 19);
    refused(&with(&[(1, 2, 1_000_001)], 49), 7);
    let whole = with(&[(1, 2, 1)], 49);
    refused(&whole[..whole.len() - 2], 5);
}

#[test]
fn sums_have_a_limit() {
    refused("09020001000201000F42400100000001", 10);
    refused("09020001000201020F42400201000001", 10);
    assert_eq!(last(&[&line(2, &[(1, 2, 999_999), (2, 1, 1), (1, 0, 1_000_000), (-1, 0, 1_000_000)])]), ZERO);
    refused(&line(2, &[(-1, 0, 1_000_000), (1, 2, 3), (-1, 0, 1)]), 10);
    refused(&line(2, &[(-1, -2, 999_999), (1, 2, 3), (-2, -1, 2)]), 10);
    // Many sums at the limit, and plans above it: only entries are judged.
    let many: Vec<_> = naming(48).into_iter().map(|(i, j, _)| (i, j, 1_000_000)).collect();
    assert_eq!(replies(&[&line(24, &many), "08"])[0], ZERO);
}

/// A study of clauses is one like every other: adds, shifts, tightenings, rounds, certificates, searches, saves.
#[test]
fn lines_after_clauses() {
    let lines = [THREE, "04", "060000000A", "020000000003", "07", "08", "0700", "02000200"];
    let answers = [
        ZERO,
        "84000000000001000000000001",
        "8601000000050000000000010100",
        "82000000000001000000000001",
        "010200010202000005000000000000000000010001000000000000000001000005",
        "88000000000001000000000001",
        "FF05",
        "FF09",
    ];
    assert_eq!(replies(&lines), answers);
    assert_eq!(last(&[THREE, "08", "060000000A"]), "8601000000050000000000010100");
    let all_of_one = "05000001000000000001000001000000000000000000000001000000";
    assert_eq!(last(&[THREE, "08", all_of_one]), "85010000000000000001000001");
}

/// What was seen of lines of clauses, and of what came after them.
#[derive(Default)]
struct Watch {
    seen: Seen,
    /// Whether the block is one that an accepted line of clauses began.
    after: bool,
}

impl Watch {
    fn call(&mut self, call: &Call, given: &[i64], outcome: &Outcome) {
        let reply = outcome.reply();
        if matches!(call.setting, Setting::Edited(_)) {
            self.after = false;
        }
        for kind in ["82", "83", "84", "85", "86", "01", "88", "FF0C", "FF0E"] {
            self.seen
                .count(format!("after clauses: {kind}"), self.after && reply.starts_with(kind.as_bytes()));
        }
        if call.line.starts_with(b"09") {
            self.clauses(&call.line, given, reply);
        }
        match reply.get(..2) {
            Some(b"81") => self.after = false,
            Some(b"89") => self.after = !matches!(call.setting, Setting::Length(_)),
            _ => {}
        }
    }

    fn clauses(&mut self, line: &[u8], given: &[i64], reply: &[u8]) {
        let accepted = reply == ZERO.as_bytes();
        assert!(accepted || !reply.starts_with(b"89"));
        self.seen.count("on a fresh block", accepted && given[0] == 0);
        self.seen.count("over a study", accepted && given[0] > 0);
        self.seen.count("over forbidden entries", accepted && given.contains(&FORBIDDEN));
        self.seen.count("17", reply.is_empty());
        let Ok((_, fields)) = lines::open(line) else { return };
        if decode(given).is_ok() && !reply.is_empty() {
            self.ends(line, reply);
        }
        let Ok(clauses) = lines::clauses(fields) else { return };
        if accepted || reply == b"FF0A" || reply == b"FF14" {
            self.right(&clauses, reply);
        }
    }

    /// Lines whose fields are right: 20 and 10 are left.
    fn right(&mut self, clauses: &Clauses, reply: &[u8]) {
        let Clauses { trains, scale, list } = clauses;
        let mut sums: BTreeMap<[i64; 2], Vec<i64>> = BTreeMap::new();
        let mut turned = false;
        for Clause { literals: [first, second], weight } in list {
            turned |= *second != 0 && sums.contains_key(&[*second, *first]);
            let entry = if first.abs() < second.abs() { [*first, *second] } else { [*second, *first] };
            sums.entry(entry).or_default().push(*weight);
        }
        let named: BTreeSet<_> =
            sums.keys().filter(|entry| entry[0] != 0).map(|entry| entry.map(i64::abs)).collect();
        let sum = |limit: i64, of_one: bool| {
            let reaches = |weights: &Vec<i64>| weights.len() > 1 && weights.iter().sum::<i64>() == limit;
            sums.iter().any(|(entry, weights)| (entry[0] == 0) == of_one && reaches(weights))
        };
        let above = sums.values().any(|weights| weights.iter().sum::<i64>() > 1_000_000);
        let accepted = reply.starts_with(b"89");
        let mut seen = |case: &str, holds: bool| self.seen.count(case, holds);
        seen("no clause", accepted && list.is_empty());
        seen("one clause", accepted && list.len() == 1);
        seen("500 clauses", accepted && list.len() == 500);
        seen("one train", accepted && *trains == 1 && !list.is_empty());
        seen("24 trains", accepted && *trains == 24);
        seen("a scale above 1", accepted && *scale > 1);
        seen("no pair", accepted && named.is_empty() && !list.is_empty());
        seen("48 pairs", accepted && named.len() == 48);
        seen("49 pairs", reply == b"FF14" && named.len() == 49);
        seen("more pairs", reply == b"FF14" && named.len() > 49);
        seen("20 before 10", reply == b"FF14" && above);
        seen("a clause turned over", accepted && turned);
        seen("repeated clauses", accepted && sums.values().any(|weights| weights.len() > 2));
        let zero = |(entry, weights): (&[i64; 2], &Vec<i64>)| {
            entry[0] != 0 && weights.iter().all(|&weight| weight == 0)
        };
        seen("an entry of weight 0", accepted && sums.iter().any(zero));
        seen(
            "pairs of weight 0 alone",
            accepted && !named.is_empty() && sums.iter().all(|entry| entry.0[0] == 0 || zero(entry)),
        );
        for weight in [0, 1, 1_000_000] {
            let has = list.iter().any(|clause| clause.weight == weight);
            seen(&format!("a weight of {weight}"), accepted && has);
        }
        for of_one in [false, true] {
            let entry = if of_one { "a choice" } else { "a pair" };
            seen(&format!("{entry} at the limit"), accepted && sum(1_000_000, of_one));
            seen(&format!("{entry} one above"), reply == b"FF0A" && sum(1_000_001, of_one));
        }
    }

    /// Lines that end where they are refused: by the first clause that is wrong, or behind the last.
    fn ends(&mut self, line: &[u8], reply: &[u8]) {
        let byte = |place: usize| {
            let digits = line.get(2 * place..2 * place + 2)?;
            i64::from_str_radix(std::str::from_utf8(digits).ok()?, 16).ok()
        };
        let literal = |place: usize| byte(place).map(|byte| i64::from(byte as u8 as i8));
        let (Some(n), Some(high), Some(low)) = (byte(1), byte(4), byte(5)) else { return };
        let count = (high * 256 + low) as usize;
        let whole = 6 + 5 * count;
        let length = line.len() / 2;
        let mut seen = |case: &str, holds: bool| self.seen.count(case, holds);
        seen("501 clauses, all there", reply == b"FF06" && count == 501 && length == whole);
        seen("more than 500, not there", reply == b"FF06" && count > 500 && length < whole);
        seen("bytes left over", reply == b"FF05" && length > whole);
        seen("cut behind the count", reply == b"FF05" && length == 6 && count > 0);
        seen("cut behind a first literal", reply == b"FF05" && length < whole && length % 5 == 2);
        seen("cut behind both literals", reply == b"FF05" && length < whole && length % 5 == 3);
        seen("cut in a weight", reply == b"FF05" && length < whole && length % 5 == 4);
        let named: BTreeSet<_> = (0..count)
            .filter_map(|k| {
                let mut both = [literal(6 + 5 * k)?.abs(), literal(7 + 5 * k)?.abs()];
                both.sort();
                Some(both).filter(|both| both[0] != 0)
            })
            .collect();
        seen("5 before 20", reply == b"FF05" && length > whole && named.len() > 48);
        let weights = (0..count)
            .filter_map(|k| Some((byte(8 + 5 * k)? * 256 + byte(9 + 5 * k)?) * 256 + byte(10 + 5 * k)?));
        let weights: Vec<i64> = weights.collect();
        seen("a weight of FFFFFF", reply == b"FF07" && weights.contains(&0xFF_FFFF));
        seen("a weight of 1,000,001", reply == b"FF07" && weights.contains(&1_000_001));
        if reply == b"FF13" {
            self.wrong(n, count, &literal, &weights);
        }
    }

    /// The first clause with wrong literals.
    fn wrong(&mut self, n: i64, count: usize, literal: &dyn Fn(usize) -> Option<i64>, weights: &[i64]) {
        let clause = |k: usize| Some((k, literal(6 + 5 * k)?, literal(7 + 5 * k)?));
        let is_wrong = |&(_, first, second): &(usize, i64, i64)| {
            first == 0 || first.abs() == second.abs() || first.abs().max(second.abs()) > n
        };
        let (k, first, second) = (0..count).filter_map(clause).find(is_wrong).expect("19");
        let mut seen = |case: &str, holds: bool| self.seen.count(format!("19: {case}"), holds);
        seen("the first clause", k == 0);
        seen("a later clause", k > 0);
        seen("the first literal 0, the second of a train", first == 0 && second != 0 && second.abs() <= n);
        seen("both literals 0", first == 0 && second == 0);
        seen("the first literal absent", first.abs() > n && second.abs() <= n);
        seen("the second literal absent", second.abs() > n && first != 0 && first.abs() <= n);
        seen("n + 1", first == n + 1 || second == n + 1);
        seen("−(n + 1)", first == -n - 1 || second == -n - 1);
        seen("−128", first == -128 || second == -128);
        seen("one train twice, one sign", first != 0 && first == second && first.abs() <= n);
        seen("one train twice, both signs", first != 0 && first == -second && first.abs() <= n);
        seen("a weight that is wrong too", weights.get(k).is_some_and(|&weight| weight > 1_000_000));
    }
}

#[test]
fn the_generator_reaches_every_line_of_clauses() {
    let mut watch = Watch::default();
    plain_sessions(1_600, |call, given, outcome| watch.call(call, given, outcome));
    watch.seen.each_over(5);
}
