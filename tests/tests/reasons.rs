//! Change 8: why a choice is out, by the document, and the generator's reach among its lines.

use reference::calls::{Call, Outcome};
use reference::generator::plain_sessions;
use reference::lines;
use reference::model::{decode, Study, BLOCK_LENGTH};
use reference::radio::SUM_CHARACTERS;
use reference::reasons::{beside, reason, Question, Reason};
use reference::LEAST_BUFFER;
use seen::Seen;
use session::{last, replies};

mod seen;
mod session;

const J: &str = "010200010202000002000000000000000000010001000001000000000003000002";
/// Three trains of two choices, of which train 0 and train 1 are partners, and each of them is train 2's.
const G: &str = "\
    0103000102020200000000000000000000000000000100000003000100000200000300000000000000020000040000040000000000000102\
    000000000000000000000007";
/// A scale of 2.
const HALF: &str = "01020002010100000100000100";
/// Forbidden choices of train 0 and of train 1, and forbidden entries in the row and in the column of others.
const F: &str = "\
    01030001020202FFFFFF000000000000FFFFFF000005000001020001000000000000FFFFFF0000030102000000000000000000000000";
const CLAUSES: &str = "0902000100030102000005FF00000002FE01000001";

/// The replies to lines of kind 0A, with these fields each, behind others from fresh; they leave the block as it is.
fn explained(before: &[&str], rows: &[(&str, &str)]) {
    let mut block = vec![0; BLOCK_LENGTH];
    let mut reply = [0; LEAST_BUFFER];
    for line in before {
        reference::answer(line.as_bytes(), &mut block, &mut reply);
    }
    let left = block.clone();
    for (fields, expected) in rows {
        let line = format!("0A{fields}");
        let written = reference::answer(line.as_bytes(), &mut block, &mut reply);
        assert_eq!(String::from_utf8_lossy(&reply[..written]), *expected, "{line}");
        assert!(block == left, "{line}");
    }
}

#[test]
fn own_costs_and_partners() {
    explained(
        &[J],
        &[
            ("000000000002", "8A01FF"),
            ("000000000003", "8A00FF"),
            ("000100000002", "8A0201"),
            ("000100000003", "8A00FF"),
            ("010000000001", "8A0200"),
            ("010100000001", "8A0200"),
            ("010100000000", "8A01FF"),
        ],
    );
    // The constant counts, here 2.
    explained(
        &[J, "04"],
        &[
            ("010000000003", "8A01FF"),
            ("010000000004", "8A00FF"),
            ("000000000002", "8A01FF"),
            ("000000000003", "8A00FF"),
        ],
    );
}

/// Each pair is judged alone, and the first that reaches the limit is named.
#[test]
fn pairs_in_order() {
    explained(
        &[G],
        &[
            ("000000000002", "8A0201"),
            ("000000000003", "8A0202"),
            ("000000000004", "8A0202"),
            ("000000000005", "8A00FF"),
            ("010100000001", "8A0202"),
        ],
    );
}

/// "Judged in parts, against s × limit": 3 parts against 4, and against 2.
#[test]
fn parts_are_not_rounded() {
    explained(
        &[HALF, "03000000000001000000000000"],
        &[("010000000002", "8A00FF"), ("010000000001", "8A01FF")],
    );
}

#[test]
fn forbidden_choices_and_entries() {
    explained(
        &[F],
        &[
            ("0000FFFFFFFF", "8A01FF"),
            // Neither entry of the row leads to a permitted choice.
            ("000100000001", "8A0201"),
            ("010000000001", "8A0200"),
            ("010100000009", "8A01FF"),
        ],
    );
    // A forbidden choice is 01 at every limit.
    explained(&[F], &[("000000000000", "8A01FF"), ("000000000001", "8A01FF"), ("010100000000", "8A01FF")]);
}

#[test]
fn studies_written_as_clauses() {
    explained(
        &[CLAUSES],
        &[
            ("000000000002", "8A01FF"),
            ("000000000003", "8A00FF"),
            ("010100000002", "8A0200"),
            ("010100000003", "8A00FF"),
        ],
    );
}

#[test]
fn fields_from_left_to_right() {
    assert_eq!(last(&["0A000000000001"]), "FF04");
    assert_eq!(last(&["0A"]), "FF04");
    assert_eq!(last(&["0A0"]), "FF01");
    explained(
        &[J],
        &[
            ("", "FF05"),
            ("02", "FF09"),
            ("FF", "FF09"),
            ("00", "FF05"),
            ("0002", "FF09"),
            ("01FF", "FF09"),
            ("0000", "FF05"),
            ("0000000000", "FF05"),
            ("00000000000A", "8A00FF"),
            ("00000000000A00", "FF05"),
            // Every limit of four bytes will do.
            ("0000FFFFFFFF", "8A00FF"),
            ("000080000000", "8A00FF"),
            ("000000000000", "8A01FF"),
        ],
    );
    // 9 is judged before the rest is looked for.
    assert_eq!(replies(&[J, "0A0200000000010000"])[1], "FF09");
    // A reason changes nothing for the lines behind it.
    let lines = [J, "0A000100000002", "04", "0A000100000002", "060000000A", "07"];
    let answers = ["8A0201", "84000000000002000000000002", "8A01FF", "8601000000030000000000020001", J];
    assert_eq!(replies(&lines)[1..], answers);
}

/// What was seen of lines of kind 0A.
#[derive(Default)]
struct Watch {
    seen: Seen,
    /// How the reply to the last line that changed the block begins.
    after: String,
}

impl Watch {
    fn call(&mut self, call: &Call, given: &[i64], outcome: &Outcome) {
        let reply = outcome.reply();
        if call.line.starts_with(b"0A") {
            assert!(reply.is_empty() || call.capacity >= LEAST_BUFFER - SUM_CHARACTERS);
            self.refused(&call.line, given, reply);
            if let Ok(Some(study)) = decode(given) {
                if reply.starts_with(b"8A") {
                    self.explained(&call.line, &study, reply);
                }
            }
        }
        let start = String::from_utf8_lossy(&reply[..reply.len().min(2)]).into_owned();
        if ["81", "82", "83", "84", "88", "89"].contains(&start.as_str()) {
            self.after = start;
        }
    }

    fn refused(&mut self, line: &[u8], given: &[i64], reply: &[u8]) {
        let mut seen = |case: &str, holds: bool| self.seen.count(case, holds);
        seen("4, all there", reply == b"FF04" && line.len() == 14);
        seen("5, left over", reply == b"FF05" && line.len() > 14 && given[0] > 0);
        seen("5, cut in the limit", reply == b"FF05" && (6..14).contains(&line.len()));
        seen("5, cut before", reply == b"FF05" && line.len() < 6);
        let train =
            line.get(2..4).and_then(|digits| i64::from_str_radix(std::str::from_utf8(digits).ok()?, 16).ok());
        let absent = train.is_some_and(|train| train >= given.first().copied().unwrap_or(0));
        seen("9, the train", reply == b"FF09" && absent);
        seen("9, the choice", reply == b"FF09" && !absent);
        seen("17", reply.is_empty());
        seen("16", reply == b"FF10");
    }

    fn explained(&mut self, line: &[u8], study: &Study, reply: &[u8]) {
        let Ok((_, fields)) = lines::open(line) else { panic!("an accepted line") };
        let Ok(question) = lines::question(fields, study) else { panic!("an accepted line") };
        let Question { train, choice, limit } = question;
        let reason = reason(study, &question);
        let out = |limit: i64| crate::reason(study, &Question { train, choice, limit });
        // With a lower limit a choice that is out stays out, and 01 stays 01.
        if limit > 0 {
            assert!(reason == Reason::Neither || out(limit - 1) != Reason::Neither);
            assert!(reason != Reason::Own || out(limit - 1) == Reason::Own);
        }
        let bar = study.scale * limit;
        let own = study.trains[train].held(choice).map(|cost| study.constant + cost);
        let pairs: Vec<_> =
            study.pairs.iter().filter_map(|pair| beside(study, pair, train, choice)).collect();
        let sum = |least: Option<i64>| own.zip(least).map(|(own, least)| own + least);
        let is = |begins: &str| reply.starts_with(begins.as_bytes());
        let mut seen = |case: &str, holds: bool| self.seen.count(case, holds);
        seen("01, a forbidden choice", is("8A01") && own.is_none());
        seen("01, a forbidden choice against 0", is("8A01") && own.is_none() && limit == 0);
        seen("01, a forbidden choice against FFFFFFFF", is("8A01") && own.is_none() && limit == 0xFFFF_FFFF);
        seen("01, just reached", is("8A01") && own == Some(bar) && limit > 0);
        seen("01, with a constant", is("8A01") && own.is_some_and(|own| own - study.constant < bar));
        seen(
            "01 before 02",
            is("8A01") && own.is_some() && pairs.iter().any(|pair| sum(pair.1) >= Some(bar)),
        );
        seen("one part short of 01", !is("8A01") && own == Some(bar - 1));
        seen("one point short of 01", !is("8A01") && own == Some(bar - study.scale));
        seen(
            "short of 01, by a part of a point",
            !is("8A01") && own.is_some_and(|own| study.points(own) == limit),
        );
        seen("00, no pair", is("8A00") && pairs.is_empty());
        seen("00, pairs", is("8A00") && pairs.len() > 1);
        seen("00, FFFFFFFF", is("8A00") && limit == 0xFFFF_FFFF);
        seen("01, 0", is("8A01") && limit == 0 && own.is_some());
        seen("00, one part short of 02", is("8A00") && pairs.iter().any(|pair| sum(pair.1) == Some(bar - 1)));
        seen(
            "00, short of 02 by a part of a point",
            is("8A00") && pairs.iter().any(|pair| sum(pair.1).is_some_and(|sum| study.points(sum) == limit)),
        );
        // The pairs together reach what none of them does.
        let all: i64 = pairs.iter().filter_map(|pair| pair.1).sum();
        seen("00, the pairs' sum reaches", is("8A00") && own.is_some_and(|own| own + all >= bar));
        if let Reason::Partner(partner) = reason {
            self.partner(study, &question, partner);
        }
        for kind in ["81", "82", "83", "84", "88", "89"] {
            for begins in ["8A00", "8A01", "8A02"] {
                self.seen.count(format!("{begins} behind {kind}"), self.after == kind && is(begins));
            }
        }
    }

    /// A reply of 02 with this partner.
    fn partner(&mut self, study: &Study, question: &Question, partner: usize) {
        let &Question { train, choice, limit } = question;
        let bar = study.scale * limit;
        let own = study.constant + study.trains[train].held(choice).expect("a permitted choice");
        let pairs: Vec<_> =
            study.pairs.iter().filter_map(|pair| beside(study, pair, train, choice)).collect();
        let reaches = |&&(_, least): &&(usize, Option<i64>)| least.is_none_or(|least| own + least >= bar);
        let least = pairs.iter().find(|pair| pair.0 == partner).and_then(|pair| pair.1);
        let table = study.pairs.iter().find(|pair| pair.trains == [train.min(partner), train.max(partner)]);
        let table = &table.expect("a partner's pair").costs;
        let side = usize::from(partner < train);
        let entries: Vec<_> = table.line(side, choice).zip(&study.trains[partner].entries).collect();
        let by_entry = entries.iter().any(|(cell, cost)| table.held(*cell).is_none() && cost.is_some());
        let by_choice = entries.iter().any(|(cell, cost)| table.held(*cell).is_some() && cost.is_none());
        let mut seen = |case: &str, holds: bool| self.seen.count(case, holds);
        seen("02, of higher number", partner > train);
        seen("02, of lower number", partner < train);
        seen("02, just reached", least.is_some_and(|least| own + least == bar));
        seen("02, no partner choice", least.is_none());
        seen("02, no partner choice, by entries and by choices", least.is_none() && by_entry && by_choice);
        seen("02, an entry passed over", least.is_some() && by_entry);
        seen("02, a choice passed over", least.is_some() && by_choice);
        seen("02, a later pair", pairs[0].0 != partner);
        seen("02, others behind", pairs.iter().filter(reaches).count() > 1);
        seen("02, FFFFFFFF", bar == study.scale * 0xFFFF_FFFF);
    }
}

#[test]
fn the_generator_reaches_every_reason() {
    let mut watch = Watch::default();
    plain_sessions(2_000, |call, given, outcome| watch.call(call, given, outcome));
    watch.seen.each_over(5);
}
