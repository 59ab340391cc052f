//! Change 11: the record of a plan, by the document, and the generator's reach among records.

use reference::calls::{Call, Outcome, Setting};
use reference::generator::plain_sessions;
use reference::model::{decode, Study, BLOCK_LENGTH};
use reference::records::{cost, entries, length, plan};
use reference::steps::step;
use reference::{LEAST_BUFFER, LONGEST_REPLY};
use seen::Seen;
use session::{last, replies};

mod seen;
mod session;

const J: &str = "010200010202000002000000000000000000010001000001000000000003000002";
/// All costs are multiples of 5. Choice 1 of train 0 is forbidden, and so is its entry beside choice 0 of train 1.
const F: &str = "01020001020200000AFFFFFF00000A00000A01000100000500000FFFFFFF000005";
/// Clauses 1 ∨ 2 of weight 5, −1 of weight 2 and −2 ∨ 1 of weight 1.
const Q: &str = "0902000100030102000005FF00000002FE01000001";
/// Two trains of one choice, each cost 1, with a scale of 2.
const HALF: &str = "01020002010100000100000100";
/// A shift of two trains of two choices that lifts 7 parts from train 1.
const SEVEN: &str = "03000000000000000000000007000000000000000000000000000000000000000000000000";
const ZERO: &str = "81000000000000000000000000";

/// A study of so many trains of one choice, each cost 1, without pairs.
fn ones(n: usize) -> String {
    format!("01{n:02X}0001{}{}00", "01".repeat(n), "000001".repeat(n))
}

/// The block that lines leave, from fresh.
fn left(lines: &[&str]) -> Vec<i64> {
    let mut block = vec![0; BLOCK_LENGTH];
    for line in lines {
        reference::answer(line.as_bytes(), &mut block, &mut [0; LEAST_BUFFER]);
    }
    block
}

/// The reply to a line on a block in a buffer of this length. The block and the buffer behind the reply stay.
fn asked(block: &[i64], capacity: usize, line: &str) -> String {
    let mut after = block.to_vec();
    let mut reply = vec![7; capacity];
    let written = reference::answer(line.as_bytes(), &mut after, &mut reply);
    assert!(after == block && reply[written..].iter().all(|&byte| byte == 7), "{line}");
    String::from_utf8(reply[..written].to_vec()).unwrap()
}

/// The replies to lines, each on the block that others leave from fresh.
fn rows(before: &[&str], rows: &[(&str, &str)]) {
    let block = left(before);
    for (line, expected) in rows {
        assert_eq!(asked(&block, LEAST_BUFFER, line), *expected, "{line}");
    }
}

/// "8E, record, with the published bound", and the plan's total in H.
#[test]
fn records_are_written() {
    let lines = [J, "0E0001", "04", "0E0001", "0E0000"];
    let answers = [
        ZERO,
        "8E020001000000000000000000000002",
        "84000000000002000000000002",
        "8E020001000000000002000000000002",
        "8E020000000000000002000000000003",
    ];
    assert_eq!(replies(&lines), answers);
    rows(
        &[J, "04"],
        &[("0E0100", "8E020100000000000002000000000003"), ("0E0101", "8E020101000000000002000000000002")],
    );
    // In points, whatever the scale is: bound and cost are no parts. Of 1 part the bound is 1 point.
    rows(&[HALF], &[("0E0000", "8E020000000000000000000000000002")]);
    rows(&[HALF, "03000000000001000000000000"], &[("0E0000", "8E020000000000000001000000000002")]);
    rows(&[HALF, "04"], &[("0E0000", "8E020000000000000002000000000002")]);
    // One train.
    rows(&["010100010100000500", "04"], &[("0E00", "8E0100000000000005000000000005"), ("0E01", "FF16")]);
}

/// 4, then 5 whole, then 22: "9 not used", and nothing is judged while it is read.
#[test]
fn records_that_are_not_written() {
    for line in ["0E0001", "0E", "0E00FFFF"] {
        assert_eq!(last(&[line]), "FF04", "{line}");
    }
    rows(
        &[J, "04"],
        &[
            ("0E00", "FF05"),
            ("0E", "FF05"),
            ("0E000100", "FF05"),
            ("0EFF", "FF05"),
            ("0EFFFFFF", "FF05"),
            ("0E0002", "FF16"),
            ("0E0200", "FF16"),
            ("0E00FF", "FF16"),
            ("0EFFFF", "FF16"),
            ("0E0", "FF01"),
            ("0e0001", "FF01"),
        ],
    );
    assert_eq!(last(&[J, "10"]), "FF03");
}

/// "Kind 0C reads one for screens: 8C, n and choices." Bound and cost may be any twelve bytes.
#[test]
fn screens_read_records() {
    assert_eq!(last(&["0C020001000000000000000000000002"]), "FF04");
    assert_eq!(last(&["0C"]), "FF04");
    rows(
        &[J, "04"],
        &[
            ("0C020001000000000002000000000002", "8C020001"),
            ("0C020001FFFFFFFFFFFF123456789ABC", "8C020001"),
            ("0C020100000000000000000000000000", "8C020100"),
            ("0C020001FFFFFFFFFFFFFFFFFFFFFFFF", "8C020001"),
            // 22: another n in a record that is as long as it says, and choices that a train hasn't.
            ("0C03000100000000000002000000000002", "FF16"),
            ("0C00000000000000000000000000", "FF16"),
            ("0C0100000000000002000000000002", "FF16"),
            ("0C020002000000000002000000000002", "FF16"),
            ("0C020200000000000002000000000002", "FF16"),
            ("0C02FF01FFFFFFFFFFFF000000000000", "FF16"),
            ("0C02000100000000000200000000000g", "FF01"),
            ("0C02000100000000000200000000000", "FF01"),
        ],
    );
}

/// "A record read is as long as its own first byte says": 13 bytes and that many, whatever the block's n is.
#[test]
fn records_of_another_length() {
    let whole = |k: usize| format!("{k:02X}{}", "00".repeat(k + 12));
    for kind in ["0C", "0D"] {
        for text in ["", "02", "0200", "020001", "0300010000000000020000000000", "02000100000000000200000000"]
        {
            let line = format!("{kind}{text}");
            assert_eq!(last(&[J, "04", &line]), "FF05", "{line}");
        }
        for k in [0, 1, 2, 3, 24, 25, 255] {
            let record = whole(k);
            let expected = match (k, kind) {
                (2, "0C") => "8C020000",
                (2, _) => "FF17",
                _ => "FF16",
            };
            assert_eq!(last(&[J, "04", &format!("{kind}{record}")]), expected, "{kind} {k}");
            // A byte less or more, and n alone another one: 5 comes before 22 and 23.
            let less = &record[..record.len() - 2];
            for text in [less, &format!("{record}00"), &format!("{:02X}{}", (k + 1) % 256, &record[2..])] {
                assert_eq!(last(&[J, "04", &format!("{kind}{text}")]), "FF05", "{kind} {k}");
            }
        }
    }
}

/// "Kind 0D reads one for planners: 8D and the record", as it was read. 22 comes before 23.
#[test]
fn planners_read_records() {
    assert_eq!(last(&["0D020001000000000000000000000002"]), "FF04");
    rows(
        &[J, "04"],
        &[
            ("0D020001000000000002000000000002", "8D020001000000000002000000000002"),
            ("0D020001000000000001000000000002", "8D020001000000000001000000000002"),
            ("0D020001000000000000000000000002", "8D020001000000000000000000000002"),
            // The bound need not be the published one: here it is above it, and not above the cost.
            ("0D020000000000000003000000000003", "8D020000000000000003000000000003"),
            ("0D020001000000000003000000000002", "FF17"),
            ("0D020000000000000004000000000003", "FF17"),
            // The cost.
            ("0D020001000000000002000000000003", "FF17"),
            ("0D020001000000000001000000000001", "FF17"),
            ("0D020001000000000000000000000000", "FF17"),
            ("0D020001FFFFFFFFFFFF123456789ABC", "FF17"),
            // Both are unsigned: a first digit of 8 or F says no number below 0.
            ("0D020001FFFFFFFFFFFF000000000002", "FF17"),
            ("0D020001800000000000000000000002", "FF17"),
            ("0D020001000000000000800000000002", "FF17"),
            // 22 before 23.
            ("0D020002000000000003000000000001", "FF16"),
            ("0D020200FFFFFFFFFFFFFFFFFFFFFFFF", "FF16"),
            ("0D03000100000000000002000000000002", "FF16"),
            ("0D00000000000000000000000000", "FF16"),
        ],
    );
}

/// "Cost isn't the plan's total in H": as H is now, additions included.
#[test]
fn records_from_before_an_addition() {
    let record = "020001000000000002000000000002";
    let lines = [J, "04", "020101000005", &format!("0D{record}"), &format!("0C{record}"), "0E0001"];
    let answers = [
        ZERO,
        "84000000000002000000000002",
        "82000000000002000000000002",
        "FF17",
        "8C020001",
        "8E020001000000000002000000000007",
    ];
    assert_eq!(replies(&lines), answers);
    // An addition to another choice, or of no points, leaves the record right.
    for add in ["020001000005", "020101000000"] {
        assert_eq!(last(&[J, "04", add, &format!("0D{record}")]), format!("8D{record}"), "{add}");
    }
}

/// "A forbidden entry (never for 0C)": a forbidden choice is no absent one, and the least cost is not looked for.
#[test]
fn forbidden_entries() {
    rows(
        &[F],
        &[
            ("0E0100", "FF17"),
            ("0C020100000000000000000000000000", "8C020100"),
            ("0D020100000000000000000000000000", "FF17"),
            // What the permitted entries come to, and what all come to with −1 for each forbidden one.
            ("0D02010000000000000000000000000A", "FF17"),
            ("0D020100000000000000000000000008", "FF17"),
            // Forbidden by the choice alone: 10 for train 1 and 5 for the pair.
            ("0E0101", "FF17"),
            ("0D02010100000000000000000000000F", "FF17"),
            ("0C02010100000000000000000000000F", "8C020101"),
            ("0E0102", "FF16"),
        ],
    );
    // Forbidden by the pair's entry alone: J without choices 0 and 0 together.
    let barred = J.replace("0001000001", "0001FFFFFF");
    rows(
        &[&barred],
        &[
            ("0E0000", "FF17"),
            ("0D020000000000000000000000000002", "FF17"),
            ("0C020000000000000000000000000002", "8C020000"),
            ("0E0001", "8E020001000000000000000000000002"),
        ],
    );
}

/// "With the published bound", in steps of the tariff. A record read may have any bound up to the cost.
#[test]
fn bounds_in_steps_of_the_tariff() {
    rows(&[F, "04"], &[("0E0001", "8E020001000000000019000000000023")]);
    assert_eq!(last(&[F, SEVEN]), "8300000000000700000000000A");
    rows(
        &[F, SEVEN],
        &[
            ("0E0001", "8E02000100000000000A000000000023"),
            ("0D02000100000000000A000000000023", "8D02000100000000000A000000000023"),
            ("0D020001000000000007000000000023", "8D020001000000000007000000000023"),
            ("0D020001000000000023000000000023", "8D020001000000000023000000000023"),
            ("0D020001000000000024000000000023", "FF17"),
        ],
    );
}

/// "Choices are by train number", whatever the order of trains is.
#[test]
fn orders_change_no_record() {
    let lines = [Q, "0B0100", "0E0100"];
    let answers = ["89000000000000000000000000", "8B0100", "8E020100000000000000000000000001"];
    assert_eq!(replies(&lines), answers);
    rows(
        &[Q, "0B0100"],
        &[
            ("0C020100000000000000000000000001", "8C020100"),
            ("0D020100000000000000000000000001", "8D020100000000000000000000000001"),
            // By the order it would be plan 0 1, which costs 2.
            ("0D020100000000000000000000000002", "FF17"),
            ("0E0001", "8E020001000000000000000000000002"),
        ],
    );
    // Sizes differ: choice 2 is train 1's.
    let uneven = "01020001020300000000000000000000000000000900";
    for order in ["0B0001", "0B0100"] {
        let rows_of = [("0E0002", "8E020002000000000000000000000009"), ("0E0200", "FF16")];
        rows(&[uneven, order], &rows_of);
    }
}

/// "17 as for a save comes last": a record of n choices needs 28 + 2n characters, and a screen's reply 4 + 2n.
#[test]
fn buffers_that_are_too_short() {
    let zeros = "00".repeat(24);
    let record = |cost: &str| format!("18{zeros}0000000000000000000000{cost}");
    let block = left(&[&ones(24)]);
    let written = format!("8E{}", record("18"));
    let planner = |cost: &str| format!("0D{}", record(cost));
    for capacity in [LEAST_BUFFER, 75] {
        assert_eq!(asked(&block, capacity, &format!("0E{zeros}")), "");
        assert_eq!(asked(&block, capacity, &planner("18")), "");
        assert_eq!(asked(&block, capacity, &format!("0C{}", record("18"))), format!("8C18{zeros}"));
        // 5, 22 and 23 come before it.
        assert_eq!(asked(&block, capacity, &planner("19")), "FF17");
        assert_eq!(asked(&block, capacity, &format!("0D18{}{}", "01".repeat(24), "00".repeat(12))), "FF16");
        assert_eq!(asked(&block, capacity, &format!("0E{}", "01".repeat(24))), "FF16");
        assert_eq!(asked(&block, capacity, &format!("0E{zeros}00")), "FF05");
    }
    for capacity in [76, LONGEST_REPLY] {
        assert_eq!(asked(&block, capacity, &format!("0E{zeros}")), written);
        assert_eq!(asked(&block, capacity, &planner("18")), planner("18").replacen("0D", "8D", 1));
    }
    for line in [format!("0E{zeros}"), planner("19"), format!("0C{}", record("18")), "0E".into()] {
        assert_eq!(asked(&block, LEAST_BUFFER - 1, &line), "", "{line}");
    }
    // The least buffer just holds a record of 23 trains; one of 24 needs two characters more.
    for (n, capacity, holds) in
        [(23, 73, false), (23, 74, true), (24, 74, false), (24, 75, false), (24, 76, true)]
    {
        let reply = asked(&left(&[&ones(n)]), capacity, &format!("0E{}", "00".repeat(n)));
        assert_eq!(reply.len(), if holds { 28 + 2 * n } else { 0 }, "{n} in {capacity}");
        assert_eq!(length(n), 28 + 2 * n);
    }
}

/// The reply to a line on the block that J leaves, with this change of it.
fn changed(setting: &str, line: &str) -> String {
    let mut block = left(&[J]);
    let call = Call::parse(format!("{LEAST_BUFFER} {setting} {line}").as_bytes()).unwrap();
    String::from_utf8(call.run(reference::answer, &mut block).reply().to_vec()).unwrap()
}

/// Blocks that no line makes: H alone says what a plan costs, and 0E gives 23 where the published bound is above that.
#[test]
fn blocks_that_no_line_makes() {
    assert_eq!(changed("3=9", "0E0001"), "FF17");
    assert_eq!(changed("3=2", "0E0001"), "8E020001000000000002000000000002");
    assert_eq!(changed("3=3", "0E0001"), "FF17");
    assert_eq!(changed("3=3", "0E0000"), "8E020000000000000003000000000003");
    // A record read needs no published bound.
    assert_eq!(changed("3=9", "0D020001000000000002000000000002"), "8D020001000000000002000000000002");
    assert_eq!(changed("3=9", "0C020001000000000002000000000002"), "8C020001");
    // H of train 0, choice 0, and T of it.
    assert_eq!(changed("124=5", "0E0001"), "8E020001000000000000000000000005");
    assert_eq!(changed("316=5", "0E0001"), "8E020001000000000000000000000002");
    // H of the pair's entry 0 1, and T of it.
    assert_eq!(changed("509=4", "0E0001"), "8E020001000000000000000000000006");
    assert_eq!(changed("3581=4", "0E0001"), "8E020001000000000000000000000002");
    // With these costs in the places of J's the step is 2: the bound of 3 parts is 4.
    let even = "124=4,316=4,508=2,3580=2,516=2,3588=2";
    assert_eq!(changed(&format!("{even},3=3"), "0E0101"), "FF17");
    assert_eq!(changed(&format!("{even},3=3"), "0E0001"), "8E020001000000000004000000000004");
    for line in ["0C020001000000000002000000000002", "0D02", "0E0001", "0E"] {
        assert_eq!(changed("1=0", line), "FF10", "{line}");
        assert_eq!(changed("len=6675", line), "FF10", "{line}");
    }
}

/// "A screen's answer depends on no bound or cost byte", accepted or refused.
#[test]
fn a_screen_depends_on_no_figure() {
    let longest = format!("FF{}", "00".repeat(255));
    let fronts = ["020001", "020002", "03000100", "00", "020100", "0101", &longest];
    for before in [&[][..], &[J], &[F], &[J, "04", "020101000005"]] {
        let block = left(before);
        for front in fronts {
            for digits in [0, 10, 22, 24, 26] {
                let answer = |figures: &str| {
                    asked(&block, LEAST_BUFFER, &format!("0C{front}{}", &figures.repeat(26)[..digits]))
                };
                let first = answer("0");
                for figures in ["F", "80", "0000000000020"] {
                    assert_eq!(answer(figures), first, "{front} {digits}");
                }
            }
        }
    }
}

/// "A record that both take shows both the same choices", on any two blocks.
#[test]
fn both_are_shown_the_same_choices() {
    let three = "010200010303000000000001000002000000000001000002000000";
    let blocks: Vec<Vec<i64>> = [&[J][..], &[F], &[Q], &[three], &[J, "04"], &[Q, "0B0100"]]
        .iter()
        .map(|lines| left(lines))
        .collect();
    let mut both = 0;
    for choices in ["0000", "0001", "0100", "0101", "0202", "0002"] {
        for cost in 0..40 {
            let record = format!("02{choices}0000000000000000000000{cost:02X}");
            for [shown, read] in blocks.iter().flat_map(|b| blocks.iter().map(move |c| [b, c])) {
                let screen = asked(shown, LEAST_BUFFER, &format!("0C{record}"));
                let planner = asked(read, LEAST_BUFFER, &format!("0D{record}"));
                if screen.starts_with("8C") && planner.starts_with("8D") {
                    assert_eq!(screen[2..], planner[2..8]);
                    assert_eq!(planner[2..], record);
                    both += 1;
                }
            }
        }
    }
    assert!(both > 50, "{both}");
}

/// "A written record is taken by both straight afterwards, in a buffer as long", by either first.
#[test]
fn a_written_record_is_taken_by_both() {
    let studies =
        [&[J][..], &[J, "04"], &[F, SEVEN], &[Q, "0B0100"], &[HALF, "04"], &[&ones(23)], &[&ones(24)]];
    for before in studies {
        let block = left(before);
        let n = block[0] as usize;
        let plan = "00".repeat(n);
        let capacity = LEAST_BUFFER.max(28 + 2 * n);
        let written = asked(&block, capacity, &format!("0E{plan}"));
        let record = written.strip_prefix("8E").expect("a record is written");
        for kinds in [["0C", "0D"], ["0D", "0C"]] {
            for kind in kinds {
                let expected = match kind {
                    "0C" => format!("8C{n:02X}{plan}"),
                    _ => format!("8D{record}"),
                };
                assert_eq!(asked(&block, capacity, &format!("{kind}{record}")), expected);
            }
        }
    }
}

/// The bytes of a line behind its kind, where it is a line of digits.
fn bytes(line: &[u8]) -> Option<Vec<i64>> {
    let all = line.len().is_multiple_of(2) && line.iter().all(|digit| b"0123456789ABCDEF".contains(digit));
    let digits = std::str::from_utf8(line.get(2..)?).ok().filter(|_| all)?;
    let number = |place: usize| i64::from_str_radix(&digits[place..place + 2], 16).ok();
    (0..digits.len()).step_by(2).map(number).collect()
}

/// A line of kind 0C, 0D or 0E on a loaded block.
struct Line<'a> {
    kind: &'a str,
    numbers: Vec<i64>,
    study: &'a Study,
    capacity: usize,
    reply: &'a [u8],
}

impl Line<'_> {
    fn is(&self, kind: &str, reply: &[u8]) -> bool {
        self.kind == kind && self.reply.starts_with(reply)
    }

    fn n(&self) -> usize {
        self.study.trains.len()
    }

    /// The choices and, of a record, bound and cost, where the line is long enough.
    fn parts(&self) -> Option<(&[i64], [i64; 2])> {
        if self.kind == "0E" {
            return Some((&self.numbers, [0, 0]));
        }
        let k = *self.numbers.first()? as usize;
        let figures = self.numbers.get(1 + k..).filter(|figures| figures.len() == 12)?;
        let number = |bytes: &[i64]| bytes.iter().fold(0, |number, byte| number << 8 | byte);
        Some((&self.numbers[1..1 + k], [number(&figures[..6]), number(&figures[6..])]))
    }
}

/// What was seen of records.
#[derive(Default)]
struct Watch {
    seen: Seen,
    /// The last record that was written, with its choices, and whether an addition to one of them came since.
    written: Option<(Vec<u8>, Vec<i64>, bool)>,
}

impl Watch {
    fn call(&mut self, call: &Call, given: &[i64], outcome: &Outcome) {
        let (line, reply) = (&call.line[..], outcome.reply());
        let kind = String::from_utf8_lossy(&line[..line.len().min(2)]).into_owned();
        if ["0C", "0D", "0E"].contains(&&kind[..]) && !matches!(call.setting, Setting::Length(_)) {
            assert!(outcome.block == given);
            let study = decode(given);
            self.seen.count(format!("{kind}: 4"), matches!(study, Ok(None)) && reply == b"FF04");
            self.seen.count(format!("{kind}: 16"), study.is_err() && reply == b"FF10");
            if let (Ok(Some(study)), Some(numbers)) = (study, bytes(line)) {
                let (kind, capacity) = (&kind[..], call.capacity);
                self.line(&Line { kind, numbers, study: &study, capacity, reply });
                self.again(line, &study, reply);
            }
        }
        self.remember(line, reply);
    }

    fn line(&mut self, line: &Line) {
        self.lengths(line);
        self.buffers(line);
        let Some((choices, figures)) = line.parts() else { return };
        self.not_held(line, choices);
        let Ok(plan) = plan(line.study, choices) else { return };
        if line.kind == "0D" {
            self.figures(line, &plan, figures);
        }
        if line.kind == "0E" {
            self.written(line, &plan);
        }
        self.accepted(line, &plan);
        self.read(line, &plan, figures);
    }

    /// Cases of 5.
    fn lengths(&mut self, line: &Line) {
        let (n, numbers) = (line.n(), &line.numbers);
        let count = numbers.len();
        let refused = line.reply == b"FF05";
        let kind = line.kind;
        let mut seen =
            |case: &str, holds: bool| self.seen.count(format!("{kind}: 5, {case}"), refused && holds);
        seen("no first byte", count == 0);
        if kind == "0E" {
            seen("a byte less", count + 1 == n && n > 1);
            seen("a byte more", count == n + 1);
            seen("before 22", count > n && plan(line.study, &numbers[..n]).is_err());
            return;
        }
        let Some(&k) = numbers.first() else { return };
        let k = k as usize;
        seen("a byte less", count == 12 + k);
        seen("a byte more", count == 14 + k);
        seen("no figures", count == 1 + k);
        seen("as long as the block's n asks for", count == 13 + n && k != n);
        seen("n of 255", k == 255);
        let front = numbers.get(1..1 + k).filter(|_| k == n);
        seen("before 22", front.is_some_and(|choices| plan(line.study, choices).is_err()));
    }

    /// Cases of 22.
    fn not_held(&mut self, line: &Line, choices: &[i64]) {
        let (study, n, k) = (line.study, line.n(), choices.len());
        let kind = line.kind;
        let refused = line.reply == b"FF16";
        if line.capacity >= LEAST_BUFFER && line.reply != b"FF05" {
            assert_eq!(refused, plan(study, choices).is_err());
        }
        let mut seen =
            |case: &str, holds: bool| self.seen.count(format!("{kind}: 22, {case}"), refused && holds);
        let above = study.trains.iter().zip(choices).filter(|(costs, &a)| a >= costs.columns as i64);
        let at = |(costs, &a): (&reference::model::Costs, &i64)| a == costs.columns as i64;
        seen("one choice at its size", k == n && above.clone().count() == 1 && above.clone().all(at));
        seen("a choice of 255", k == n && choices.contains(&255));
        seen("24 trains", k == n && n == 24);
        if kind != "0E" {
            seen("n = 0", k == 0);
            seen("n = 255", k == 255);
            seen("a choice less, the others held", k + 1 == n && k > 0 && above.clone().count() == 0);
            seen("a choice more, the others held", k == n + 1 && above.count() == 0);
        }
    }

    /// Cases of 23 for planners.
    fn figures(&mut self, line: &Line, plan: &[usize], [bound, given]: [i64; 2]) {
        let study = line.study;
        let total = cost(study, plan);
        let refused = line.reply == b"FF17";
        if line.capacity >= LEAST_BUFFER {
            assert_eq!(refused, total != Some(given) || bound > given);
        }
        let choices = || plan.iter().zip(&study.trains).map(|(&a, costs)| costs.entries[a]);
        let barred = choices().any(|entry| entry.is_none());
        let permitted = || entries(study, plan).flatten();
        let sum: i64 = permitted().map(|cost| cost.loaded).sum();
        let held = study.constant + permitted().map(|cost| cost.held).sum::<i64>();
        let by_t = [held, study.points(held)].contains(&given);
        let is = |cost: i64| total == Some(cost);
        let mut seen = |case: &str, holds: bool| self.seen.count(format!("0D: 23, {case}"), refused && holds);
        seen("a forbidden choice, the cost of the others", barred && given == sum && bound <= given);
        seen(
            "a pair's forbidden entry alone, the cost of the others",
            total.is_none() && !barred && given == sum && bound <= given,
        );
        seen("one point more", is(given - 1) && bound <= given);
        seen("one point less", is(given + 1) && bound <= given);
        seen("a cost by T", total.is_some() && !is(given) && by_t);
        seen("a cost of no first digit below 8", total.is_some() && given >> 47 == 1);
        seen("a bound of one more than the cost", is(given) && bound == given + 1);
        seen("a bound of no first digit below 8", is(given) && bound >> 47 == 1);
        seen("a bound of FFFFFFFFFFFF", bound == 0xFFFF_FFFF_FFFF);
    }

    /// Cases of 23 for what is written.
    fn written(&mut self, line: &Line, plan: &[usize]) {
        let study = line.study;
        let (total, bound) = (cost(study, plan), study.bound());
        let refused = line.reply == b"FF17";
        if line.capacity >= LEAST_BUFFER {
            assert_eq!(refused, total.is_none_or(|total| bound > total));
        }
        let barred = plan.iter().zip(&study.trains).any(|(&a, costs)| costs.entries[a].is_none());
        let mut seen = |case: &str, holds: bool| self.seen.count(format!("0E: 23, {case}"), refused && holds);
        seen("a forbidden choice", barred);
        seen("a pair's forbidden entry alone", total.is_none() && !barred);
        seen("the bound above by a step", total.is_some_and(|total| bound == total + step(study)));
        seen(
            "the bound above by a part of a point",
            total.is_some_and(|total| {
                step(study) == 1
                    && study.constant > study.scale * total
                    && study.constant < study.scale * (total + 1)
            }),
        );
        seen("L", study.constant == reference::model::TOP);
    }

    /// Cases of 17, and of buffers that just do.
    fn buffers(&mut self, line: &Line) {
        let (n, capacity, reply) = (line.n(), line.capacity, line.reply);
        let kind = line.kind;
        let mut seen = |case: &str, holds: bool| self.seen.count(format!("{kind}: {case}"), holds);
        seen("17 before all", capacity < LEAST_BUFFER && reply.is_empty());
        let fits = capacity >= LEAST_BUFFER;
        let shown = reply.starts_with(b"8");
        if kind == "0C" {
            assert!(!fits || !reply.is_empty());
            seen("24 trains in the least buffer", n == 24 && capacity == LEAST_BUFFER && shown);
            return;
        }
        assert!(!(fits && reply.is_empty()) || capacity < length(n));
        let last = fits && reply.is_empty();
        seen("17, 24 trains in the least buffer", last && n == 24 && capacity == LEAST_BUFFER);
        seen("17, 24 trains, a character short", last && n == 24 && capacity + 1 == length(n));
        for trains in [22, 23, 24] {
            seen(&format!("{trains} trains just fit"), shown && n == trains && capacity == length(n));
        }
        seen("22 in a short buffer", reply == b"FF16" && fits && capacity < length(n));
        seen("23 in a short buffer", reply == b"FF17" && fits && capacity < length(n));
    }

    /// Studies of accepted lines.
    fn accepted(&mut self, line: &Line, plan: &[usize]) {
        let study = line.study;
        let kind = line.kind;
        let shown = line.reply.starts_with(b"8");
        let mut seen = |case: &str, holds: bool| self.seen.count(format!("{kind}: {case}"), shown && holds);
        let n = plan.len();
        seen("one train", n == 1);
        seen("24 trains", n == 24);
        seen("pairs", !study.pairs.is_empty());
        seen("a scale above 1", study.scale > 1);
        seen("a constant", study.constant > 0);
        seen("in another order", !study.order.is_sorted());
        let turned: Vec<i64> = study.order.iter().map(|&train| plan[train] as i64).collect();
        let other = reference::records::plan(study, &turned).ok().and_then(|other| cost(study, &other));
        seen("in another order, by which it would cost more or less", cost(study, plan) != other);
        seen("forbidden entries in the study", !study.permits_all());
        let held = study.constant + entries(study, plan).flatten().map(|cost| cost.held).sum::<i64>();
        seen("T has nothing to do with H", cost(study, plan).is_some_and(|cost| held != study.scale * cost));
        seen("choices of 7", plan.contains(&7));
    }

    /// Accepted records by their figures.
    fn read(&mut self, line: &Line, plan: &[usize], [bound, given]: [i64; 2]) {
        let study = line.study;
        let total = cost(study, plan);
        let published = study.bound();
        let mut seen = |case: &str, holds: bool| self.seen.count(case, holds);
        let screen = line.is("0C", b"8C");
        seen("0C: a forbidden entry", screen && total.is_none());
        seen("0C: another cost", screen && total.is_some_and(|total| given != total));
        seen("0C: a bound above the cost", screen && total == Some(given) && bound > given);
        seen("0C: right", screen && total == Some(given) && bound <= given);
        let planner = line.is("0D", b"8D");
        seen("0D: the published bound", planner && bound == published && bound > 0);
        seen("0D: a bound below it", planner && bound < published && bound > 0);
        seen("0D: a bound above it", planner && bound > published);
        seen("0D: a bound that is the cost", planner && bound == given && given > 0);
        seen("0D: a bound of 0 below another", planner && bound == 0 && published > 0);
        seen("0D: a bound that is no multiple of the step", planner && bound % step(study) != 0);
        seen("0D: the published bound is above the cost", planner && published > given);
        let write = line.is("0E", b"8E");
        seen("0E: a bound that is the cost", write && total == Some(published) && published > 0);
        seen("0E: a bound below the cost", write && total > Some(published) && published > 0);
        seen("0E: a bound by steps", write && published > study.points(study.constant));
        seen("0E: a bound by parts of a point", write && study.constant % study.scale != 0);
    }

    /// A record that was written, read straight afterwards or later.
    fn again(&mut self, line: &[u8], study: &Study, reply: &[u8]) {
        let Some((record, choices, added)) = &self.written else { return };
        if line[2..] != record[..] || plan(study, choices).is_err() {
            return;
        }
        let mut seen = |case: &str, holds: bool| self.seen.count(format!("written: {case}"), holds);
        seen("shown", line.starts_with(b"0C") && reply.starts_with(b"8C") && !added);
        seen("read", line.starts_with(b"0D") && reply.starts_with(b"8D") && !added);
        seen("shown after an addition", line.starts_with(b"0C") && reply.starts_with(b"8C") && *added);
        seen("refused after an addition", line.starts_with(b"0D") && reply == b"FF17" && *added);
    }

    fn remember(&mut self, line: &[u8], reply: &[u8]) {
        match reply.get(..2) {
            Some(b"8E") => self.written = Some((reply[2..].to_vec(), bytes(line).unwrap(), false)),
            Some(b"81" | b"89") => self.written = None,
            Some(b"82") => {
                let numbers = bytes(line).unwrap();
                let points = numbers[2..].iter().sum::<i64>() > 0;
                if let Some((_, choices, added)) = &mut self.written {
                    *added |= points && choices.get(numbers[0] as usize) == Some(&numbers[1]);
                }
            }
            _ => {}
        }
    }
}

#[test]
fn the_generator_reaches_every_record() {
    let mut watch = Watch::default();
    plain_sessions(3_000, |call, given, outcome| watch.call(call, given, outcome));
    watch.seen.each_over(5);
}
