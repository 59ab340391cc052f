//! Change 14: lines over train radio, by the document, and the generator's reach among second forms.

use reference::calls::{Call, Setting};
use reference::generator::sessions;
use reference::lines::{self, digits, Kind, LONGEST_LOAD};
use reference::model::{decode, BLOCK_LENGTH};
use reference::radio::{is_second, plain_form, plain_reply, second_form, sum};
use reference::second_forms::SecondForms;
use reference::{answer, LEAST_BUFFER, LONGEST_REPLY};
use seen::Seen;
use session::{last, replies};

mod seen;
mod session;

const J: &str = "010200010202000002000000000000000000010001000001000000000003000002";
const J_RADIO: &str = "410200010202000002000000000000000000010001000001000000000003000002AE";
/// The reply to a load by radio.
const ZERO: &str = "C10000000000000000000000003F";
const WRONG: &str = "FF19E8";

/// The reply to a line on a block in a buffer of this length. The block and the buffer behind the reply stay.
fn asked(block: &[i64], capacity: usize, line: &str) -> String {
    let mut after = block.to_vec();
    let mut reply = vec![7; capacity];
    let written = answer(line.as_bytes(), &mut after, &mut reply);
    assert!(after == block && reply[written..].iter().all(|&byte| byte == 7), "{line}");
    String::from_utf8(reply[..written].to_vec()).unwrap()
}

/// The block that lines leave, from fresh.
fn left(lines: &[&str]) -> Vec<i64> {
    let mut block = vec![0; BLOCK_LENGTH];
    for line in lines {
        answer(line.as_bytes(), &mut block, &mut [0; LONGEST_REPLY]);
    }
    block
}

/// A study of so many trains of one choice, each cost 1, without pairs.
fn ones(n: usize) -> String {
    format!("01{n:02X}0001{}{}00", "01".repeat(n), "000001".repeat(n))
}

/// Bytes as text.
fn text(bytes: &[u8]) -> String {
    String::from_utf8(digits(bytes)).unwrap()
}

/// A plain line's second form.
fn by_radio(line: &str) -> String {
    String::from_utf8(second_form(line.as_bytes()).unwrap()).unwrap()
}

/// Lines with their replies, each on the block that those above left.
const ROWS: [(&str, &str); 33] = [
    // On a fresh block: 25 goes before 4, and 3 and 1 before 25.
    ("44", WRONG),
    ("4F", WRONG),
    ("44BC", "FF04FD"),
    ("40C0", "FF03"),
    ("50B0", "FF03"),
    ("440", "FF01"),
    ("44bc", "FF01"),
    (J_RADIO, ZERO),
    ("41020001020200000200000000000000000001000100000100000000000300000200", WRONG),
    // A byte 00 behind the sum keeps it right, and AE is left over.
    ("410200010202000002000000000000000000010001000001000000000003000002AE00", "FF05FC"),
    ("44BC", "C400000000000200000000000238"),
    ("44BD", WRONG),
    ("45000001000001000000000000000001000000000001000000000000B7", "C501000000000000000200000137"),
    ("460000000AB0", "C60100000003000000000002000133"),
    // "Saving straight after any accepted line of kind 01 gives back that line", by radio in its second form.
    ("47B9", J_RADIO),
    ("07", J),
    ("4E0001B1", "CE0200010000000000020000000000022B"),
    // Two bounds and costs, two right sums, one answer.
    ("4C020001000000000002000000000002AD", "CC02000131"),
    ("4C02000100000000000000000000FFFFB3", "CC02000131"),
    ("4C02000100000000000000000000FFFF00", WRONG),
    ("4D020001000000000003000000000002AB", "FF17EA"),
    // The sum is no field, and bytes left over stand before it.
    ("4400BC", "FF05FC"),
    ("420200000001BB", "FF09F8"),
    ("4C03B1", "FF05FC"),
    ("4A000000000005B1", "CA00FF37"),
    ("4B0100B4", "CB010034"),
    ("4F020202AB", "41020001020200000000000000000100000100B6"),
    ("48B8", "C800000000000200000000000234"),
    ("4902000100030102000005FF00000002FE01000001A8", "C900000000000000000000000037"),
    ("41020001020200000000000000000100000100B6", ZERO),
    ("4600000006B4", "C60100000006000000000001000032"),
    ("07", "01020001020200000000000000000100000100"),
    ("0600000006", "8601000000060000000000010000"),
];

#[test]
fn the_worked_rows() {
    let (lines, expected): (Vec<&str>, Vec<&str>) = ROWS.into_iter().unzip();
    assert_eq!(replies(&lines), expected);
    // A shown line loads again.
    assert_eq!(replies(&[J_RADIO, "44BC", "47B9", J_RADIO, "47B9"])[2..], [J_RADIO, ZERO, J_RADIO]);
}

/// "The limit in 2 becomes 19,836 characters, its example 19,837 zeros", "and the buffer of 17 becomes 74 for all lines".
#[test]
fn limits() {
    let zeros = |count: usize| "0".repeat(count);
    assert_eq!(last(&[&zeros(19_837)]), "FF02");
    assert_eq!(last(&[&zeros(19_836)]), "FF03");
    assert_eq!(last(&[J, &format!("04{}", zeros(19_834))]), "FF05");
    assert_eq!(last(&[J, &format!("04{}", zeros(19_836))]), "FF02");
    assert_eq!(last(&[J, &format!("44{}", zeros(19_834))]), WRONG);
    assert_eq!(last(&[J, &format!("44BC{}", zeros(19_832))]), "FF05FC");
    assert_eq!(last(&[J, &format!("44BC{}", zeros(19_834))]), "FF02");
    let block = left(&[J, "04"]);
    for line in ["06000003E8", "460000000AB0", "44BD", "47B9", "440", "FF"] {
        assert_eq!(asked(&block, 73, line), "", "{line}");
        assert_ne!(asked(&block, 74, line), "", "{line}");
    }
}

/// 16 comes first and stays plain, whatever the sum is.
#[test]
fn blocks_of_no_line() {
    let block = left(&[J]);
    for (place, number) in [(0, 25), (3, -1), (BLOCK_LENGTH - 1, 1)] {
        let mut damaged = block.clone();
        damaged[place] = number;
        for line in ["44BC", "44BD", "40C0", "440", J_RADIO] {
            assert_eq!(asked(&damaged, LEAST_BUFFER, line), "FF10", "{line}");
            assert_eq!(asked(&block[1..], LEAST_BUFFER, line), "FF10", "{line}");
        }
    }
}

/// "Kinds 41 to 4F": a right sum behind every first byte.
#[test]
fn every_kind() {
    let block = left(&[J]);
    for kind in 0..=u8::MAX {
        let line = [kind, kind.wrapping_neg()];
        let reply = asked_of_a_copy(&block, &text(&line));
        let known = |number: Option<u8>| number.and_then(Kind::of).is_some();
        assert_eq!(is_second(&digits(&line)), known(kind.checked_sub(0x40)), "{kind}");
        assert_eq!(is_second(&digits(&line)), (0x41..=0x4F).contains(&kind), "{kind}");
        match kind {
            0x44 => assert_eq!(reply, "C400000000000200000000000238"),
            0x47 => assert_eq!(reply, J_RADIO),
            0x48 => assert_eq!(reply, "C800000000000200000000000234"),
            0x41..=0x4F => assert_eq!(reply, "FF05FC", "{kind}"),
            0x01 | 0x09 | 0x0F => assert_eq!(reply, "FF06", "{kind}"),
            0x02 | 0x0A => assert_eq!(reply, "FF09"),
            0x03..=0x0E => assert_eq!(reply, "FF05", "{kind}"),
            _ => assert_eq!(reply, "FF03", "{kind}"),
        }
    }
}

fn asked_of_a_copy(block: &[i64], line: &str) -> String {
    let mut reply = vec![0; LONGEST_REPLY];
    let written = answer(line.as_bytes(), &mut block.to_vec(), &mut reply);
    String::from_utf8(reply[..written].to_vec()).unwrap()
}

/// One last byte of 256 is right, and no other one changes the block; a line without its sum is refused too.
#[test]
fn every_sum() {
    let before = left(&[J, "0B0100"]);
    for line in ["4B0001", "44", "48", "4102000102020000020000000000000000000100010000010000000000030000020"]
    {
        let line = if line.len() % 2 == 1 { &line[..line.len() - 1] } else { line };
        let right = |byte: &u8| sum(&lines::bytes(format!("{line}{byte:02X}").as_bytes()).unwrap()) == 0;
        assert_eq!((0..=u8::MAX).filter(right).count(), 1);
        for byte in 0..=u8::MAX {
            let line = format!("{line}{byte:02X}");
            if right(&byte) {
                assert_ne!(asked_of_a_copy(&before, &line), WRONG, "{line}");
            } else {
                assert_eq!(asked(&before, LEAST_BUFFER, &line), WRONG, "{line}");
            }
        }
        assert_eq!(asked(&before, LEAST_BUFFER, line), WRONG, "{line}");
    }
}

/// "Every kind so far has this second form."
#[test]
fn second_forms() {
    for kind in 1..=15 {
        for fields in ["", "00", "0001", "FF", "0102030405"] {
            let line = format!("{kind:02X}{fields}");
            let second = by_radio(&line);
            assert_eq!(second[..2], format!("{:02X}", kind + 0x40));
            assert_eq!(second[2..2 + fields.len()], *fields);
            assert_eq!(second.len(), line.len() + 2);
            assert_eq!(sum(&lines::bytes(second.as_bytes()).unwrap()), 0);
            assert_eq!(plain_form(second.as_bytes()).unwrap(), line.as_bytes());
        }
    }
    for line in ["", "0", "00", "10", "0a", "44BC", "FF"] {
        assert!(second_form(line.as_bytes()).is_none(), "{line}");
    }
    assert_eq!(by_radio(J), J_RADIO);
    let longest = format!("01{}", "0".repeat(LONGEST_LOAD - 2));
    assert_eq!(by_radio(&longest).len(), 19_836);
    assert!(second_form(format!("{longest}00").as_bytes()).is_none());
    assert_eq!(plain_reply(b"FF10"), b"FF10");
    assert_eq!(plain_reply(b"FF05FC"), b"FF05");
    assert_eq!(plain_reply(ZERO.as_bytes()), b"81000000000000000000000000");
    assert_eq!(plain_reply(J_RADIO.as_bytes()), J.as_bytes());
}

/// A reply by radio "fits where plain reply and two characters fit", in buffers of 74 and 75 too.
#[test]
fn buffers() {
    let block = left(&[&ones(24)]);
    let zeros = "0".repeat(48);
    for capacity in [74, 75, 76] {
        let found = format!("C60100000018000000000018{zeros}09");
        assert_eq!(found.len(), 74);
        assert_eq!(asked(&block, capacity, "46000000FFBB"), found);
    }
    let write = format!("4E{zeros}B2");
    let record = format!("{zeros}00000000000000000000001802");
    for capacity in [74, 75, 76, 77] {
        assert_eq!(asked(&block, capacity, &write), "");
    }
    assert_eq!(asked(&block, 78, &write), format!("CE18{record}"));
    let planner = by_radio(&format!("0D18{}", &record[..72]));
    assert_eq!(asked(&block, 77, &planner), "");
    assert_eq!(asked(&block, 78, &planner).len(), 78);
    // Records of 22 and 23 trains.
    for (n, capacity, holds) in [(22, 74, true), (23, 74, false), (23, 75, false), (23, 76, true)] {
        let reply = asked(&left(&[&ones(n)]), capacity, &by_radio(&format!("0E{}", "00".repeat(n))));
        assert_eq!(reply.len(), if holds { 30 + 2 * n } else { 0 }, "{n} in {capacity}");
    }
    // A save of 108 characters, and a line of as many for sizes; refusals come before 17.
    const K: &str =
        "010300020202020000010000000000000000030000020000020200010000000000040000010000000102000005\
                     0000010000000F4240";
    let block = left(&[K]);
    for (capacity, holds) in [(74, false), (108, false), (109, false), (110, true), (111, true)] {
        assert_eq!(asked(&block, capacity, "47B9"), if holds { by_radio(K) } else { String::new() });
        assert_eq!(asked(&block, capacity, "4700B9"), "FF05FC");
        assert_eq!(asked(&block, capacity, "47BA"), WRONG);
    }
    assert_eq!(asked(&block, 110, &by_radio("0F020808")), "");
    assert_eq!(asked(&block, 112, &by_radio("0F020808")).len(), 112);
    assert_eq!(asked(&block, 74, &by_radio("0F080808080808080808")), "FF18E9");
}

/// The longest line there is, and the longest reply.
#[test]
fn the_longest_line_by_radio() {
    let cost = "0F4240";
    let pairs = (0..24).flat_map(|i| (i + 1..24).map(move |j| (i, j))).take(48);
    let pairs: String = pairs.map(|(i, j)| format!("{i:02X}{j:02X}{}", cost.repeat(64))).collect();
    let load = by_radio(&format!("011803E8{}{}30{pairs}", "08".repeat(24), cost.repeat(24 * 8)));
    assert_eq!(load.len(), 19_836);
    assert_eq!(replies(&[&load, "47B9"]), [ZERO, &load]);
    let block = left(&[&load]);
    assert_eq!(asked(&block, 19_836, "47B9"), load);
    assert_eq!(asked(&block, 19_835, "47B9"), "");
    assert_eq!(asked(&block, 19_835, "07").len(), 19_834);
}

/// What is promised of lines by radio, by lists of lines in both forms.
#[test]
fn what_is_said_of_them() {
    let mut seen = SecondForms::default();
    for seed in 0..200 {
        if let Err(claim) = seen.check_session(answer, seed, 50) {
            panic!("{claim}");
        }
    }
    let SecondForms { twins, single, sums, wrong, empty, ill_formed, .. } = seen;
    assert!(twins.iter().all(|&count| count > 100) && single > 500, "{seen:?}");
    assert!(sums.iter().all(|&count| count > 500), "{seen:?}");
    assert!(wrong > 200 && empty > 100 && ill_formed > 100, "{seen:?}");
    let SecondForms { screens, given_back, loaded, records, .. } = seen;
    assert!(screens.iter().all(|&count| count > 10), "{seen:?}");
    assert!(given_back > 100 && loaded > 100 && records > 50, "{seen:?}");
}

/// The refusals of each kind, from 4 on.
const REFUSALS: [(u8, &[u8]); 15] = [
    (0x41, &[5, 6, 7, 8]),
    (0x42, &[4, 5, 7, 9, 10]),
    (0x43, &[4, 5, 11, 12]),
    (0x44, &[4, 5]),
    (0x45, &[4, 5, 13, 14]),
    (0x46, &[4, 5, 15]),
    (0x47, &[4, 5]),
    (0x48, &[4, 5]),
    (0x49, &[5, 6, 7, 19, 20]),
    (0x4A, &[4, 5, 9]),
    (0x4B, &[4, 5, 21]),
    (0x4C, &[4, 5, 22]),
    (0x4D, &[4, 5, 22, 23]),
    (0x4E, &[4, 5, 22, 23]),
    (0x4F, &[5, 6, 24]),
];

/// What was seen of second forms.
#[derive(Default)]
struct Watch(Seen);

impl Watch {
    fn count(&mut self, case: impl Into<String>, holds: bool) {
        self.0.count(case, holds);
    }

    fn call(&mut self, call: &Call, given: &[i64], reply: &[u8]) {
        let line = &call.line[..];
        self.count("19,836 characters", line.len() == 19_836);
        self.count("19,837 characters", line.len() == 19_837);
        self.others(line, reply);
        if !is_second(line) {
            return;
        }
        let bytes = lines::bytes(line).unwrap();
        let well_formed =
            decode(given).is_ok() && matches!(call.setting, Setting::AsLeft | Setting::Edited(_));
        let sum = sum(&bytes);
        self.count(format!("{:02X}: a right sum", bytes[0]), sum == 0);
        self.count(format!("{:02X}: a wrong sum", bytes[0]), reply == WRONG.as_bytes());
        self.count("16", !well_formed && reply == b"FF10");
        if !well_formed {
            return;
        }
        assert!(call.capacity < LEAST_BUFFER || (reply == WRONG.as_bytes()) == (sum != 0));
        self.sums(&bytes, decode(given).unwrap().is_none(), reply);
        if sum == 0 {
            self.answers(bytes[0], reply);
            self.buffers(call, given, reply);
        }
    }

    /// Numbers that are no kind's, with a right sum, and what comes before 25.
    fn others(&mut self, line: &[u8], reply: &[u8]) {
        let Ok(bytes) = lines::bytes(line) else {
            let second = line.first() == Some(&b'4');
            return self
                .count("1, a line of another count", second && line.len() % 2 == 1 && reply == b"FF01");
        };
        let refused = reply == b"FF03" && sum(&bytes) == 0;
        self.count("3, 40", refused && bytes[0] == 0x40);
        self.count("3, 50", refused && bytes[0] == 0x50);
        self.count("3, 51 to 5F", refused && (0x51..0x60).contains(&bytes[0]));
        self.count("3, 80 and upward", refused && bytes[0] > 0x7F);
    }

    /// Wrong sums by what they would be right for, and right ones that a line has by chance.
    fn sums(&mut self, bytes: &[u8], fresh: bool, reply: &[u8]) {
        let wrong = reply == WRONG.as_bytes();
        let (front, last) = (&bytes[..bytes.len() - 1], bytes[bytes.len() - 1]);
        let missing = sum(front).wrapping_neg();
        let is = |other: u8| wrong && last == other && other != missing;
        let total: u64 = front.iter().map(|&byte| u64::from(byte)).sum();
        self.count("25 on a fresh block", wrong && fresh);
        self.count("25, the kind alone", wrong && front.is_empty());
        self.count("25, one more", is(missing.wrapping_add(1)));
        self.count("25, one less", is(missing.wrapping_sub(1)));
        self.count("25, without the kind", is(missing.wrapping_add(bytes[0])) && front.len() > 1);
        self.count("25, without the kind's 40", is(missing.wrapping_add(0x40)));
        self.count("25, carried round at 255", is(((255 - total % 255) % 255) as u8) && total > 255);
        self.count("25, the sum itself", is(sum(front)));
        self.count("5, a byte 00 behind the sum", reply == b"FF05FC" && last == 0 && sum(front) == 0);
        self.count("a sum of 00", !wrong && last == 0);
        self.count("a sum of FF", !wrong && last == 0xFF);
        self.count("more than 256 bytes", !wrong && bytes.len() > 256);
        self.count("a sum above 65,535", !wrong && total > 65_535);
    }

    /// What each kind answers.
    fn answers(&mut self, kind: u8, reply: &[u8]) {
        let own = if [0x47, 0x4F].contains(&kind) { 0x41 } else { kind + 0x80 };
        let shown = format!("{own:02X}");
        self.count(format!("{kind:02X}: {shown}"), reply.starts_with(shown.as_bytes()));
        self.count(format!("{kind:02X}: 17"), reply.is_empty());
        let (_, numbers) = REFUSALS.into_iter().find(|(other, _)| *other == kind).unwrap();
        for &number in numbers {
            let refusal = text(&[0xFF, number, (!number).wrapping_add(2)]);
            self.count(format!("{kind:02X}: {number}"), reply == refusal.as_bytes());
        }
    }

    /// Replies beside their buffer's length, by the same line in the longest one.
    fn buffers(&mut self, call: &Call, given: &[i64], reply: &[u8]) {
        let capacity = call.capacity;
        for near in 73..79 {
            self.count(format!("a buffer of {near}"), capacity == near);
        }
        let kind = &call.line[..2];
        if capacity < LEAST_BUFFER || ![b"47", b"4D", b"4E", b"4F"].into_iter().any(|long| kind == long) {
            return;
        }
        let longest = asked(given, LONGEST_REPLY, std::str::from_utf8(&call.line).unwrap());
        if longest.starts_with("FF") {
            return self.count("refused in a buffer of 74 or 75", capacity < 76);
        }
        let length = longest.len();
        assert_eq!(reply, if length > capacity { b"" } else { longest.as_bytes() });
        let name = String::from_utf8_lossy(kind).into_owned();
        let mut near = |case: &str, holds: bool| self.count(format!("{name}: {case}"), holds);
        near("17, a character short", capacity + 1 == length && length > LEAST_BUFFER);
        near("17, the plain reply would fit", capacity + 2 == length && length > LEAST_BUFFER + 1);
        near("just fits", capacity == length);
        near("a character more", capacity == length + 1);
    }
}

#[test]
fn the_generator_reaches_every_second_form() {
    let mut watch = Watch::default();
    sessions(3_600, |call, given, outcome| watch.call(call, given, outcome.reply()));
    watch.0.each_over(3);
}
