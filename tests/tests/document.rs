//! The reference against document 01's own examples, and those of the changes: saves, every byte as a digit,
//! giving back, directional rounds, forbidden entries, stopping at the bound.

use reference::calls::{digest, Call, Setting, FILLING};
use reference::generator::every_byte;
use reference::lines::{digits, LONGEST_LOAD};
use reference::model::BLOCK_LENGTH;
use reference::{LEAST_BUFFER, LONGEST_REPLY};
use session::{last, replies};

mod session;

const J: &str = "010200010202000002000000000000000000010001000001000000000003000002";
const CERTIFICATE: &str = "05000001000001000000000000000001000000000001000000000000";
const SESSION: &str = "\
010200010202000002000000000000000000010001000001000000000003000002
04
05000001000001000000000000000001000000000001000000000000
060000000A
";
/// Document 01's replies, the last as change 6 has it: "Case 4 now counts 3."
const REPLIES: &str = "\
81000000000000000000000000
84000000000002000000000002
85010000000000000002000001
8601000000030000000000020001
";

/// The sixteen characters of a line.
const DIGITS: &str = "0123456789ABCDEF";

/// J with a forbidden choice 1 of train 0.
const D: &str = "010200010202000002FFFFFF000000000000010001000001000000000003000002";
/// The clique of three trains with two choices, equal ones being forbidden, all costs 0: there is no plan.
const CLIQUE: &str = "\
    01030001020202000000000000000000000000000000000000\
    030001FFFFFF000000000000FFFFFF0002FFFFFF000000000000FFFFFF0102FFFFFF000000000000FFFFFF";

/// The reply to a load.
const ZERO: &str = "81000000000000000000000000";

/// A shift of J: lifts u_0, u_1, then the moves of train 0 and of train 1.
fn shift(numbers: [i64; 6]) -> String {
    let bytes = |number: i64| number.to_be_bytes()[2..].to_vec();
    let bytes: Vec<u8> = numbers.into_iter().flat_map(bytes).collect();
    format!("03{}", String::from_utf8(digits(&bytes)).unwrap())
}

#[test]
fn the_session_prints_its_replies() {
    let mut output = Vec::new();
    reference::session(SESSION.as_bytes(), &mut output).unwrap();
    assert_eq!(String::from_utf8(output).unwrap(), REPLIES);
}

#[test]
fn the_last_line_needs_no_line_end_unless_empty() {
    let run = |input: &str| {
        let mut output = Vec::new();
        reference::session(input.as_bytes(), &mut output).unwrap();
        String::from_utf8(output).unwrap()
    };
    assert_eq!(run(SESSION.trim_end()), REPLIES);
    assert_eq!(run(""), "");
    assert_eq!(run("\n"), "FF01\n");
    assert_eq!(run("04\n\n04\r\n"), "FF04\nFF01\nFF01\n");
}

#[test]
fn every_row_of_the_table() {
    let zeros = |count: usize| "0".repeat(count);
    assert_eq!(last(&["0"]), "FF01");
    assert_eq!(last(&[&zeros(19_837)]), "FF02");
    assert_eq!(last(&[&zeros(19_836)]), "FF03");
    assert_eq!(last(&["FF"]), "FF03");
    assert_eq!(last(&["04"]), "FF04");
    assert_eq!(last(&[J, "0400"]), "FF05");
    assert_eq!(last(&["0100"]), "FF06");
    assert_eq!(last(&["01010001010F4241"]), "FF07");
    assert_eq!(last(&["0101000101000000010000"]), "FF08");
    assert_eq!(last(&[J, "020200000001"]), "FF09");
    assert_eq!(last(&[J, "0200000F4240"]), "FF0A");
    assert_eq!(last(&[J, "03FF172B5AEFFF"]), "FF0B");
    assert_eq!(last(&[J, &format!("03000000000001{}", zeros(60))]), "FF0C");
    assert_eq!(last(&[J, "05000000"]), "FF0D");
    assert_eq!(last(&[J, &format!("05000001{}", zeros(48))]), "FF0E");
    assert_eq!(last(&[J, "0600000000"]), "FF0F");

    let mut block = vec![0; BLOCK_LENGTH];
    let mut reply = [7; LEAST_BUFFER];
    let short = &mut block[..BLOCK_LENGTH - 1];
    assert_eq!(reference::answer(b"04", short, &mut reply), 4);
    assert_eq!(&reply[..4], b"FF10");
    assert!(reply[4..].iter().all(|&byte| byte == 7));

    let mut reply = [7; LEAST_BUFFER - 1];
    assert_eq!(reference::answer(J.as_bytes(), &mut block, &mut reply), 0);
    assert_eq!(reply, [7; LEAST_BUFFER - 1]);
    assert_eq!(block, vec![0; BLOCK_LENGTH]);
}

#[test]
fn the_marked_cases() {
    let four: Vec<&str> = SESSION.lines().collect();
    assert_eq!(replies(&four), REPLIES.lines().collect::<Vec<_>>());
    assert_eq!(last(&[J, "060000000A"]), "8601000000060000000000020001");
    assert_eq!(last(&[J, CERTIFICATE]), "85000000000000000002000001");
    // Change 6: "Case 7 says ended with count 3."
    assert_eq!(last(&[J, "04", "0600000003"]), "8601000000030000000000020001");
    assert_eq!(last(&[J, "0600000001"]), "860000000001FFFFFFFFFFFFFFFF");
    let with_move = shift([2, 0, 0, 2, 0, 0]);
    assert_eq!(last(&[J, &with_move]), "83000000000002000000000002");
    assert_eq!(last(&[J, &shift([2, 0, 0, 0, 0, 0])]), "FF0C");
    assert_eq!(last(&["01010001010F424000"]), "81000000000000000000000000");
    let sizes = |size: usize| format!("0101000{:02X}{}00", 0x100 + size, "000000".repeat(size));
    assert_eq!(last(&[&sizes(8)]), "81000000000000000000000000");
    assert_eq!(last(&[&sizes(9)]), "FF06");
}

/// The reply to the last line in a buffer of this length, the lines before being loads and rewritings.
/// The last line leaves the block.
fn last_in(capacity: usize, lines: &[&str]) -> String {
    let (line, before) = lines.split_last().unwrap();
    let mut block = vec![0; BLOCK_LENGTH];
    for line in before {
        reference::answer(line.as_bytes(), &mut block, &mut [0; LEAST_BUFFER]);
    }
    let left = block.clone();
    let call = Call { capacity, setting: Setting::AsLeft, line: line.as_bytes().to_vec() };
    let outcome = call.run(reference::answer, &mut block);
    assert!(block == left);
    assert!(outcome.buffer[outcome.written..].iter().all(|&byte| byte == FILLING));
    String::from_utf8(outcome.reply().to_vec()).unwrap()
}

/// Change 1, with a study K of three trains, two pairs and a scale of 2: 108 characters.
#[test]
fn saves() {
    const K: &str =
        "010300020202020000010000000000000000030000020000020200010000000000040000010000000102000005\
                     0000010000000F4240";
    let most = |lines: &[&str]| last_in(LONGEST_REPLY, lines);
    assert_eq!(most(&["07"]), "FF04");
    assert_eq!(most(&["0700"]), "FF04");
    assert_eq!(most(&[J, "07"]), J);
    assert_eq!(last_in(LEAST_BUFFER, &[J, "07"]), J);
    assert_eq!(last_in(LEAST_BUFFER - 1, &[J, "07"]), "");
    assert_eq!(most(&[J, "0700"]), "FF05");
    assert_eq!(most(&[J, "070707"]), "FF05");
    let added = "010200010202000007000000000000000000010001000001000000000003000002";
    assert_eq!(most(&[J, "04", "020000000005", "07"]), added);
    assert_eq!(last(&[K, "04"]), "84000000000006000000000003");
    assert_eq!(most(&[K, "04", "07"]), K);
    for (capacity, reply) in [(108, K), (109, K), (LEAST_BUFFER, ""), (107, "")] {
        assert_eq!(last_in(capacity, &[K, "07"]), reply);
    }
    assert_eq!(last_in(LEAST_BUFFER, &[K, "0700"]), "FF05");
    assert_eq!(most(&[J, "10"]), "FF03");
    // The buffer of a session holds every line.
    assert_eq!(replies(&[K, "07", "0700", J, "07"]), [ZERO, K, "FF05", ZERO, J]);
}

/// 24 trains of 8 choices, 48 pairs and the highest cost everywhere: the longest plain line that is accepted.
#[test]
fn the_longest_line_is_saved() {
    let cost = "0F4240";
    let pairs = (0..24).flat_map(|i| (i + 1..24).map(move |j| (i, j))).take(48);
    let pairs: String = pairs.map(|(i, j)| format!("{i:02X}{j:02X}{}", cost.repeat(64))).collect();
    let load = format!("011803E8{}{}30{pairs}", "08".repeat(24), cost.repeat(24 * 8));
    assert_eq!(load.len(), LONGEST_LOAD);
    assert_eq!(replies(&[&load, "07"]), [ZERO, &load]);
    assert_eq!(last_in(LONGEST_LOAD, &[&load, "07"]), load);
    assert_eq!(last_in(LONGEST_LOAD - 1, &[&load, "07"]), "");
}

/// Change 2: a character is a digit where it is one of the sixteen, for every byte, as either character of a line.
#[test]
fn sixteen_bytes_are_digits() {
    let mut block = vec![0; BLOCK_LENGTH];
    for call in every_byte() {
        let other = call.line.iter().any(|&byte| !DIGITS.contains(char::from(byte)));
        let outcome = call.run(reference::answer, &mut block);
        assert_eq!(outcome.reply() == b"FF01", other, "{:?}", call.line);
    }
    for line in ["00", "19", "1A", "1F", "F0", "FF"] {
        assert_eq!(last(&[line]), "FF03");
    }
    assert_eq!(last(&["01"]), "FF05");
    assert_eq!(last(&["07"]), "FF04");
    for line in ["0a", "0f", "ff", "0/", "0:", "0@", "0G", "0`", "0g"] {
        assert_eq!(last(&[line]), "FF01");
    }
}

/// Each digit, read as a cost's last one and written again.
#[test]
fn every_digit_is_saved() {
    for digit in DIGITS.chars() {
        let load = format!("010100010100000{digit}00");
        assert_eq!(replies(&[&load, "07"]), [ZERO, &load]);
    }
}

/// Change 3: lifts of −10^12 to 10^12, each judged as soon as it is read.
#[test]
fn lifts_have_two_limits() {
    assert_eq!(last(&[J, "03FF172B5AEFFF"]), "FF0B");
    assert_eq!(last(&[J, "0300E8D4A51001"]), "FF0B");
    assert_eq!(last(&[J, "03FFFFFFFFFFFF"]), "FF05");
    assert_eq!(last(&[J, "03FF172B5AF000"]), "FF05");
    assert_eq!(last(&[J, "0300E8D4A51000"]), "FF05");
    let most = 1_000_000_000_000;
    let opposite = shift([-most, most, 0, 0, 0, 0]);
    assert_eq!(opposite, format!("03FF172B5AF00000E8D4A51000{}", "0".repeat(48)));
    assert_eq!(last(&[J, "04", &opposite]), "FF0C");
    // Both ends are taken, where moves through the pair make up for them.
    assert_eq!(
        last(&[J, "04", &shift([-most, most, -most, -most, most, most])]),
        "83000000000002000000000002"
    );
    assert_eq!(last(&[J, "04", &shift([-most - 1, most, -most, -most, most, most])]), "FF0B");
    assert_eq!(last(&[J, "04", &shift([-most, most + 1, -most, -most, most, most])]), "FF0B");
}

/// Change 3: the constant goes back onto a train's choices, never below 0.
#[test]
fn constants_are_given_back() {
    let from_first = shift([-1, 0, 0, 0, 0, 0]);
    assert_eq!(from_first, format!("03FFFFFFFFFFFF{}", "0".repeat(60)));
    let from_second = shift([0, -1, 0, 0, 0, 0]);
    assert_eq!(from_second, format!("03000000000000FFFFFFFFFFFF{}", "0".repeat(48)));
    assert_eq!(last(&[J, &from_first]), "FF0C");
    let lines =
        [J, "04", &from_first, &from_second, &from_second, "060000000A", CERTIFICATE, "04", &from_second];
    let answers = [
        ZERO,
        "84000000000002000000000002",
        "83000000000001000000000001",
        "83000000000000000000000000",
        "FF0C",
        "8601000000060000000000020001",
        "85000000000000000002000001",
        "84000000000002000000000002",
        "83000000000001000000000001",
    ];
    assert_eq!(replies(&lines), answers);
    // 1 against −1, through the pair.
    let circle = shift([1, -1, 1, 1, -1, -1]);
    assert_eq!(circle, "03000000000001FFFFFFFFFFFF000000000001000000000001FFFFFFFFFFFFFFFFFFFFFFFF");
    assert_eq!(last(&[J, "04", &circle]), "83000000000002000000000002");
    // One train of two choices, 2 points and 3, and a scale of 2.
    let lifts = ["03000000000003", "03FFFFFFFFFFFF", "03FFFFFFFFFFFE", "03FFFFFFFFFFFF"];
    let answers = [
        ZERO,
        "83000000000003000000000002",
        "83000000000002000000000001",
        "83000000000000000000000000",
        "FF0C",
    ];
    assert_eq!(replies(&[&["010100020200000200000300"][..], &lifts].concat()), answers);
}

/// Change 4: the constant that a round gives a study of this line, and what a search finds then.
fn round(load: &str, constant: &str, search: &str) {
    assert_eq!(replies(&[load, "08", "06000003E8", "08"]), [ZERO, constant, search, constant]);
}

/// Change 4: a round of two trains, of one train, and of trains without a pair.
#[test]
fn rounds() {
    const A: &str = "010200010202000001000000000000000001010001000000000000000001000000";
    let least = "88000000000001000000000001";
    assert_eq!(
        replies(&[A, "04", "08", "06000003E8", "08"]),
        [ZERO, "84000000000000000000000000", least, "8601000000020000000000010000", least]
    );
    let with_scale = A.replacen("01020001", "01020002", 1);
    assert_eq!(last(&[&with_scale, "08"]), "88000000000002000000000001");
    assert_eq!(last(&[J, "08"]), "88000000000002000000000002");
    assert_eq!(last(&[J, "08", "060000000A"]), "8601000000030000000000020001");
    assert_eq!(last(&["010100030200000500000200", "08"]), "88000000000006000000000002");
    assert_eq!(last(&["01020001020100000500000200000300", "08"]), "88000000000005000000000005");
    assert_eq!(last(&["08"]), "FF04");
    assert_eq!(last(&["0800"]), "FF04");
    assert_eq!(last(&[J, "0800"]), "FF05");
}

/// Change 4: where a train has two partners of lower number, the constant may stay below the least total.
#[test]
fn rounds_settle_branches() {
    // Pairs 0–1, 0–2 and 2–3, a scale of 2: settled, where tightening is not.
    const BRANCHES: &str =
        "0104000202020202000001000000000002000003000000000002000001000000030001000002000002000002000001\
                            00020000000000030000020000000203000000000002000003000001";
    assert_eq!(last(&[BRANCHES, "04"]), "84000000000006000000000003");
    round(BRANCHES, "8800000000000C000000000006", "86010000000400000000000600000000");
    // Pairs 0–2 and 1–2: a tree, but train 2 has two partners of lower number.
    const TWO_PARTNERS: &str =
        "01030001020202000001000002000002000002000002000000020002000001000002000002000000010200000200000\
                                2000000000001";
    round(TWO_PARTNERS, "88000000000004000000000004", "86010000000C000000000005010101");
    const TRIANGLE: &str =
        "01030001020202000000000000000000000000000000000000030001000001000000000000000001000200000100000\
                            00000000000010102000001000000000000000001";
    round(TRIANGLE, "88000000000000000000000000", "86010000000C000000000001000001");
    assert_eq!(last(&[TRIANGLE, "08", "0600000064"]), "86010000000C000000000001000001");
}

/// Change 4 on blocks written by hand: the places of c0 and T afterwards.
#[test]
fn rounds_of_given_tables() {
    let rounded = |edits: &str, reply: &str, places: &[(usize, i64)]| {
        let mut block = vec![0; BLOCK_LENGTH];
        reference::answer(J.as_bytes(), &mut block, &mut [0; LEAST_BUFFER]);
        let call = Call::parse(format!("{LEAST_BUFFER} {edits} 08").as_bytes()).unwrap();
        let mut expected = block.clone();
        if let Setting::Edited(edits) = &call.setting {
            edits.iter().for_each(|&(place, value)| expected[place] = value);
        }
        places.iter().for_each(|&(place, value)| expected[place] = value);
        assert_eq!(call.run(reference::answer, &mut block).reply(), reply.as_bytes());
        assert!(block == expected, "{edits}");
    };
    // The rows' leasts are 0 and 2, and then both choices of train 0 have 2.
    let tables = [(3, 2), (316, 0), (317, 0), (3_588, 1), (3_589, 0)];
    rounded("-", "88000000000002000000000002", &tables);
    rounded("3=71999999998", "880010C388D0000010C388D000", &[&tables[1..], &[(3, 72_000_000_000)]].concat());
    // A constant above L at the end.
    rounded("3=71999999999", "FF0C", &[]);
    rounded("3=72000000000", "FF0C", &[]);
    // Entries above L on the way only: 86,400,000,000 once they have taken c_1(0).
    let high =
        "3=0,316=0,317=0,3581=0,3589=0,324=43200000000,3580=43200000000,3588=43200000000,325=21600000000";
    let (third, rest) = (21_600_000_000, 64_800_000_000);
    let tables = [(3, third), (324, 0), (325, 0), (3_580, rest), (3_588, rest)];
    rounded(high, "8800050775D80000050775D800", &tables);
    // The same with nothing to take at choice 1: they stay above L.
    rounded(&high.replace("325=21600000000", "325=0"), "FF0C", &[]);
}

/// Change 5: the clique has no plan, and a certificate reaches its constant all the same.
#[test]
fn the_clique() {
    let nothing = [4, 8].map(|kind| format!("8{kind}{}", "0".repeat(24)));
    let lines = [CLIQUE, "04", "08", "0600000064", "0600000003", "07"];
    let answers = [
        ZERO,
        &nothing[0],
        &nothing[1],
        "86020000000AFFFFFFFFFFFFFFFFFF",
        "860000000003FFFFFFFFFFFFFFFFFF",
        CLIQUE,
    ];
    assert_eq!(replies(&lines), answers);
    let certify = |whole: &str, single: &str, joint: &str| {
        last(&[CLIQUE, &format!("05{whole}{}{}", single.repeat(3), joint.repeat(3))])
    };
    let (halves, first) = ("000000000001000001000000", "000001000000000000000000");
    assert_eq!(certify("000002", "000001000001", halves), "85010000000000000000000002");
    assert_eq!(certify("000001", "000001000000", first), "FF12");
    // The weights' sums are judged first.
    assert_eq!(certify("000001", "000001000001", first), "FF0E");
}

/// Change 5: a forbidden choice in searches, additions, shifts and certificates.
#[test]
fn forbidden_choices() {
    let two = "000000000002000000000002";
    let [search, at_the_bound] = ["8601000000040000000000020001", "8601000000030000000000020001"];
    assert_eq!(
        replies(&[D, "060000000A", "04", "060000000A"]),
        [ZERO, search, &format!("84{two}"), at_the_bound]
    );
    let lines = [D, "04", "020001000005", "020001FFFFFF", "020000000001", "07"];
    let added = D.replacen("000002", "000003", 1);
    let [tightened, same] = ["84", "82"].map(|kind| format!("{kind}{two}"));
    assert_eq!(replies(&lines), [ZERO, &tightened, &same, "FF07", &same, &added]);
    // 2 from the row of the forbidden choice, which is lost.
    assert_eq!(last(&[D, &shift([0, 0, 0, 2, 0, 0])]), format!("83{}", "0".repeat(24)));
    assert_eq!(last(&[D, &shift([0, 0, 0, 3, 0, 0])]), "FF0C");
    // The forbidden choice gives the pair's row any amount up to L.
    assert_eq!(last(&[D, &shift([0, 0, 0, -71_999_999_997, 0, 0])]), format!("83{}", "0".repeat(24)));
    assert_eq!(last(&[D, &shift([0, 0, 0, -71_999_999_998, 0, 0])]), "FF0C");
    let weight = "05000001000000000001000000000001000000000000000000000001";
    assert_eq!(last(&[D, "04", weight]), "FF12");
    assert_eq!(last(&[D, "04", CERTIFICATE]), "85010000000000000002000001");
    // An addition to the forbidden choice is judged as ever.
    assert_eq!(last(&[D, "0200010F4240"]), format!("82{}", "0".repeat(24)));
    assert_eq!(last(&[D, "0200010F4241"]), "FF07");
    assert_eq!(last(&[D, "02000100000500"]), "FF05");
    assert_eq!(last(&[D, "020002000005"]), "FF09");
}

/// A study's line, a line that rewrites it, and the places of c0 and T afterwards that aren't the load's.
fn rewritten(load: &str, line: &str, places: &[(usize, i64)]) {
    let mut block = vec![0; BLOCK_LENGTH];
    reference::answer(load.as_bytes(), &mut block, &mut [0; LEAST_BUFFER]);
    let mut expected = block.clone();
    places.iter().for_each(|&(place, value)| expected[place] = value);
    reference::answer(line.as_bytes(), &mut block, &mut [0; LEAST_BUFFER]);
    assert!(block == expected, "{load} {line}");
}

/// Change 5: what goes to a forbidden entry is lost; a forbidden c_j(b) is not taken.
#[test]
fn amounts_are_lost_on_forbidden_entries() {
    // The least of row 1, 2, goes to the forbidden choice.
    rewritten(D, "04", &[(3, 2), (316, 0), (324, 1), (3_580, 0), (3_588, 0), (3_589, 0)]);
    rewritten(D, "08", &[(3, 2), (316, 0), (3_588, 1), (3_589, 0)]);
    // Of the 4 points of c_1(0) one half is lost; c_1(1) is forbidden.
    let half = "010200010202000000000001000004FFFFFF010001FFFFFF000000000002000005";
    assert_eq!(
        replies(&[half, "08", "060000000A"]),
        [ZERO, &format!("88{}", "0".repeat(24)), "8601000000060000000000070100"]
    );
    rewritten(half, "08", &[(317, 6), (324, 0), (3_588, 1), (3_589, 0)]);
    // Of a column without a permitted entry nothing is left of c_1(0).
    rewritten("010200010101000003000005010001FFFFFF", "08", &[(3, 3), (316, 0), (324, 0)]);
    // Leasts are of permitted entries.
    rewritten("0101000202000005FFFFFF00", "04", &[(3, 10), (316, 0)]);
    rewritten("0101000202FFFFFFFFFFFF00", "04", &[]);
}

/// Change 5: without a permitted choice a train is lifted, and without a permitted entry a row gives, up to L.
#[test]
fn lines_reach_the_limit() {
    let highest = "0010C388D0000010C388D000";
    let lines = ["0101000101FFFFFF00", "060000000A", "030010C388D000", "04", "03000000000001"];
    let [shifted, tightened] = ["83", "84"].map(|kind| format!("{kind}{highest}"));
    assert_eq!(replies(&lines), [ZERO, "860200000001FFFFFFFFFFFFFF", &shifted, &tightened, "FF0C"]);
    let lines = [
        "010200010101000000000000010001FFFFFF",
        "030000000000000000000000010010C388D000000000000001",
        "08",
        "04",
        "020000000001",
        "060000000A",
    ];
    let answers =
        [ZERO, "83000000000001000000000001", "FF0C", "FF0C", "FF0C", "860200000002FFFFFFFFFFFFFFFF"];
    assert_eq!(replies(&lines), answers);
}

/// Change 5: −1 stands in H and in T, at used places only.
#[test]
fn forbidden_entries_of_the_block() {
    assert_eq!(last(&["0101000101FFFFFE"]), "FF07");
    assert_eq!(last(&["0101000101FFFFFF00"]), ZERO);
    let judged = |edits: &str| {
        let mut block = vec![0; BLOCK_LENGTH];
        reference::answer(D.as_bytes(), &mut block, &mut [0; LEAST_BUFFER]);
        let call = Call::parse(format!("{LEAST_BUFFER} {edits} 060000000A").as_bytes()).unwrap();
        String::from_utf8(call.run(reference::answer, &mut block).reply().to_vec()).unwrap()
    };
    let ill_formed = [
        "125=0", "317=0", "3=-1", "6000=-1", "124=-1", "316=-1", "508=-1", "3580=-1", "125=-2", "317=-2",
        "125=-2,317=-2", "126=-1,318=-1", "510=-1,3582=-1", "4=-1", "2=-1",
    ];
    ill_formed.iter().for_each(|edits| assert_eq!(judged(edits), "FF10", "{edits}"));
    assert_eq!(judged("125=0,317=0"), "8601000000060000000000020001");
    assert_eq!(judged("508=-1,3580=-1"), "8601000000040000000000020001");
    assert_eq!(judged("124=-1,316=-1"), "860200000002FFFFFFFFFFFFFFFF");
}

/// Change 6: a search ends when a new best plan's cost equals the bound, also by the last try of its budget.
#[test]
fn searches_stop_at_the_bound() {
    assert_eq!(last(&[J, "04", "060000000A"]), "8601000000030000000000020001");
    assert_eq!(last(&[J, "04", "0600000003"]), "8601000000030000000000020001");
    assert_eq!(last(&[J, "04", "0600000002"]), "8600000000020000000000030000");
    // The bound is 0, and no plan costs 0.
    assert_eq!(last(&[J, "060000000A"]), "8601000000060000000000020001");
    // One train, a scale of 3, and a first choice that costs 0.
    assert_eq!(last(&["010100030300000000000100000000", "0600000001"]), "86010000000100000000000000");
    // One part of the constant publishes 1, which choice 1 costs.
    const UNEQUAL: &str = "010100030300000200000100000100";
    assert_eq!(last(&[UNEQUAL, "03000000000001", "0600000002"]), "86010000000200000000000101");
    assert_eq!(last(&[UNEQUAL, "03000000000001", "0600000001"]), "86000000000100000000000200");
    // No plan, and a bound of 0.
    const NO_PLAN: &str = "010200010202FFFFFF000000000000000000010001000000000000FFFFFFFFFFFF";
    assert_eq!(last(&[NO_PLAN, "0600000004"]), "860200000004FFFFFFFFFFFFFFFF");
    // D's choice 1 of train 0 is not tried once plan 0 1 has met the bound.
    assert_eq!(last(&[D, "04", "0600000003"]), "8601000000030000000000020001");
}

/// Change 6 on blocks written by hand: points are compared with points, and only equality ends the walk.
#[test]
fn searches_of_given_tables() {
    let searched = |load: &str, edits: &str, line: &str| {
        let mut block = vec![0; BLOCK_LENGTH];
        [load, "04"].iter().for_each(|line| {
            reference::answer(line.as_bytes(), &mut block, &mut [0; LEAST_BUFFER]);
        });
        let call = Call::parse(format!("{LEAST_BUFFER} {edits} {line}").as_bytes()).unwrap();
        String::from_utf8(call.run(reference::answer, &mut block).reply().to_vec()).unwrap()
    };
    // A scale of 2 and a constant of 3 parts, so that plan 0 0 has 3 parts: its cost is the bound, 2.
    assert_eq!(searched(J, "1=2,3=3", "060000000A"), "8601000000020000000000020000");
    // One train of two choices, a scale of 2 and a constant of 3: 4 parts and 3 both cost 2, and 5 cost 3.
    let two = |edits: &str| searched("010100020200000000000000", edits, "060000000A");
    assert_eq!(two("3=3,316=1,317=0"), "86010000000100000000000200");
    assert_eq!(two("3=3,316=2,317=1"), "86010000000200000000000201");
    assert_eq!(two("3=3,316=2,317=2"), "86010000000200000000000300");
    // A total of 2 parts costs 1 point; the bound is 1, as many as the parts of no plan.
    assert_eq!(two("3=2,316=0,317=0"), "86010000000100000000000100");
}

/// Points that the document leaves short.
#[test]
fn readings() {
    assert_eq!(last(&[&"g".repeat(19_837)]), "FF02");
    assert_eq!(last(&["0f"]), "FF01");
    assert_eq!(last(&["0400"]), "FF04");
    assert_eq!(last(&["01"]), "FF05");
    assert_eq!(last(&["010100"]), "FF05");
    assert_eq!(last(&["01010000"]), "FF06");
    assert_eq!(last(&["01010001010000000105"]), "FF05");
    assert_eq!(last(&[J, "0202"]), "FF09");
    assert_eq!(last(&[J, "020002"]), "FF09");
    assert_eq!(last(&[J, "02000000"]), "FF05");
    assert_eq!(last(&[J, "0200000F42"]), "FF05");
    assert_eq!(last(&[J, "0200000F4240FF"]), "FF05");
    assert_eq!(last(&[J, "060000000000"]), "FF0F");
    assert_eq!(last(&[J, "060000000100"]), "FF05");
    assert_eq!(last(&[J, "0600000006"]), "8601000000060000000000020001");
    assert_eq!(last(&[J, "0600000005"]), "8600000000050000000000020001");
}

#[test]
fn bounds_round_up() {
    // s = 2 with a loaded cost of 2: c0 after a lift of 3, 4 and 0 parts.
    let load = "010100020100000200";
    for (lift, bound) in [(3, 2), (4, 2), (0, 0)] {
        let line = format!("03{lift:012X}");
        assert_eq!(last(&[load, &line]), format!("83{lift:012X}{bound:012X}"));
    }
}

#[test]
fn calls_have_a_text() {
    assert_eq!(digest([].into_iter()), 1);
    assert_eq!(digest([-1, 7].into_iter()), {
        let p = 4_294_967_291_u64;
        ((65_599 + p - 1 + 1) % p * 65_599 + 8) % p
    });
    let mut block = vec![0; BLOCK_LENGTH];
    let mut run = |text: &str| {
        let call = Call::parse(text.as_bytes()).unwrap();
        assert_eq!(call.text(), text.as_bytes());
        let outcome = call.run(reference::answer, &mut block);
        String::from_utf8(outcome.text()).unwrap()
    };
    assert!(run(&format!("{} - 04", LEAST_BUFFER - 1)).starts_with("~ "));
    let mut least = |rest: &str| run(&format!("{LEAST_BUFFER} {rest}"));
    assert!(least("len=6651 04").starts_with("FF10 "));
    assert!(least(&format!("- {J}")).starts_with("81000000000000000000000000 "));
    assert!(least("3=-1 04").starts_with("FF10 "));
    assert!(least("3=5,316=3 04").starts_with("84000000000007"));
    assert!(least("- ").starts_with("FF01 "));
}
