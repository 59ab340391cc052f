//! Change 12: two rooms, equal ceilings, by the document's words, and how often the generator puts them to the test.

use reference::claims::{check_session, Tally};
use reference::rooms::Rooms;
use session::{last, replies};

mod session;

/// Three trains of two choices, two parts a point: choice 0 of train 0 costs 1, and each two trains pay 1 where they take the
/// same choice. Its ceiling is half a point.
const K: &str = "\
    01030002020202000001000000000000000000000000000000030001000001000000000000000001000200000100000000000000000101020\
    00001000000000000000001";
const K_CLAUSES: &str = "090300020007FFFE0000010102000001FFFD0000010103000001FEFD0000010203000001FF00000001";
/// Train 1 lifts one part, and train 2.
const UP_A: &str = "\
    03000000000000000000000001000000000000FFFFFFFFFFFF000000000000000000000000000000000001FFFFFFFFFFFF00000000000000\
    0000000000000000000001000000000001000000000000000000000000FFFFFFFFFFFF";
const UP_B: &str = "\
    03000000000000000000000000000000000001FFFFFFFFFFFF000000000000000000000000000000000001FFFFFFFFFFFF00000000000000\
    0000000000000000000001000000000000FFFFFFFFFFFF000000000001000000000000";
const W_2: &str = "\
    05000002000001000001000001000001000001000001000000000001000001000000000000000001000001000000000000000001000001000\
    000";
const W_4: &str = "\
    05000004000002000002000002000002000002000002000000000002000002000000000000000002000002000000000000000002000002000\
    000";
const J: &str = "010200010202000002000000000000000000010001000001000000000003000002";
const ZERO: &str = "81000000000000000000000000";

#[test]
fn the_worked_lists() {
    let up = "83000000000001000000000001";
    assert_eq!(replies(&[K, UP_A, W_2]), [ZERO, up, "85010000000000000002000002"]);
    let by_clauses = ["89000000000000000000000000", up, "85010000000000000004000004"];
    assert_eq!(replies(&[K_CLAUSES, UP_B, W_4]), by_clauses);
    assert_eq!(replies(&[K, UP_B, W_4]), [ZERO, up, "85010000000000000004000004"]);
    // Not reached: no claim.
    let still = "84000000000000000000000000";
    assert_eq!(replies(&[K, "04", W_2]), [ZERO, still, "85000000000000000002000002"]);
}

/// Plans 0 1 and 1 1 both cost 2, and no plan costs less.
#[test]
fn whole_weights() {
    let lines = [J, "04", "05000001000001000000000000000001000000000001000000000000"];
    assert_eq!(replies(&lines), [ZERO, "84000000000002000000000002", "85010000000000000002000001"]);
    let lines = [J, "08", "05000001000000000001000000000001000000000000000000000001"];
    assert_eq!(replies(&lines), [ZERO, "88000000000002000000000002", "85010000000000000002000001"]);
}

/// With other costs that read as 0 the constants differ: −1 is a number like any other.
#[test]
fn what_is_forbidden_belongs_to_the_costs() {
    let lines = ["010100010200000000000500", "04", "05000001000001000000"];
    assert_eq!(last(&lines), "85010000000000000000000001");
    let lines = ["0101000102FFFFFF00000500", "04", "05000001000000000001"];
    assert_eq!(last(&lines), "85010000000000000005000001");
}

#[test]
fn two_rooms_reach_one_ceiling() {
    let mut rooms = Rooms::default();
    for seed in 0..1_500 {
        if let Err(claim) = rooms.check_session(reference::answer, seed) {
            panic!("{claim}");
        }
    }
    let Rooms { pairs, tables, figures, parts, forbidden, clauses, added, apart, .. } = rooms;
    assert!(pairs > 500 && tables > 200 && figures > 200 && parts > 50 && forbidden > 20, "{rooms:?}");
    assert!(clauses > 50 && added > 200 && apart > 50, "{rooms:?}");
    let Rooms { plans, with_forbidden, several, .. } = rooms;
    assert!(plans > 200 && with_forbidden > 20 && several > 50, "{rooms:?}");
}

/// Of whatever line of a list it is the reply.
#[test]
fn plans_of_certificates_within_sessions() {
    let mut tally = Tally::default();
    for seed in 0..600 {
        if let Err(claim) = check_session(reference::answer, seed, 66, &mut tally) {
            panic!("{claim}");
        }
    }
    let Rooms { plans, with_forbidden, several, .. } = tally.rooms;
    assert!(plans > 60 && with_forbidden > 2 && several > 30, "{plans} {with_forbidden} {several}");
}
