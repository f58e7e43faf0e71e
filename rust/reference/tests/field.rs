//! The size of the field, its limits, and the wrong turnings that the paper names.

mod common;

use common::{ask, judge, pair, raw};
use reference::Answer::{Different, Same, Unsettled};

/// A body of this many silent steps, then a call of the definition.
fn round(length: usize, k: u8) -> (u8, Vec<u8>) {
    (0, [vec![0x01; length], vec![0x09, k]].concat())
}

/// Two rounds of 65 and 63 silent steps meet again after 4,095. The first side begins outside
/// its round.
#[test]
fn exactly_4096_situations_in_a_row() {
    let definitions = [round(65, 0), round(63, 1), round(65, 0), round(65, 2)];
    let question = |first: u8| raw(&definitions, &[0x09, first], &[0x09, 0x01], &[]);
    assert_eq!(judge(&question(0), 4096), Same(4095));
    assert_eq!(judge(&question(0), 4095), Same(4095));
    assert_eq!(judge(&question(0), 4094), Unsettled);
    assert_eq!(judge(&question(2), 4096), Same(4096));
    assert_eq!(judge(&question(2), 4095), Unsettled);
    let longer = raw(&definitions, &[0x01, 0x09, 0x02], &[0x09, 0x01], &[]);
    assert_eq!(judge(&longer, 4096), Unsettled);
}

/// Four rounds of 16 silent steps, two on each side: all places but for one sum.
#[test]
fn exactly_4096_situations_side_by_side() {
    let question = raw(&[round(16, 0)], &[7, 9, 0, 9, 0], &[7, 9, 0, 9, 0], &[]);
    assert_eq!(judge(&question, 4096), Same(4096));
    assert_eq!(judge(&question, 4095), Unsettled);
}

/// The whole field counts, also what lies beyond an unanswered step.
#[test]
fn the_field_goes_on_beyond_a_difference() {
    let first = "06 03 00 00 00 01 01 01 01 00";
    assert_eq!(judge(&pair(first, "01 01 01 01 00", ""), 256), Different(5));
    assert_eq!(judge(&pair(first, "01 01 01 01 00", ""), 4), Unsettled);
}

#[test]
fn rewriting_the_other_side() {
    let first = "06 01 03 00 01 00 05 00 01 01 03 00 00 00";
    assert_eq!(judge(&pair(first, "01 03 00 01 00", ""), 256), Same(4));
    assert_eq!(judge(&pair(first, "01 03 00 01 00", "00 01"), 256), Same(3));
    // A condition that is not permitted leads nowhere.
    let first = "06 01 03 00 01 00 05 00 01 01 01 00";
    assert_eq!(judge(&pair(first, "01 03 00 01 00", ""), 256), Different(4));
    assert_eq!(judge(&pair(first, "01 03 00 01 00", "00 01"), 256), Same(3));
}

#[test]
fn apart_pairs_last() {
    assert_eq!(judge(&pair("01 01 05 00 01 01 00", "01 01 00", "00 01"), 256), Same(3));
    assert_eq!(judge(&pair("01 01 05 00 01 01 00", "01 01 00", ""), 256), Different(3));
    assert_eq!(judge(&pair("04 00 01 05 80 01 01 00", "04 00 01 00", ""), 256), Same(3));
    // A name received after the extrusion is not apart from the extruded one.
    let first = "04 00 02 00 05 80 81 01 00";
    assert_eq!(judge(&pair(first, "04 00 02 00 00", ""), 256), Different(3));
    // A name received before it is.
    let first = "02 00 04 00 05 80 81 01 00";
    assert_eq!(judge(&pair(first, "02 00 04 00 00", ""), 256), Same(3));
}

/// The pairs are rewritten with the parts: b and c are apart, and then a is c's name.
#[test]
fn apart_pairs_are_rewritten() {
    let first = "05 00 02 01 05 00 01 01 00";
    let second = "05 00 02 01 00";
    assert_eq!(judge(&pair(first, second, ""), 256), Different(2));
    assert_eq!(judge(&pair(first, second, "01 02"), 256), Same(2));
    assert_eq!(judge(&pair(first, second, "00 01"), 256), Same(2));
    assert_eq!(judge(&pair(first, second, "03 01 03 02"), 256), Different(2));
}

/// Pairs with a name that is no longer free are dropped, so the field stays small.
#[test]
fn apart_pairs_of_lost_names_go() {
    let question = ask(&[(1, "04 80 09 00 81")], "09 00 00", "09 00 00", "");
    assert_eq!(judge(&question, 1), Same(1));
    let question = ask(&[(1, "04 80 09 00 81")], "09 00 00", "09 00 00", "00 01 01 02");
    assert_eq!(judge(&question, 1), Same(1));
    // A name that is free on one side only still counts.
    let question = pair("01 05 00 01 01 00", "01 00", "00 01");
    assert_eq!(judge(&question, 256), Same(2));
}

/// The extruded name goes on in the call: two situations, with the names in turn.
#[test]
fn new_names_are_the_smallest() {
    let question = ask(&[(1, "04 80 09 00 80")], "09 00 00", "09 00 00", "");
    assert_eq!(judge(&question, 256), Same(2));
    let question = ask(&[(1, "04 80 09 00 80")], "09 00 05", "09 00 05", "");
    assert_eq!(judge(&question, 256), Same(3));
    let question = ask(&[(1, "02 80 09 00 80")], "09 00 05", "09 00 07", "");
    assert_eq!(judge(&question, 256), Different(1));
}

#[test]
fn equal_conditions_are_not_demanded() {
    let first = "06 01 00 06 05 00 01 01 00 05 01 02 01 00";
    assert_eq!(judge(&pair(first, "01 00", ""), 256), Same(2));
    // A stronger condition is no answer to a weaker one.
    assert_eq!(judge(&pair("05 00 01 01 00", "05 00 01 05 01 02 01 00", ""), 256), Different(2));
    assert_eq!(judge(&pair("05 00 01 01 00", "05 01 00 01 00", ""), 256), Same(2));
}

/// Actions are compared under the leading condition, and their kinds count.
#[test]
fn actions_under_the_condition() {
    let first = "05 00 01 06 03 00 02 00 03 01 02 00";
    assert_eq!(judge(&pair(first, "05 00 01 03 01 02 00", ""), 256), Same(2));
    assert_eq!(judge(&pair("05 00 01 03 00 00 00", "05 00 01 03 01 00 00", ""), 256), Same(2));
    assert_eq!(judge(&pair("03 00 00 00", "03 01 00 00", ""), 256), Different(1));
    assert_eq!(judge(&pair("03 00 01 00", "04 00 00", ""), 256), Different(1));
    assert_eq!(judge(&pair("02 00 00", "04 00 00", ""), 256), Different(1));
}

/// Many branches that can all meet: the list of steps does not explode before it is refused.
#[test]
fn components_with_many_branches() {
    let inputs = "06 02 80 01 00".repeat(11);
    let outputs: String =
        (1..=9).map(|n| format!("06 03 80 80 {} 00", "01".repeat(n % 3))).collect();
    let body = format!("{inputs} {} 00", outputs);
    assert!(common::hex(&body).len() <= 112);
    let part = format!("{} 09 00 00", "07 09 00 00".repeat(26));
    let question = ask(&[(1, &body)], &part, &part, "");
    assert_eq!(judge(&question, 4096), Unsettled);
}
