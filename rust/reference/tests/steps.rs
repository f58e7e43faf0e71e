//! Listed steps, rule by rule, and their limits.

mod common;

use common::{ask, hex, judge, pair, raw, silent, step, steps};
use reference::Answer::{Result as Number, Same, Unsettled};

/// The new name in the cases below.
const NEW: u8 = 5;

/// The listed steps of a part are exactly these.
fn lists(part: &str, expected: &[Vec<u8>]) {
    lists_with(&[], part, expected);
}

fn lists_with(definitions: &[(u8, &str)], part: &str, expected: &[Vec<u8>]) {
    let mut expected = expected.to_vec();
    expected.sort();
    let question = ask(definitions, part, "00", "");
    assert_eq!(steps(&question, 1, NEW.into()), Ok(expected.clone()), "{part}");
    let question = ask(definitions, "00", part, "00 01");
    assert_eq!(steps(&question, 2, NEW.into()), Ok(expected), "{part}");
}

#[test]
fn prefixes() {
    lists("00", &[]);
    lists("01 03 00 01 00", &[step(&[], [0, 0, 0], "03 00 01 00")]);
    lists("02 03 03 80 02 00", &[step(&[], [1, 3, NEW], "03 05 02 00")]);
    lists("03 0F 02 01 00", &[step(&[], [2, 15, 2], "01 00")]);
    lists("04 03 03 80 02 00", &[step(&[], [3, 3, NEW], "03 05 02 00")]);
}

#[test]
fn a_received_name_beneath_binders() {
    let part = "02 00 02 80 04 81 08 03 83 82 03 81 80 00";
    lists(part, &[step(&[], [1, 0, NEW], "02 05 04 05 08 03 05 82 03 81 80 00")]);
}

/// Each class is written by its smallest name; action and result are rewritten.
#[test]
fn matches() {
    lists("05 02 01 03 02 03 03 01 02 00", &[step(&[(2, 1)], [2, 1, 3], "03 01 01 00")]);
    let three = step(&[(4, 1), (9, 1)], [2, 1, 1], "03 01 01 00");
    lists("05 04 09 05 01 09 03 09 04 03 01 04 00", &[three]);
    let two = step(&[(3, 2), (9, 8)], [2, 2, 8], "00");
    lists("05 09 08 05 02 03 03 03 09 00", &[two]);
    lists("05 07 07 01 00", &[step(&[], [0, 0, 0], "00")]);
    lists("05 07 08 00", &[]);
}

#[test]
fn choices_without_duplicates() {
    lists("06 01 00 01 00", &[step(&[], [0, 0, 0], "00")]);
    let both = [step(&[], [0, 0, 0], "00"), step(&[(1, 0)], [0, 0, 0], "00")];
    lists("06 06 05 01 00 01 00 01 00 06 05 00 01 01 00 01 00", &both);
    // Beneath a match of a name with itself, beneath two of them, and beneath none.
    let input = [step(&[], [1, 0, NEW], "00")];
    lists("06 05 01 01 02 00 00 06 05 02 02 05 03 03 02 00 00 02 00 00", &input);
    lists("05 01 01 06 02 00 00 05 01 01 06 02 00 00 02 00 00", &input);
    // A match that fails stands beside one that does not.
    lists("08 06 05 80 00 02 00 00 05 80 80 02 00 00", &[step(&[], [1, 0, NEW], "00")]);
    // Different as they stand, equal once rewritten by the condition.
    lists("05 00 01 06 03 00 01 00 03 01 00 00", &[step(&[(1, 0)], [2, 0, 0], "00")]);
}

/// A result's length stands before it, so a shorter result comes first.
#[test]
fn order_of_results() {
    let expected = [step(&[], [0, 0, 0], "09 00"), step(&[], [0, 0, 0], "01 01 00")];
    assert!(expected[0] < expected[1]);
    lists_with(&[(0, "00")], "06 01 01 01 00 01 09 00", &expected);
}

#[test]
fn communication() {
    let part = "07 03 00 02 00 02 01 03 80 01 00";
    let expected = [
        step(&[], [2, 0, 2], "07 00 02 01 03 80 01 00"),
        step(&[], [1, 1, NEW], "07 03 00 02 00 03 05 01 00"),
        step(&[(1, 0)], [0, 0, 0], "07 00 03 02 00 00"),
    ];
    lists(part, &expected);
    let part = "07 02 01 03 80 01 00 03 00 02 00";
    let expected = [
        step(&[], [2, 0, 2], "07 02 01 03 80 01 00 00"),
        step(&[], [1, 1, NEW], "07 03 05 01 00 03 00 02 00"),
        step(&[(1, 0)], [0, 0, 0], "07 03 02 00 00 00"),
    ];
    lists(part, &expected);
}

/// The conditions of both partners and of their meeting come together.
#[test]
fn communication_under_conditions() {
    let part = "07 05 02 03 03 03 04 00 05 06 07 02 02 03 80 07 00";
    let expected = [
        step(&[(3, 2)], [2, 2, 4], "07 00 05 06 07 02 02 03 80 07 00"),
        step(&[(7, 6)], [1, 2, NEW], "07 05 02 03 03 03 04 00 03 05 06 00"),
        step(&[(3, 2), (7, 6)], [0, 0, 0], "07 00 03 04 06 00"),
    ];
    lists(part, &expected);
}

#[test]
fn closing() {
    let part = "07 04 00 03 80 01 00 02 00 03 80 02 00";
    let expected = [
        step(&[], [3, 0, NEW], "07 03 05 01 00 02 00 03 80 02 00"),
        step(&[], [1, 0, NEW], "07 04 00 03 80 01 00 03 05 02 00"),
        step(&[], [0, 0, 0], "08 07 03 80 01 00 03 80 02 00"),
    ];
    lists(part, &expected);
    let part = "08 07 02 00 03 81 80 00 04 00 03 80 81 00";
    let expected = [
        step(&[], [1, 0, NEW], "08 07 03 80 05 00 04 00 03 80 81 00"),
        step(&[], [3, 0, NEW], "08 07 02 00 03 81 80 00 03 05 80 00"),
        step(&[], [0, 0, 0], "08 08 07 03 81 80 00 03 80 81 00"),
    ];
    lists(part, &expected);
}

/// The third component hears neither of the others' new names.
#[test]
fn closing_beside_a_third() {
    let part = "08 07 07 04 00 03 80 81 00 02 00 00 01 03 80 01 00";
    let expected = [
        step(&[], [3, 0, NEW], "08 07 07 03 05 80 00 02 00 00 01 03 80 01 00"),
        step(&[], [1, 0, NEW], "08 07 07 04 00 03 80 81 00 00 01 03 80 01 00"),
        step(&[], [0, 0, 0], "08 07 08 07 03 80 81 00 00 01 03 80 01 00"),
        step(&[], [0, 0, 0], "08 07 07 04 00 03 80 81 00 02 00 00 03 80 01 00"),
    ];
    lists(part, &expected);
}

#[test]
fn restrictions() {
    lists("08 01 03 80 00 00", &[step(&[], [0, 0, 0], "08 03 80 00 00")]);
    lists("08 02 00 03 80 81 00", &[step(&[], [1, 0, NEW], "08 03 05 80 00")]);
    lists("08 03 00 01 03 80 00 00", &[step(&[], [2, 0, 1], "08 03 80 00 00")]);
    lists("08 04 00 03 80 81 00", &[step(&[], [3, 0, NEW], "08 03 05 80 00")]);
    for blocked in ["02 80 00", "03 80 00 00", "03 80 80 00", "04 80 00"] {
        lists(&format!("08 {blocked}"), &[]);
    }
}

#[test]
fn opening() {
    let part = "08 03 00 80 02 80 03 80 81 00";
    lists(part, &[step(&[], [3, 0, NEW], "02 05 03 80 05 00")]);
    let part = "08 08 03 00 80 03 80 81 00";
    lists(part, &[step(&[], [3, 0, NEW], "08 03 05 80 00")]);
    let part = "08 08 03 00 81 03 80 81 00";
    lists(part, &[step(&[], [3, 0, NEW], "08 03 80 05 00")]);
    let part = "08 05 02 01 03 02 80 03 80 02 00";
    lists(part, &[step(&[(2, 1)], [3, 1, NEW], "03 05 01 00")]);
    lists("08 08 03 80 81 00", &[]);
    lists("08 08 03 81 80 00", &[]);
}

/// A restricted name that is received within its scope, and one that leaves it.
#[test]
fn opening_and_communication() {
    let part = "08 07 03 00 80 03 80 80 00 02 00 03 80 80 00";
    let expected = [
        step(&[], [3, 0, NEW], "07 03 05 05 00 02 00 03 80 80 00"),
        step(&[], [1, 0, NEW], "08 07 03 00 80 03 80 80 00 03 05 05 00"),
        step(&[], [0, 0, 0], "08 07 03 80 80 00 03 80 80 00"),
    ];
    lists(part, &expected);
    let part = "07 08 03 00 80 03 80 80 00 02 00 03 80 80 00";
    let expected = [
        step(&[], [3, 0, NEW], "07 03 05 05 00 02 00 03 80 80 00"),
        step(&[], [1, 0, NEW], "07 08 03 00 80 03 80 80 00 03 05 05 00"),
        step(&[], [0, 0, 0], "08 07 03 80 80 00 03 80 80 00"),
    ];
    lists(part, &expected);
}

/// A restricted name blocks a step exactly if the condition merges it with another.
#[test]
fn conditions_on_restricted_names() {
    lists("08 05 80 80 01 00", &[step(&[], [0, 0, 0], "00")]);
    lists("08 05 80 00 01 00", &[]);
    lists("08 05 00 80 01 00", &[]);
    lists("08 08 05 80 81 01 00", &[]);
    lists("08 05 00 01 01 00", &[step(&[(1, 0)], [0, 0, 0], "00")]);
    lists("08 07 03 80 00 00 02 01 00", &[step(&[], [1, 1, NEW], "08 07 03 80 00 00 00")]);
    lists("08 07 03 80 00 00 02 80 00", &[step(&[], [0, 0, 0], "07 00 00")]);
    lists("08 08 07 03 80 00 00 02 81 00", &[]);
    lists("08 07 04 80 00 02 80 00", &[step(&[], [0, 0, 0], "07 00 00")]);
}

#[test]
fn calls() {
    let input_then = [(2, "02 81 03 80 81 00")];
    lists_with(&input_then, "09 00 0F 03", &[step(&[], [1, 15, NEW], "03 05 03 00")]);
    lists_with(&input_then, "08 09 00 00 80", &[step(&[], [1, 0, NEW], "08 03 05 80 00")]);
    lists_with(&input_then, "08 09 00 80 00", &[]);
    let matching = [(2, "05 80 81 01 09 00 80 81")];
    lists_with(&matching, "09 00 03 03", &[step(&[], [0, 0, 0], "09 00 03 03")]);
    lists_with(&matching, "09 00 02 03", &[step(&[(3, 2)], [0, 0, 0], "09 00 02 02")]);
    lists_with(&matching, "08 09 00 80 80", &[step(&[], [0, 0, 0], "08 09 00 80 80")]);
    lists_with(&matching, "08 09 00 80 03", &[]);
    // Parameters that stand for one name, two names and a restricted one, in communications.
    let offers = [(2, "05 80 81 02 80 00"), (2, "05 80 81 04 80 00")];
    let both = step(&[], [0, 0, 0], "07 00 00");
    lists_with(&offers, "08 07 09 00 80 80 09 01 80 80", &[both]);
    lists_with(&offers, "08 07 09 00 80 00 09 01 80 80", &[]);
    // A call stays folded in a result until its own step.
    let two = [(1, "01 09 01 80 80"), (2, "03 81 80 09 00 81")];
    lists_with(&two, "09 00 07", &[step(&[], [0, 0, 0], "09 01 07 07")]);
    lists_with(&two, "09 01 07 08", &[step(&[], [2, 7, 8], "09 00 07")]);
}

/// No capture: the names of a call enter beneath the body's own binders. The body with parameters
/// p and q is a restriction of r over an output on p of a new x, an input of y on x, an output of
/// q on x and the call of r and y.
#[test]
fn calls_beneath_binders() {
    let body = [(2, "08 04 82 02 80 03 81 83 09 00 82 80")];
    let result = "08 08 02 05 03 05 82 09 00 81 80";
    lists_with(&body, "08 09 00 00 80", &[step(&[], [3, 0, NEW], result)]);
    lists_with(&body, "08 09 00 80 00", &[]);
}

#[test]
fn values_and_bytes_agree() {
    let question = pair("07 02 00 03 80 01 00 08 03 01 80 00", "00", "");
    let values = reference::listed_steps(&question, 1, 7).unwrap();
    let bytes: Vec<Vec<u8>> = values.iter().map(|step| step.bytes().to_vec()).collect();
    assert_eq!(steps(&question, 1, 7), Ok(bytes));
    assert_eq!(values.len(), 3);
}

/// 7 outputs on name 0 beside 31 inputs on names 8 to 14, no two of which lead to the same: with
/// the meetings 8 × 32 - 1 distinct steps. The extra branch adds its own.
fn many_steps(extra: &str) -> Vec<u8> {
    many_steps_on("00", extra)
}

/// The same with the outputs on the name given.
fn many_steps_on(channel: &str, extra: &str) -> Vec<u8> {
    let output = |object: u8| format!("06 03 {channel} {object:02x} 00");
    let outputs: String = (1..=7).map(output).collect();
    let body = |kinds: [&str; 2]| {
        let all = kinds.into_iter().flat_map(|kind| (0..7).map(move |k| (kind, k)));
        let input = |(kind, k): (&str, u8)| {
            format!("02 {:02x} {}", 0x80 + k, kind.replace("c", &format!("{:02x}", 0x81 + k)))
        };
        let inputs: Vec<String> = all.map(input).collect();
        format!("{} {}", "06".repeat(13), inputs.join(" "))
    };
    let names = "08 09 0a 0b 0c 0d 0e";
    let three = "06 02 08 01 03 80 80 00 06 02 09 01 03 80 80 00 02 0a 01 03 80 80 00";
    let inputs = format!("06 09 00 {names} 06 09 01 {names} {three}");
    let restriction = if channel == "80" { "08" } else { "" };
    let first = format!("{restriction} 07 {outputs} {extra} {inputs}");
    let bodies = [body(["03 80 80 00", "03 80 c 00"]), body(["03 c 80 00", "05 c 80 00"])];
    ask(&[(7, &bodies[0]), (7, &bodies[1])], &first, "00", "")
}

#[test]
fn exactly_256_and_257_steps() {
    let count = |extra: &str| steps(&many_steps(extra), 1, 15).map(|list| list.len());
    assert_eq!(count("00"), Ok(255));
    assert_eq!(count("01 00"), Ok(256));
    assert_eq!(count("06 01 00 01 00"), Ok(256));
    assert_eq!(count("06 01 00 01 01 00"), Err(Unsettled));
    assert_eq!(judge(&many_steps("01 00"), 4096), reference::Answer::Different(1));
    assert_eq!(judge(&many_steps("06 01 00 01 01 00"), 4096), Unsettled);
}

/// Steps that a restriction blocks do not count: only the inputs and the silent steps are left.
#[test]
fn blocked_steps_do_not_count() {
    let question = many_steps_on("80", "06 01 00 01 01 00");
    assert_eq!(steps(&question, 1, 15).map(|list| list.len()), Ok(31 + 2));
}

#[test]
fn a_result_of_112_and_113_bytes() {
    let part = |length: usize| [hex("07 09 00"), silent(length)].concat();
    let question = |length: usize| raw(&[(0, silent(100))], &part(length), &[0x00], &[]);
    let listed = steps(&question(12), 1, 0).unwrap();
    assert_eq!(listed.len(), 2);
    assert!(listed.iter().any(|step| step[19] == 112));
    assert_eq!(steps(&question(13), 1, 0), Err(Unsettled));
    assert_eq!(judge(&question(13), 4096), Unsettled);
}

/// A step that a restriction blocks is no step, however long its result.
#[test]
fn a_blocked_result_of_113_bytes() {
    let body = [hex("03 80 80"), silent(100)].concat();
    let blocked = |length: usize| [hex("08 07 09 00 80"), silent(length)].concat();
    let question = |length: usize| raw(&[(1, body.clone())], &blocked(length), &[0x00], &[]);
    let listed = steps(&question(50), 1, 0).unwrap();
    assert_eq!(listed.len(), 1);
    assert_eq!(listed[0][19], 4 + 50);
    let free = [hex("08 07 09 00 00"), silent(11)].concat();
    let question = |part: &[u8]| raw(&[(1, body.clone())], part, &[0x00], &[]);
    assert_eq!(steps(&question(&free), 1, 1).map(|list| list.len()), Ok(2));
    let free = [hex("08 07 09 00 00"), silent(12)].concat();
    assert_eq!(steps(&question(&free), 1, 1), Err(Unsettled));
    // A condition blocks as a channel does.
    let matching = [hex("05 80 81 01"), silent(100)].concat();
    let part = [hex("08 07 09 00 80 00"), silent(50)].concat();
    let question = raw(&[(2, matching)], &part, &[0x00], &[]);
    assert_eq!(steps(&question, 1, 1).map(|list| list.len()), Ok(1));
}

/// An oversized result counts even if the step is not permitted or has no answer.
#[test]
fn an_oversized_result_that_is_not_permitted() {
    let body = [hex("05 80 81 01"), silent(105)].concat();
    let part = [hex("07 09 00 00 01"), silent(12)].concat();
    for apart in [vec![], hex("00 01")] {
        let question = raw(&[(2, body.clone())], &part, &part, &apart);
        assert_eq!(judge(&question, 4096), Unsettled);
    }
    let part = [hex("07 09 00 00 01"), silent(6)].concat();
    let question = raw(&[(2, body)], &part, &part, &hex("00 01"));
    assert_eq!(judge(&question, 4096), Same(6));
}

#[test]
fn many_components() {
    let nested = |left: bool, last: &str| {
        let mut part = String::from(last);
        for _ in 0..36 {
            part = if left { format!("07 {part} 01 00") } else { format!("07 01 00 {part}") };
        }
        part
    };
    for left in [true, false] {
        let question = pair(&nested(left, "01 01 01 00"), "00", "");
        assert_eq!(hex(&nested(left, "01 01 01 00")).len(), 112);
        assert_eq!(steps(&question, 1, 0).map(|list| list.len()), Ok(37));
    }
    // Components that can all meet: 12 outputs and 12 inputs on two names.
    let outputs = "07 03 00 01 00".repeat(12);
    let part = format!("{outputs} {} 02 00 00", "07 02 01 00".repeat(11));
    let question = pair(&part, "00", "");
    assert_eq!(steps(&question, 1, 2).map(|list| list.len()), Ok(12 * 12 + 24));
}

/// All 16 names free in the two parts together: no name is left to receive or extrude.
#[test]
fn all_names_free() {
    let outputs = |names: std::ops::Range<u8>| -> String {
        names.map(|name| format!("06 03 {name:02x} {name:02x} 00")).collect()
    };
    let eight = outputs(0..8);
    let rest = outputs(8..16);
    let most = outputs(8..15);
    for bringing in ["02 00 00", "04 00 00", "08 03 00 80 00"] {
        let first = format!("{eight} {bringing}");
        assert_eq!(judge(&pair(&first, &format!("{rest} 00"), ""), 4096), Unsettled);
        assert_eq!(judge(&pair(&format!("{rest} 00"), &first, ""), 4096), Unsettled);
        let answer = judge(&pair(&first, &format!("{most} 00"), ""), 4096);
        assert_eq!(answer, reference::Answer::Different(1));
    }
    // Not permitted, and yet a step.
    let first = format!("{eight} 05 00 01 02 00 00");
    assert_eq!(judge(&pair(&first, &format!("{rest} 00"), "00 01"), 4096), Unsettled);
    // Silent steps and free outputs need no name.
    let first = format!("{eight} {rest} 01 00");
    assert_eq!(judge(&pair(&first, &first, ""), 4096), Same(2));
    // An input beneath a prefix is no step yet.
    let first = format!("{eight} {rest} 01 02 00 00");
    assert!(matches!(judge(&pair(&first, &first, ""), 4096), Same(_)));
}

#[test]
fn a_part_with_all_names_cannot_be_listed() {
    let part: String = (0..16).map(|name| format!("06 03 {name:02x} {name:02x} 00")).collect();
    let question = pair(&format!("{part} 00"), "00", "");
    for new in 0..17 {
        assert_eq!(steps(&question, 1, new), Err(reference::Answer::Refused(13)));
        assert_eq!(steps(&question, 2, new).is_ok(), new < 16);
    }
    assert_eq!(reference::check(&question), Number(0));
}
