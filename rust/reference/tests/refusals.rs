//! Every check at least once, the order of the checks with two faults at once, and the limits.

mod common;

use common::{ask, beside, hex, judge, merge, pair, parts, raw, silent, steps};
use reference::Answer::{Refused, Result as Number, Same, Unsettled};
use reference::{check, Answer, STEPS, STEP_BYTES};

const SMALL: &str = "01 00";

/// The question is turned back with this number by all five operations. A fault in their own
/// arguments comes later, except that judge's two come first.
fn refused(question: &[u8], number: u8) {
    assert_eq!(check(question), Refused(number));
    assert_eq!(judge(question, 256), Refused(number));
    for side in 0..4 {
        assert_eq!(steps(question, side, 99), Err(Refused(number)));
    }
    assert_eq!(reference::steps(question, 1, 15, &mut []), Refused(number));
    assert_eq!(merge(question, 0, 1), Err(Refused(number)));
    assert_eq!(reference::merge(question, 16, 99, &mut []), Refused(number));
    assert_eq!(beside(question, &[0x00]), Err(Refused(number)));
    assert_eq!(reference::beside(question, &[0x0A], &mut []), Refused(number));
    assert_eq!(judge(question, 0), Refused(1));
    assert_eq!(reference::judge(question, 1, &mut [0; 255]), Refused(2));
}

fn accepted(question: &[u8]) {
    assert_eq!(check(question), Number(0));
}

#[test]
fn capacity_and_work_area() {
    let question = pair("00", "00", "");
    for capacity in [0, 4097, 1 << 32, u64::MAX] {
        assert_eq!(judge(&question, capacity), Refused(1));
        assert_eq!(reference::judge(&question, capacity, &mut []), Refused(1));
        assert_eq!(reference::judge(&[], capacity, &mut []), Refused(1));
    }
    for capacity in [1, 4096] {
        assert_eq!(judge(&question, capacity), Same(1));
        let mut short = vec![7; 256 * capacity as usize - 1];
        assert_eq!(reference::judge(&question, capacity, &mut short), Refused(2));
        assert_eq!(reference::judge(&[], capacity, &mut short), Refused(2));
        assert!(short.iter().all(|&byte| byte == 7));
    }
}

#[test]
fn version() {
    refused(&[], 3);
    refused(&[0x00], 3);
    refused(&[0x03], 3);
    refused(&[0x02], 4);
    refused(&[0xFF; 5000], 3);
    let mut question = pair("00", "00", "");
    question[0] = 0x03;
    refused(&question, 3);
    question[0] = 0x02;
    accepted(&question);
}

#[test]
fn frame() {
    let whole = ask(&[(1, "03 80 80 00"), (0, "00")], "09 00 05", "00", "00 01 02 03");
    accepted(&whole);
    for end in 1..whole.len() {
        refused(&whole[..end], 4);
    }
    let mut longer = whole.clone();
    longer.push(0x00);
    refused(&longer, 4);
    refused(&[0x01], 4);
    refused(&[0x01, 0xFF], 4);
    refused(&hex("01 00 00 01 00 00 01 00 FF FF"), 4);
}

/// Check 4 comes before 5: the count is not yet tested where the fields are told apart.
#[test]
fn frame_before_counts() {
    let mut question = ask(&[(9, "00"); 17], "00", "00", "");
    refused(&question, 5);
    question.push(0x00);
    refused(&question, 4);
}

#[test]
fn question_of_4096_and_4097_bytes() {
    let room = 4096 - raw(&[], &[0x00], &[], &[0x00]).len();
    let question = raw(&[], &[0x00], &vec![0x00; room], &[0x00]);
    assert_eq!(question.len(), 4096);
    refused(&question, 6);
    let question = raw(&[], &[0x00], &vec![0x00; room + 1], &[0x00]);
    assert_eq!(question.len(), 4097);
    refused(&question, 4);
    let question = raw(&[], &[0x00], &[0x00], &vec![0x00; room + 1]);
    assert_eq!(question.len(), 4097);
    refused(&question, 4);
    let question = raw(&[], &[0x00], &[0x00], &vec![0x00; room]);
    refused(&question, 12);
}

/// The longest question that is accepted: all limits at once.
#[test]
fn longest_accepted_question() {
    let apart: Vec<u8> = (0..16).flat_map(|a| (0..a).flat_map(move |b| [a, b])).collect();
    assert_eq!(apart.len(), 240);
    let definitions = vec![(8, silent(112)); 16];
    let question = raw(&definitions, &silent(112), &silent(112), &apart);
    assert_eq!(question.len(), 2312);
    accepted(&question);
    assert_eq!(merge(&question, 3, 3), Ok(question.clone()));
}

#[test]
fn definitions_and_arities() {
    accepted(&ask(&[(0, "00"); 16], "00", "00", ""));
    refused(&ask(&[(0, "00"); 17], "00", "00", ""), 5);
    accepted(&ask(&[(8, "03 87 80 00")], "09 00 00 01 02 03 04 05 06 07", "00", ""));
    refused(&ask(&[(9, "03 88 80 00")], "09 00 00 01 02 03 04 05 06 07 08", "00", ""), 5);
    // 5 before 6: an arity of 9 in the last definition, a length of 0 in the first.
    refused(&ask(&[(0, ""), (9, "00")], "", "", "00"), 5);
}

#[test]
fn lengths() {
    accepted(&parts(&silent(112), &silent(112)));
    refused(&parts(&silent(113), &silent(1)), 6);
    refused(&parts(&silent(1), &silent(113)), 6);
    refused(&parts(&[], &silent(1)), 6);
    refused(&parts(&silent(1), &[]), 6);
    accepted(&raw(&[(0, silent(112))], &[0x00], &[0x00], &[]));
    refused(&raw(&[(0, silent(113))], &[0x00], &[0x00], &[]), 6);
    refused(&raw(&[(0, vec![])], &[0x00], &[0x00], &[]), 6);
    // 6 before 7: the second part is empty, the first is no term.
    refused(&pair("0A", "", ""), 6);
}

#[test]
fn terms() {
    for byte in 0x0A..=0xFF {
        refused(&parts(&[byte], &[0x00]), 7);
        refused(&parts(&[0x00], &[0x01, byte]), 7);
    }
    for short in ["01", "02", "02 00", "03", "03 00", "03 00 00", "04", "04 00"] {
        refused(&pair(short, "00", ""), 7);
    }
    for short in ["05", "05 00", "05 00 00", "06", "06 00", "07", "07 00", "08", "09"] {
        refused(&pair("00", short, ""), 7);
    }
    refused(&ask(&[(2, "00")], "09 00 01", "00", ""), 7);
    refused(&ask(&[(0, "01")], "00", "00", ""), 7);
    refused(&pair("00 00", "00", ""), 7);
    refused(&pair("06 00 00 00", "00", ""), 7);
}

#[test]
fn calls() {
    refused(&pair("09 00", "00", ""), 8);
    refused(&ask(&[(0, "00")], "00", "01 09 01", ""), 8);
    refused(&ask(&[(0, "01 09 FF")], "00", "00", ""), 8);
    accepted(&ask(&[(0, "00")], "09 00", "01 09 00", ""));
}

#[test]
fn names() {
    accepted(&pair("03 0F 0F 00", "00", ""));
    for byte in 0x10..=0xFF {
        refused(&parts(&[0x03, byte, 0x00, 0x00], &[0x00]), 9);
        refused(&parts(&[0x03, 0x00, byte, 0x00], &[0x00]), 9);
    }
    accepted(&pair("02 00 03 80 00 00", "04 00 03 80 00 00", ""));
    refused(&pair("02 00 03 81 00 00", "00", ""), 9);
    refused(&pair("02 80 00", "00", ""), 9);
    refused(&pair("04 80 00", "00", ""), 9);
    accepted(&pair("08 08 03 81 80 00", "00", ""));
    refused(&pair("06 08 00 03 80 00 00", "00", ""), 9);
    accepted(&ask(&[(2, "03 81 80 00")], "00", "00", ""));
    refused(&ask(&[(2, "03 82 80 00")], "00", "00", ""), 9);
    for free in ["00", "0F", "10"] {
        refused(&ask(&[(2, &format!("03 80 {free} 00"))], "00", "00", ""), 9);
    }
    refused(&ask(&[(1, "00")], "09 00 10", "00", ""), 9);
    refused(&ask(&[(1, "01 09 00 05")], "00", "00", ""), 9);
}

/// 7, 8 and 9 share one walk: the first fault decides, from left to right.
#[test]
fn one_walk() {
    refused(&pair("06 0A 09 00", "00", ""), 7);
    refused(&pair("06 09 00 0A", "00", ""), 8);
    refused(&pair("06 03 10 00 00 0A", "00", ""), 9);
    refused(&pair("06 03 00 10 00 09 00", "00", ""), 9);
    refused(&pair("06 09 00 03 00 10 00", "00", ""), 8);
    refused(&pair("03 10", "00", ""), 9);
    refused(&pair("03 00 10", "00", ""), 9);
    refused(&ask(&[(2, "00")], "09 00 10", "00", ""), 9);
    refused(&ask(&[(2, "00")], "09 00 00", "03 10 00 00", ""), 7);
    // The parts stand in file order: bodies, first part, second part.
    refused(&ask(&[(0, "02 80 00"), (0, "0A")], "09 02", "0A", ""), 9);
    refused(&ask(&[(0, "00"), (0, "0A")], "09 02", "02 80 00", ""), 7);
    refused(&ask(&[(0, "00")], "09 02", "02 80 00", ""), 8);
    refused(&ask(&[(0, "00")], "02 80 00", "09 02", ""), 9);
    // Bytes that follow a part count in its own walk, before the next part's.
    refused(&pair("00 00", "09 00", ""), 7);
    refused(&pair("09 00 00", "00 00", ""), 8);
}

#[test]
fn parallels() {
    accepted(&pair("07 00 07 08 07 00 00 00", "08 08 07 00 00", ""));
    for beneath in ["01", "02 00", "03 00 00", "04 00", "05 00 00"] {
        refused(&pair(&format!("{beneath} 07 00 00"), "00", ""), 10);
        refused(&pair("00", &format!("07 00 08 {beneath} 08 07 00 00"), ""), 10);
    }
    refused(&pair("06 07 00 00 00", "00", ""), 10);
    refused(&pair("06 00 07 00 00", "00", ""), 10);
    refused(&ask(&[(0, "07 00 00")], "00", "00", ""), 10);
    refused(&ask(&[(0, "08 07 00 00")], "00", "00", ""), 10);
    refused(&ask(&[(0, "01 07 00 00")], "00", "00", ""), 10);
    // 9 anywhere before 10 anywhere, and 10 before 11.
    refused(&pair("01 07 00 00", "03 10 00 00", ""), 9);
    refused(&ask(&[(0, "09 00")], "00", "01 07 00 00", ""), 10);
}

#[test]
fn unprefixed_calls() {
    for body in ["09 00", "05 80 80 09 00", "06 00 09 00", "06 09 00 00", "08 09 00"] {
        let body = body.replace("09 00", "09 00 80");
        refused(&ask(&[(1, &body)], "00", "00", ""), 11);
    }
    for prefix in ["01", "02 80", "03 80 80", "04 80"] {
        accepted(&ask(&[(1, &format!("{prefix} 09 00 80"))], "00", "00", ""));
        let deeper = format!("{prefix} 08 05 80 80 06 00 09 00 80");
        accepted(&ask(&[(1, &deeper)], "00", "00", ""));
    }
    refused(&ask(&[(1, "06 01 09 00 80 09 00 80")], "00", "00", ""), 11);
    refused(&ask(&[(0, "00"), (0, "09 00")], "00", "00", ""), 11);
    accepted(&ask(&[(0, "00")], "09 00", "06 09 00 08 09 00", ""));
    // 11 before 12.
    refused(&ask(&[(0, "09 00")], "00", "00", "00"), 11);
}

#[test]
fn apart_lists() {
    accepted(&pair("00", "00", "00 0F 0F 00 00 0F"));
    for list in ["00", "00 01 02", "00 10", "10 00", "80 00", "00 00", "0F 0F", "00 01 03 03"] {
        refused(&pair("00", "00", list), 12);
    }
    accepted(&raw(&[], &[0x00], &[0x00], &[0x02, 0x03].repeat(120)));
    refused(&raw(&[], &[0x00], &[0x00], &[0x02, 0x03].repeat(121)), 12);
    refused(&raw(&[], &[0x00], &[0x00], &[0x02; 239]), 12);
}

/// Listing: side and new name, then the area, then the limits of the steps.
#[test]
fn listing() {
    let question = pair("02 00 03 80 05 00", "03 01 02 00", "00 01");
    assert_eq!(steps(&question, 1, 1).map(|list| list.len()), Ok(1));
    assert_eq!(steps(&question, 2, 0).map(|list| list.len()), Ok(1));
    for side in [0, 3, 257, 1 << 32, u64::MAX] {
        assert_eq!(steps(&question, side, 9), Err(Refused(13)));
    }
    for new in [16, 128, 256 + 9, u64::MAX] {
        assert_eq!(steps(&question, 1, new), Err(Refused(13)));
    }
    assert_eq!(steps(&question, 1, 0), Err(Refused(13)));
    assert_eq!(steps(&question, 1, 5), Err(Refused(13)));
    assert_eq!(steps(&question, 2, 1), Err(Refused(13)));
    assert!(steps(&question, 2, 5).is_ok());
    let mut short = vec![3; STEPS * STEP_BYTES - 1];
    assert_eq!(reference::steps(&question, 1, 9, &mut short), Refused(15));
    assert_eq!(reference::steps(&question, 1, 0, &mut short), Refused(13));
    assert!(short.iter().all(|&byte| byte == 3));
}

/// The names of a call count as free even if the body ignores them.
#[test]
fn listing_with_a_name_of_a_call() {
    let question = ask(&[(1, "00")], "09 00 07", "00", "");
    assert_eq!(steps(&question, 1, 7), Err(Refused(13)));
    assert_eq!(steps(&question, 1, 8), Ok(vec![]));
}

#[test]
fn short_area_before_unsettled() {
    let part = [hex("07 09 00"), silent(109)].concat();
    let question = raw(&[(0, silent(112))], &part, &[0x00], &[]);
    assert_eq!(steps(&question, 1, 0), Err(Unsettled));
    let mut short = vec![3; STEPS * STEP_BYTES - 1];
    assert_eq!(reference::steps(&question, 1, 0, &mut short), Refused(15));
    assert!(short.iter().all(|&byte| byte == 3));
}

#[test]
fn merging() {
    let question = pair("03 00 01 02 05 03 80 05 00", "05 05 01 00", "05 02 01 02");
    let merged = pair("03 00 01 02 01 03 80 01 00", "05 01 01 00", "01 02 01 02");
    assert_eq!(merge(&question, 1, 5), Ok(merged.clone()));
    assert_eq!(merge(&question, 5, 1), Ok(merged));
    assert_eq!(merge(&question, 5, 5), Ok(question.clone()));
    assert_eq!(merge(&question, 2, 2), Ok(question.clone()));
    assert_eq!(merge(&question, 9, 12), Ok(question.clone()));
    let pairs = [(5, 2), (2, 5), (1, 2), (2, 1), (16, 0), (0, 16), (16, 16), (256, 0)];
    for (a, b) in pairs.into_iter().chain([(u64::MAX, 1), (1 << 32, 1 << 32)]) {
        assert_eq!(merge(&question, a, b), Err(Refused(14)));
        assert_eq!(reference::merge(&question, a, b, &mut []), Refused(14));
    }
    assert_eq!(reference::merge(&question, 0, 1, &mut []), Refused(15));
}

/// Bodies have no free names, so a merge leaves them alone; bound names stay too.
#[test]
fn merging_with_definitions() {
    let bodies = [(2, "03 81 80 09 01 80"), (1, "01 09 00 80 80")];
    let question = ask(&bodies, "09 00 0F 03", "08 09 00 80 0F", "0E 0F");
    assert_eq!(merge(&question, 15, 3), Ok(ask(&bodies, "09 00 03 03", "08 09 00 80 03", "0E 03")));
}

#[test]
fn beside_both_sides() {
    let question = ask(&[(1, "00")], "01 00", "00", "00 01");
    let third = "08 07 09 00 80 03 00 01 00";
    let expected =
        ask(&[(1, "00")], &format!("07 01 00 {third}"), &format!("07 00 {third}"), "00 01");
    assert_eq!(beside(&question, &hex(third)), Ok(expected));
    assert_eq!(reference::beside(&question, &hex(third), &mut []), Refused(15));
}

/// The checks 6 to 10 of a third part. There is no 11 for it: it is no body.
#[test]
fn third_parts() {
    let question = ask(&[(1, "00")], SMALL, "00", "");
    let refused = |third: &str, number: u8| {
        assert_eq!(beside(&question, &hex(third)), Err(Refused(number)), "{third}");
        assert_eq!(reference::beside(&question, &hex(third), &mut []), Refused(number));
    };
    refused("", 6);
    refused("0A", 7);
    refused("01", 7);
    refused("00 00", 7);
    refused("09 01", 8);
    refused("09 00 80", 9);
    refused("03 10 00 00", 9);
    refused("01 07 00 00", 10);
    refused("06 01 07 00 00 03 10 00 00", 9);
    assert!(beside(&question, &hex("09 00 00")).is_ok());
}

#[test]
fn sides_of_112_and_113_bytes() {
    let question = parts(&silent(50), &silent(60));
    assert_eq!(beside(&question, &silent(51)).map(|written| written.len()), Ok(8 + 102 + 112));
    assert_eq!(beside(&question, &silent(52)), Err(Refused(6)));
    let swapped = parts(&silent(60), &silent(50));
    assert!(beside(&swapped, &silent(51)).is_ok());
    assert_eq!(beside(&swapped, &silent(52)), Err(Refused(6)));
    assert_eq!(beside(&swapped, &[0x0A; 52]), Err(Refused(6)));
    assert_eq!(beside(&swapped, &[0x0A; 113]), Err(Refused(6)));
    assert_eq!(beside(&swapped, &[0x0A; 51]), Err(Refused(7)));
}

/// Answers as single numbers.
#[test]
fn codes() {
    let answers: [(Answer, u64); 6] = [
        (Number(7), 7),
        (Refused(15), (1 << 32) + 15),
        (Unsettled, 2 << 32),
        (Same(4096), (3 << 32) + 4096),
        (Answer::Different(1), (4 << 32) + 1),
        (Answer::None, 5 << 32),
    ];
    for (answer, code) in answers {
        assert_eq!(answer.code(), code);
        assert_eq!(u64::from(answer), code);
    }
}
