//! The fewest pairs to hold apart: the worked rows of request 2026-06.

mod common;

use common::hex;
use reference::{apart, Answer};

/// A question without definitions.
fn question(first: &str, second: &str, list: &str) -> Vec<u8> {
    let mut bytes = vec![1, 0];
    for field in [first, second, list].map(hex) {
        bytes.extend((field.len() as u16).to_be_bytes());
        bytes.extend(field);
    }
    bytes
}

/// The answer, and the list that is written.
fn found(question: &[u8], capacity: u64, names: &[u8]) -> (Answer, Vec<u8>) {
    let mut work = vec![0xAA; 256 * capacity as usize];
    let mut area = [0xFF; 240];
    let answer = apart(question, capacity, names, &mut work, &mut area);
    let written = match answer {
        Answer::Result(length) => length as usize,
        _ => 0,
    };
    assert!(area[written..].iter().all(|&byte| byte == 0xFF));
    let cleared = !matches!(answer, Answer::Refused(_));
    assert!(work.iter().all(|&byte| byte == if cleared { 0 } else { 0xAA }));
    (answer, area[..written].to_vec())
}

#[test]
fn worked_rows() {
    let newcomer =
        question("07 02 00 00 03 01 02 00", "06 02 00 03 01 02 00 03 01 02 02 00 00", "");
    assert_eq!(found(&newcomer, 256, &[0, 1, 2]), (Answer::Result(2), vec![0, 1]));
    let tie = question("05 00 02 05 01 03 01 00", "00", "");
    assert_eq!(found(&tie, 256, &[3, 2, 1, 0]), (Answer::Result(2), vec![0, 2]));
    let twice = question("05 00 01 01 00", "00", "03 02 03 02");
    assert_eq!(found(&twice, 256, &[0, 1]), (Answer::Result(4), vec![0, 1, 2, 3]));
    for list in ["", "01 00"] {
        let two = question("06 05 00 01 01 00 05 01 02 01 00", "00", list);
        assert_eq!(found(&two, 256, &[0, 1, 2]), (Answer::Result(4), vec![0, 1, 1, 2]));
    }
    assert_eq!(found(&question("01 00", "00", ""), 256, &[0, 1]).0, Answer::None);
    assert_eq!(found(&question("00", "00", ""), 256, &[]).0, Answer::Result(0));
    assert_eq!(found(&question("01 00", "01 00", ""), 1, &[0]).0, Answer::Unsettled);
}

/// Unused restrictions go in every choice: K(x) = x̄x.(νy)K(x), and K(a) twice.
#[test]
fn restrictions_that_go() {
    let restricting = common::ask(&[(1, "03 80 80 08 09 00 81")], "09 00 00", "09 00 00", "");
    assert_eq!(found(&restricting, 1, &[0, 1]).0, Answer::Result(0));
    let (mut work, mut area) = ([0; 256], [0; 240]);
    let before = reference::untidied::apart(&restricting, 1, &[0, 1], &mut work, &mut area);
    assert_eq!(before, Answer::Unsettled);
}

/// Adding a pair can enlarge the field.
#[test]
fn a_larger_choice_may_be_unsettled() {
    let part = "06 05 01 00 01 03 02 00 00 01 03 02 00 00";
    let grows = question(part, part, "");
    assert_eq!(found(&grows, 3, &[1]).0, Answer::Result(0));
    assert_eq!(found(&grows, 3, &[1, 2]).0, Answer::Unsettled);
    assert_eq!(found(&grows, 4, &[1, 2]).0, Answer::Result(0));
}

#[test]
fn refusals() {
    let question = question("00", "00", "");
    for names in [&[0, 0][..], &[16], &[0, 1, 2, 3, 4]] {
        assert_eq!(found(&question, 1, names).0, Answer::Refused(18));
        let answer = apart(&question, 1, names, &mut [0; 256], &mut [0; 239]);
        assert_eq!(answer, Answer::Refused(18));
    }
    assert_eq!(apart(&question, 1, &[0], &mut [0; 256], &mut [0; 239]), Answer::Refused(15));
    assert_eq!(apart(&question, 1, &[0], &mut [0; 255], &mut []), Answer::Refused(2));
}
