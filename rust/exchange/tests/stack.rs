//! The deepest walks that were found, of either edition, each called on a stack of 416 KiB.

use exchange::{Answer, APART_BYTES, QUESTION_BYTES, SITUATION_BYTES, STEPS, STEP_BYTES};
use generate::Fields;
use std::thread;

const STACK_BYTES: usize = 416 * 1024;
const CAPACITY: usize = 16;

/// Repeats the first bytes, then ends with the others.
fn nested(times: usize, repeated: &[u8], end: &[u8]) -> Vec<u8> {
    [repeated.repeat(times), end.to_vec()].concat()
}

/// The operations with the deepest walks.
fn every_operation(question: &[u8]) {
    let mut area = vec![0; STEPS * STEP_BYTES];
    let mut work = vec![0; CAPACITY * SITUATION_BYTES];
    exchange::check(question).expect("the question is accepted");
    let _ = exchange::steps(question, 1, 15, &mut area).expect("the steps are listed");
    for judging in [exchange::judge, exchange::judge_late, exchange::judge_early] {
        let judged = judging(question, CAPACITY as u64, &mut work);
        assert!(!matches!(judged, Ok(Answer::Result(exchange::Verdict::Different(_)))));
    }
    let mut list = [0; APART_BYTES];
    let found = exchange::apart(question, CAPACITY as u64, &[0, 15], &mut work, &mut list);
    assert!(matches!(found, Ok(Answer::Unsettled | Answer::Result(Some(0)))));
    let _ = exchange::merge(question, 0, 1, &mut area).expect("the names are merged");
}

/// Bodies over one parameter that are walked to their last byte. Most of their restrictions bind
/// nothing and go; those of the last three are used.
fn bodies() -> Vec<Vec<u8>> {
    let restricted =
        |times: usize| nested(times, &[8], &[3, 128 + times as u8, 128 + times as u8, 0]);
    vec![
        restricted(108),
        restricted(50),
        nested(36, &[5, 128, 128], &[1, 0]),
        nested(55, &[6, 0], &[1, 0]),
        nested(54, &[6], &nested(1, &[3, 128, 128, 0], &[0; 54])),
        nested(37, &[8, 6, 0], &[0]),
        nested(22, &[8, 6, 0, 6, 0], &[1, 0]),
        nested(27, &[8, 5, 128, 128], &[1, 0]),
        nested(22, &[8, 6, 2, 128, 0], &[1, 0]),
        nested(1, &[1], &nested(27, &[8, 5, 128, 128], &[0])),
    ]
}

/// Parts that end in a call, beneath as much as fits; the restrictions of the last two are used.
fn parts() -> Vec<Vec<u8>> {
    let call = [9, 0, 0];
    vec![
        nested(109, &[8], &call),
        nested(50, &[8], &call),
        nested(54, &[7, 0], &call),
        nested(36, &[8, 7, 0], &call),
        nested(36, &[5, 0, 0], &call),
        nested(27, &[8, 5, 0, 0], &call),
        nested(21, &[8, 6, 0, 6], &[&call[..], &[0; 21]].concat()),
        nested(36, &[8, 7], &[&call[..], &[0; 36]].concat()),
        nested(26, &[7], &[9, 0, 0].repeat(27)),
        nested(27, &[8, 5, 128, 128], &call),
        nested(21, &[8, 7, 9, 0, 128], &call),
    ]
}

#[test]
fn every_call_fits_a_small_stack() {
    for part in parts() {
        for body in bodies() {
            let first = part.clone();
            let fields = Fields {
                definitions: vec![(1, body)],
                second: first.clone(),
                first,
                apart: vec![],
            };
            let question = fields.bytes();
            let call = move || {
                every_operation(&question);
                let mut counted = vec![0; QUESTION_BYTES];
                // a part that is full has no room for the numbers of edition two
                if let Ok(length) = exchange::convert_up(&question, &mut counted) {
                    every_operation(&counted[..length]);
                }
            };
            let thread = thread::Builder::new().stack_size(STACK_BYTES).spawn(call);
            thread.expect("a thread can be started").join().expect("the call returns");
        }
    }
}
