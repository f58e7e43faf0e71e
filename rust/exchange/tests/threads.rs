//! Several threads call at once, each with areas of its own, on stacks much smaller than usual.

use exchange::{Answer, Refusal, Verdict, QUESTION_BYTES, SITUATION_BYTES, STEPS, STEP_BYTES};
use generate::Random;
use std::sync::Barrier;
use std::thread;

const THREADS: usize = 8;
const STACK_BYTES: usize = 512 * 1024;
const CAPACITY: usize = 64;

/// What all five operations answer to one question and leave in their areas.
#[derive(PartialEq, Debug)]
struct Outcome {
    checked: Result<(), Refusal>,
    listed: Result<Answer<usize>, Refusal>,
    merged: Result<usize, Refusal>,
    beside: Result<usize, Refusal>,
    judged: Result<Answer<Verdict>, Refusal>,
    areas: [Vec<u8>; 4],
}

fn outcome(question: &[u8]) -> Outcome {
    let lengths = [STEPS * STEP_BYTES, QUESTION_BYTES, QUESTION_BYTES, CAPACITY * SITUATION_BYTES];
    let mut areas = lengths.map(|length| vec![0x5A; length]);
    Outcome {
        checked: exchange::check(question),
        listed: exchange::steps(question, 1, 15, &mut areas[0]),
        merged: exchange::merge(question, 0, 1, &mut areas[1]),
        beside: exchange::beside(question, &[0x01, 0x00], &mut areas[2]),
        judged: exchange::judge(question, CAPACITY as u64, &mut areas[3]),
        areas,
    }
}

#[test]
fn threads_do_not_disturb_each_other() {
    let questions: Vec<Vec<u8>> =
        (0..300).map(|seed| generate::any(&mut Random::new(seed))).collect();
    let alone: Vec<Outcome> = questions.iter().map(|question| outcome(question)).collect();
    let (questions, alone) = (&questions, &alone);
    let together = &Barrier::new(THREADS);
    thread::scope(|scope| {
        for turn in 0..THREADS {
            let at_once = move || {
                together.wait();
                for place in 0..questions.len() {
                    // Half of the threads are at the same question at once, half at others.
                    let place = (place + turn / 2 * 37) % questions.len();
                    assert_eq!(outcome(&questions[place]), alone[place], "question {place}");
                }
            };
            let thread = thread::Builder::new().stack_size(STACK_BYTES);
            thread.spawn_scoped(scope, at_once).expect("a thread can be started");
        }
    });
}
