//! Any bytes and any numbers get an answer, and refusals agree between the operations.

mod common;

use common::{beside, judge, merge, steps};
use generate::{each_seed, Draft, Random};
use reference::{check, Answer};

/// A number that is often a name, and sometimes far from one.
fn number(random: &mut Random) -> u64 {
    match random.below(10) {
        0 => random.number(),
        1 => 16,
        _ => random.below(16) as u64,
    }
}

/// All operations on one question. What check turns back, all turn back alike.
fn all_operations(random: &mut Random, question: &[u8]) {
    let verdict = judge(question, 1 + number(random) % 64);
    let listed = steps(question, 1 + number(random) % 2, number(random)).err();
    let merged = merge(question, number(random), number(random)).err();
    let draft = Draft::unrelated(random);
    let third = generate::third_part(random, &draft);
    let beside = beside(question, &third).err();
    match check(question) {
        Answer::Result(0) => {
            assert!(!matches!(verdict, Answer::Refused(_)));
            assert!(matches!(listed, None | Some(Answer::Refused(13) | Answer::Unsettled)));
            assert!(matches!(merged, None | Some(Answer::Refused(14))));
            assert!(matches!(beside, None | Some(Answer::Refused(6..=10))));
        }
        refusal => {
            assert!(matches!(refusal, Answer::Refused(3..=12)));
            assert_eq!(verdict, refusal);
            assert_eq!([listed, merged, beside], [Some(refusal); 3]);
        }
    }
}

#[test]
fn generated_questions() {
    each_seed(4000, |random| {
        let question =
            if random.chance(50) { generate::damaged(random) } else { generate::any(random) };
        all_operations(random, &question);
    });
}

#[test]
fn random_bytes() {
    each_seed(4000, |random| {
        let length = random.below(60);
        let few = random.chance(70);
        let byte = |random: &mut Random| if few { random.byte() % 12 } else { random.byte() };
        let mut question: Vec<u8> = (0..length).map(|_| byte(random)).collect();
        if let Some(first) = question.first_mut() {
            *first = 0x01;
        }
        all_operations(random, &question);
    });
}
