//! What the generated questions are like: how many are accepted, and how the verdicts share out.

mod common;

use generate::Random;
use reference::{Answer, STEPS, STEP_BYTES};
use std::time::{Duration, Instant};

const QUESTIONS: u64 = 1500;

#[derive(Default)]
struct Shares {
    refused: [usize; 16],
    same: usize,
    different: usize,
    unsettled: usize,
    largest: u64,
    fields_above_10: usize,
    fields_above_100: usize,
    slowest: Duration,
}

impl Shares {
    fn add(&mut self, answer: Answer) {
        match answer {
            Answer::Refused(check) => self.refused[usize::from(check)] += 1,
            Answer::Unsettled => self.unsettled += 1,
            Answer::Same(size) => {
                self.same += 1;
                self.field(size);
            }
            Answer::Different(size) => {
                self.different += 1;
                self.field(size);
            }
            Answer::Result(_) | Answer::None => unreachable!("judge answers no such thing"),
        }
    }

    fn field(&mut self, size: u64) {
        self.largest = self.largest.max(size);
        self.fields_above_10 += usize::from(size > 10);
        self.fields_above_100 += usize::from(size > 100);
    }

    fn accepted(&self) -> usize {
        self.same + self.different + self.unsettled
    }
}

fn shares(name: &str, capacity: u64, generator: fn(&mut Random) -> Vec<u8>) -> Shares {
    let mut shares = Shares::default();
    let begun = Instant::now();
    for seed in 0..QUESTIONS {
        let question = generator(&mut Random::new(seed));
        let start = Instant::now();
        let answer = common::judge(&question, capacity);
        shares.slowest = shares.slowest.max(start.elapsed());
        let accepted = reference::check(&question) == Answer::Result(0);
        assert_eq!(accepted, !matches!(answer, Answer::Refused(_)), "{name} {seed}");
        shares.add(answer);
    }
    let percent = |count: usize| 100.0 * count as f64 / QUESTIONS as f64;
    println!(
        "{name}, capacity {capacity}: accepted {:.1} %, same {:.1} %, different {:.1} %, \
         unsettled {:.1} %; fields above 10: {:.1} %, above 100: {:.1} %, largest {}; \
         slowest {:.1?}, all {:.1?}; refused by 3 to 12: {:?}",
        percent(shares.accepted()),
        percent(shares.same),
        percent(shares.different),
        percent(shares.unsettled),
        percent(shares.fields_above_10),
        percent(shares.fields_above_100),
        shares.largest,
        shares.slowest,
        begun.elapsed(),
        &shares.refused[3..13],
    );
    shares
}

#[test]
fn unrelated_parts_are_accepted() {
    let shares = shares("unrelated", 256, generate::unrelated);
    assert_eq!(shares.accepted() as u64, QUESTIONS);
}

#[test]
fn busy_questions_are_accepted_and_share_out() {
    for capacity in [256, 4096] {
        let shares = shares("busy", capacity, generate::busy);
        assert_eq!(shares.accepted() as u64, QUESTIONS);
        for count in [shares.same, shares.different, shares.unsettled] {
            assert!(count as u64 * 20 > QUESTIONS);
        }
    }
}

#[test]
fn near_misses_are_accepted_and_share_out() {
    let shares = shares("near miss", 256, generate::near_miss);
    assert_eq!(shares.accepted() as u64, QUESTIONS);
    for count in [shares.same, shares.different, shares.unsettled] {
        assert!(count as u64 * 20 > QUESTIONS);
    }
}

#[test]
fn untidy_questions_are_accepted_and_share_out() {
    let shares = shares("untidy", 256, generate::untidy);
    assert_eq!(shares.accepted() as u64, QUESTIONS);
    for count in [shares.same, shares.different, shares.unsettled] {
        assert!(count as u64 * 20 > QUESTIONS);
    }
}

#[test]
fn near_limits_are_turned_back_about_half_the_time() {
    let shares = shares("near limit", 256, generate::near_limit);
    assert!(shares.accepted() as u64 * 4 > QUESTIONS);
    for check in [4, 5, 6, 9, 12] {
        assert!(shares.refused[check] > 0, "{check}");
    }
}

#[test]
fn damaged_questions_meet_every_check() {
    let shares = shares("damaged", 256, generate::damaged);
    for check in 3..=12 {
        assert!(shares.refused[check] > 0, "{check}");
    }
}

#[test]
fn any_question() {
    for capacity in [3, 256, 4096] {
        let shares = shares("any", capacity, generate::any);
        assert!(shares.accepted() as u64 * 2 > QUESTIONS);
        for count in [shares.same, shares.different, shares.unsettled] {
            assert!(count as u64 * 30 > QUESTIONS);
        }
    }
}

/// Listing agrees with itself whatever the new name: the same count, or unsettled for all.
#[test]
fn listing_with_any_new_name() {
    let mut listed = 0;
    let mut area = vec![0; STEPS * STEP_BYTES];
    for seed in 0..QUESTIONS / 4 {
        let question = generate::any(&mut Random::new(seed));
        for side in 1..=2 {
            let answers = (0..16).map(|new| reference::steps(&question, side, new, &mut area));
            let mut answers: Vec<Answer> = answers.collect();
            answers.retain(|&answer| answer != Answer::Refused(13));
            assert!(answers.windows(2).all(|two| two[0] == two[1]), "{seed}");
            listed += usize::from(matches!(answers.first(), Some(Answer::Result(_))));
        }
    }
    println!("parts listed: {listed}");
}
