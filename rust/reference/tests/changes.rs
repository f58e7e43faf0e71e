//! "A list of changes" with random questions and entries, and what must hold of every verdict.

mod common;

use common::{beside, judge, merge};
use generate::{each_seed, Draft, Entry, Fields};
use reference::Answer::{self, Different, Refused, Same, Unsettled};

fn holds_apart(question: &[u8], a: u64, b: u64) -> bool {
    let apart = Fields::of(question).apart;
    let mut pairs = apart.chunks(2).map(|pair| (u64::from(pair[0]), u64::from(pair[1])));
    pairs.any(|pair| pair == (a, b) || pair == (b, a))
}

/// The question with two bytes at the end of its apart list, if check accepts it.
fn declared(question: &[u8], a: u8, b: u8) -> Option<Vec<u8>> {
    let mut fields = Fields::of(question);
    fields.apart.extend([a, b]);
    let longer = fields.bytes();
    (reference::check(&longer) == Answer::Result(0)).then_some(longer)
}

/// Each capacity from n up gives the verdict of the greatest, each below it none.
fn judged_at_all_capacities(question: &[u8]) -> Answer {
    let full = judge(question, 4096);
    match full {
        Same(n) | Different(n) => {
            for capacity in [n, n + 1, 2 * n, 256] {
                let expected = if capacity < n { Unsettled } else { full };
                assert_eq!(judge(question, capacity.min(4096)), expected);
            }
            for capacity in [1, n / 2, n - 1] {
                if (1..n).contains(&capacity) {
                    assert_eq!(judge(question, capacity), Unsettled);
                }
            }
        }
        _ => {
            for capacity in [1, 2, 10, 256, 4095] {
                assert_eq!(judge(question, capacity), Unsettled);
            }
        }
    }
    full
}

/// What a run of lists met.
#[derive(Default, Debug)]
struct Tally {
    same: usize,
    different: usize,
    unsettled: usize,
    refused: usize,
    same_again: usize,
}

/// A list being carried out: the question at hand, and whether a "same" was answered so far.
struct Run<'a> {
    at_hand: Vec<u8>,
    was_same: bool,
    tally: &'a mut Tally,
}

impl Run<'_> {
    /// Carries out one entry and tests its answer.
    fn entry(&mut self, entry: &Entry) {
        let next = match entry {
            &Entry::Merge(a, b) => self.merge(a, b),
            &Entry::Apart(a, b) => self.declare(a, b),
            Entry::Beside(third) => self.beside(third),
            &Entry::Judge(capacity) => {
                self.judge(capacity);
                return;
            }
        };
        match next {
            Some(question) => self.at_hand = question,
            None => self.tally.refused += 1,
        }
        assert_eq!(reference::check(&self.at_hand), Answer::Result(0));
    }

    fn merge(&self, a: u64, b: u64) -> Option<Vec<u8>> {
        let turned_back = a > 15 || b > 15 || holds_apart(&self.at_hand, a, b);
        let merged = merge(&self.at_hand, a, b);
        assert_eq!(merged.as_ref().err(), turned_back.then_some(&Refused(14)));
        merged.ok()
    }

    fn declare(&self, a: u8, b: u8) -> Option<Vec<u8>> {
        let full = Fields::of(&self.at_hand).apart.len() == 240;
        let declared = declared(&self.at_hand, a, b);
        assert_eq!(declared.is_none(), a > 15 || b > 15 || a == b || full);
        declared
    }

    fn beside(&self, third: &[u8]) -> Option<Vec<u8>> {
        let fields = Fields::of(&self.at_hand);
        let side = |part: &[u8]| [&[0x07], part, third].concat();
        let (first, second) = (side(&fields.first), side(&fields.second));
        let expected = Fields { first, second, ..fields }.bytes();
        match beside(&self.at_hand, third) {
            Ok(written) => assert_eq!(written, expected),
            Err(answer) => {
                // The third part is turned back as the sides with it would be.
                let whole = reference::check(&expected);
                assert_eq!(answer, if third.is_empty() { Refused(6) } else { whole });
                return None;
            }
        }
        Some(expected)
    }

    fn judge(&mut self, capacity: u64) {
        let answer = judge(&self.at_hand, capacity);
        match answer {
            Same(_) => self.tally.same += 1,
            Different(_) => self.tally.different += 1,
            Unsettled => self.tally.unsettled += 1,
            _ => {
                assert_eq!(answer, Refused(1));
                self.tally.refused += 1;
            }
        }
        assert!(!(self.was_same && matches!(answer, Different(_))), "same, then different");
        let same = matches!(answer, Same(_));
        self.tally.same_again += usize::from(self.was_same && same);
        self.was_same |= same;
    }
}

#[test]
fn lists_of_changes() {
    let mut tally = Tally::default();
    each_seed(2000, |random| {
        let draft = match random.below(5) {
            0 => Draft::unrelated(random),
            3 => Draft::busy(random),
            4 => Draft::untidy(random),
            _ => Draft::near_miss(random),
        };
        let count = random.between(4, 14);
        let mut entries = generate::entries(random, &draft, count);
        entries.insert(0, Entry::Judge(256));
        entries.push(Entry::Judge(256));
        let at_hand = draft.bytes();
        let mut run = Run { at_hand, was_same: false, tally: &mut tally };
        entries.iter().for_each(|entry| run.entry(entry));
    });
    println!("{tally:?}");
    assert!(tally.same_again > 1000);
    assert!(tally.same.min(tally.different).min(tally.unsettled).min(tally.refused) > 500);
}

#[test]
fn every_sufficient_capacity_gives_the_same() {
    each_seed(150, |random| {
        judged_at_all_capacities(&generate::near_miss(random));
        judged_at_all_capacities(&generate::busy(random));
    });
}

/// The sides may change places; the order and repeats of the apart list mean nothing.
#[test]
fn sides_and_apart_lists() {
    each_seed(1500, |random| {
        let question = generate::near_miss(random);
        let answer = judge(&question, 256);
        let mut fields = Fields::of(&question);
        fields = Fields { first: fields.second.clone(), second: fields.first.clone(), ..fields };
        assert_eq!(judge(&fields.bytes(), 256), answer);
        let turned: Vec<u8> = fields.apart.iter().rev().copied().collect();
        let repeats = if turned.len() <= 120 { 2 } else { 1 };
        fields.apart = turned.repeat(repeats);
        assert_eq!(judge(&fields.bytes(), 256), answer);
    });
}

/// A part is never different from itself, under any apart list.
#[test]
fn a_part_and_itself() {
    let mut same = 0;
    each_seed(1500, |random| {
        let question = generate::any(random);
        if reference::check(&question) != Answer::Result(0) {
            return;
        }
        let mut fields = Fields::of(&question);
        fields.second = fields.first.clone();
        let answer = judge(&fields.bytes(), 256);
        assert!(!matches!(answer, Different(_)));
        same += usize::from(matches!(answer, Same(_)));
    });
    assert!(same > 700);
}
