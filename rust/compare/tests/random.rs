//! Random questions of both editions: all ten operations with random numbers and areas, the two
//! implementations side by side. What may change in an area is tested beside their agreement.

use compare::{Answer, APART_BYTES, CAPACITY, QUESTION_BYTES, SITUATION_BYTES, STEPS, STEP_BYTES};
use generate::{each_seed, Draft, Random};
use std::collections::BTreeMap;

/// A lent area and what it was filled with.
struct Area {
    lent: Vec<u8>,
    filled: Vec<u8>,
}

impl Area {
    fn new(random: &mut Random, length: usize) -> Area {
        let (start, stride) = (random.byte(), random.byte() | 1);
        let byte = |place: usize| (place as u8).wrapping_mul(stride).wrapping_add(start);
        let filled: Vec<u8> = (0..length).map(byte).collect();
        Area { lent: filled.clone(), filled }
    }

    /// Panics if a byte has changed past the front bytes.
    fn assert_untouched_past(&self, front: usize) {
        assert!(self.lent[front..] == self.filled[front..], "a byte past {front} has changed");
    }
}

/// A length about the one that is needed: mostly enough, now and then too short.
fn about(random: &mut Random, needed: usize) -> usize {
    match random.below(20) {
        0 => needed.saturating_sub(1),
        1 => random.below(needed + 1),
        2 => 0,
        3..=9 => needed,
        _ => needed + random.below(200),
    }
}

/// How often each operation gave each kind of answer.
#[derive(Default)]
struct Tally(BTreeMap<String, usize>);

impl Tally {
    fn add(&mut self, operation: &str, answer: Answer) {
        let kind = match answer {
            Answer::Refused(check) => format!("refused {check:2}"),
            Answer::Unsettled => "unsettled".into(),
            Answer::Result(_) => "result".into(),
            Answer::Same(_) => "same".into(),
            Answer::Different(_) => "different".into(),
            Answer::None => "none".into(),
        };
        *self.0.entry(format!("{operation}: {kind}")).or_default() += 1;
    }

    /// Panics unless each operation gave each of its answers this often.
    fn assert_all(&self, least: usize) {
        let refusals = |operation, rules: &[u8]| -> Vec<String> {
            rules.iter().map(|rule| format!("{operation}: refused {rule:2}")).collect()
        };
        let question: Vec<u8> = (3..=12).chain([16]).collect();
        let plain: Vec<u8> = (3..=12).collect();
        let kinds = [
            refusals("convert down", &[&question[..], &[15]].concat()),
            refusals("convert up", &[&plain[..], &[15, 17]].concat()),
            ["convert down", "convert up"].map(|name| format!("{name}: result")).to_vec(),
            refusals("check", &question),
            refusals("steps", &[&question[..], &[13, 15]].concat()),
            refusals("merge", &[&question[..], &[14, 15]].concat()),
            refusals("beside", &[&question[..], &[15]].concat()),
            refusals("judge", &[&[1, 2], &question[..]].concat()),
            refusals("late", &[&[1, 2], &question[..]].concat()),
            refusals("early", &[&[1, 2], &question[..]].concat()),
            refusals("apart", &[&[1, 2], &question[..], &[15, 18]].concat()),
            ["check", "steps", "merge", "beside", "apart"]
                .map(|name| format!("{name}: result"))
                .to_vec(),
            ["steps", "judge", "late", "early", "apart"]
                .map(|name| format!("{name}: unsettled"))
                .to_vec(),
            vec!["apart: none".into()],
            ["judge", "late", "early"].map(|name| format!("{name}: same")).to_vec(),
            ["judge", "late", "early"].map(|name| format!("{name}: different")).to_vec(),
        ];
        for kind in kinds.concat() {
            let count = self.0.get(&kind).copied().unwrap_or(0);
            assert!(count >= least, "{kind} only {count} times");
        }
    }
}

/// A question, and a draft with its names and definitions, or with others if it is damaged.
fn question(random: &mut Random) -> (Vec<u8>, Draft) {
    let draft = match random.below(14) {
        0..=2 => Draft::unrelated(random),
        3..=6 => Draft::near_miss(random),
        7..=9 => Draft::busy(random),
        _ => Draft::untidy(random),
    };
    let question = match random.below(20) {
        0..=2 => generate::near_limit(random),
        3..=5 => generate::damaged(random),
        _ => draft.bytes(),
    };
    match random.chance(40) {
        true => (generate::counted(random, &question), draft),
        false => (question, draft),
    }
}

/// A number that is often a name of the draft, and sometimes far from a name.
fn name(random: &mut Random, draft: &Draft) -> u64 {
    match random.below(20) {
        0 => random.number(),
        1 => random.between(14, 17) as u64,
        _ => random.below(draft.names) as u64,
    }
}

/// A name that is likely not to be in the draft.
fn new_name(random: &mut Random, draft: &Draft) -> u64 {
    match random.below(20) {
        0 => name(random, draft),
        _ => random.between(draft.names.min(15), 15) as u64,
    }
}

fn steps(random: &mut Random, question: &[u8], draft: &Draft, tally: &mut Tally) {
    for side in [1, 2] {
        let side = if random.chance(5) { random.number() % 5 } else { side };
        let length = about(random, STEPS * STEP_BYTES);
        let mut area = Area::new(random, length);
        let answer = compare::steps(question, side, new_name(random, draft), &mut area.lent);
        let count = match answer {
            Answer::Result(count) => count as usize,
            _ => 0,
        };
        area.assert_untouched_past(count * STEP_BYTES);
        let listed: Vec<&[u8]> = area.lent[..count * STEP_BYTES].chunks(STEP_BYTES).collect();
        assert!(listed.windows(2).all(|two| two[0] < two[1]), "the steps do not ascend");
        tally.add("steps", answer);
    }
}

fn merge(random: &mut Random, question: &[u8], draft: &Draft, tally: &mut Tally) {
    let length = about(random, question.len());
    let mut area = Area::new(random, length);
    let (a, b) = (name(random, draft), name(random, draft));
    let answer = compare::merge(question, a, b, &mut area.lent);
    written(&area, answer);
    tally.add("merge", answer);
}

fn beside(random: &mut Random, question: &[u8], draft: &Draft, tally: &mut Tally) {
    let mut third = generate::third_part(random, draft);
    if question.first() == Some(&0x02) {
        third = generate::counted_third(random, draft, &third);
    }
    let length = about(random, question.len() + 2 * (1 + third.len()));
    let mut area = Area::new(random, length);
    let answer = compare::beside(question, &third, &mut area.lent);
    written(&area, answer);
    tally.add("beside", answer);
}

/// Both converters; what one has written the other turns back into the question.
fn convert(random: &mut Random, question: &[u8], tally: &mut Tally) {
    type Converter = fn(&[u8], &mut [u8]) -> Answer;
    let down: (&str, Converter) = ("convert down", compare::convert_down);
    let up: (&str, Converter) = ("convert up", compare::convert_up);
    for ((name, there), (_, back)) in [(down, up), (up, down)] {
        let length = about(random, 3 * question.len() / 2);
        let mut area = Area::new(random, length);
        let answer = there(question, &mut area.lent);
        written(&area, answer);
        tally.add(name, answer);
        if let Answer::Result(length) = answer {
            let mut original = Area::new(random, question.len());
            let next = &area.lent[..length as usize];
            assert_eq!(back(next, &mut original.lent), Answer::Result(question.len() as u64));
            assert_eq!(original.lent, question);
            let mut work = vec![0; 40 * SITUATION_BYTES as usize];
            let verdict = compare::judge(question, 40, &mut work);
            assert_eq!(compare::judge(next, 40, &mut work), verdict);
        }
    }
}

/// What a merge, beside or converter leaves: an accepted question, or nothing changed.
fn written(area: &Area, answer: Answer) {
    let length = match answer {
        Answer::Result(length) => length as usize,
        _ => 0,
    };
    area.assert_untouched_past(length);
    if length > 0 {
        assert!(length <= QUESTION_BYTES);
        assert_eq!(compare::check(&area.lent[..length]), Answer::Result(0));
    }
}

/// A capacity, now and then one that check 1 turns back.
fn capacity(random: &mut Random) -> u64 {
    match random.below(100) {
        0..=2 => *random.pick(&[0, CAPACITY + 1, 1 << 32, u64::MAX]),
        3..=39 => random.between(1, 30) as u64,
        40..=97 => random.between(30, 256) as u64,
        _ => random.between(256, CAPACITY as usize) as u64,
    }
}

/// The open, the late and the early verdict, each at a capacity of its own. "Same" is kept from the
/// one to the next, whatever the capacities.
fn judge(random: &mut Random, question: &[u8], tally: &mut Tally) {
    type Judging = fn(&[u8], u64, &mut [u8]) -> Answer;
    let judgings: [(&str, Judging); 3] =
        [("judge", compare::judge), ("late", compare::judge_late), ("early", compare::judge_early)];
    let mut same_before = false;
    for (name, judging) in judgings {
        let capacity = capacity(random);
        let used = (SITUATION_BYTES * capacity.min(CAPACITY)) as usize;
        let length = about(random, used);
        let mut area = Area::new(random, length);
        let answer = judging(question, capacity, &mut area.lent);
        let cleared = if matches!(answer, Answer::Refused(_)) { 0 } else { used };
        assert!(area.lent[..cleared].iter().all(|&byte| byte == 0), "the work area is not cleared");
        area.assert_untouched_past(cleared);
        assert!(!same_before || !matches!(answer, Answer::Different(_)), "{question:02x?}");
        same_before |= matches!(answer, Answer::Same(_));
        tally.add(name, answer);
    }
}

/// Up to four names, often of the draft; now and then one too many, one that is none or a repeat.
fn names(random: &mut Random, draft: &Draft) -> Vec<u8> {
    let most = if random.chance(5) { 6 } else { 4 };
    let count = random.below(most + 1);
    let mut names: Vec<u8> = Vec::new();
    for _ in 0..count {
        let name = name(random, draft) as u8;
        if !names.contains(&name) || random.chance(5) {
            names.push(name);
        }
    }
    names
}

fn apart(random: &mut Random, question: &[u8], draft: &Draft, tally: &mut Tally) {
    let capacity = match capacity(random) {
        allowed @ 1..=CAPACITY => allowed.min(64), // there are up to 64 choices
        other => other,
    };
    let used = (SITUATION_BYTES * capacity.min(CAPACITY)) as usize;
    let (length, result) = (about(random, used), about(random, APART_BYTES));
    let (mut work, mut area) = (Area::new(random, length), Area::new(random, result));
    let names = names(random, draft);
    let answer = compare::apart(question, capacity, &names, &mut work.lent, &mut area.lent);
    let cleared = if matches!(answer, Answer::Refused(_)) { 0 } else { used };
    assert!(work.lent[..cleared].iter().all(|&byte| byte == 0), "the work area is not cleared");
    work.assert_untouched_past(cleared);
    let written = match answer {
        Answer::Result(length) => length as usize,
        _ => 0,
    };
    area.assert_untouched_past(written);
    let list: Vec<&[u8]> = area.lent[..written].chunks(2).collect();
    assert!(list.windows(2).all(|two| two[0] < two[1]), "the list does not ascend");
    assert!(list.iter().all(|pair| pair[0] < pair[1]), "a pair's larger name is first");
    tally.add("apart", answer);
}

#[test]
fn all_operations_agree() {
    let mut tally = Tally::default();
    each_seed(10_000, |random| {
        let (question, draft) = question(random);
        tally.add("check", compare::check(&question));
        steps(random, &question, &draft, &mut tally);
        merge(random, &question, &draft, &mut tally);
        beside(random, &question, &draft, &mut tally);
        convert(random, &question, &mut tally);
        judge(random, &question, &mut tally);
        apart(random, &question, &draft, &mut tally);
    });
    for (kind, count) in &tally.0 {
        println!("{kind}: {count}");
    }
    tally.assert_all(10);
}
