//! Request 2026-04: results and the parts of a start lose the restrictions that bind nothing. The
//! worked rows, what listing and limits go by, and random questions judged with both meanings.

mod common;

use common::{ask, hex, judge, merge, pair, raw, silent, step, steps, tidied};
use generate::{each_seed, Draft, Fields, Random, UNUSED};
use reference::Answer::{self, Different, Same, Unsettled};
use reference::{untidied, SITUATION_BYTES, STEPS, STEP_BYTES};

/// The new name in the cases below.
const NEW: u8 = 1;

/// The listed steps of a part are exactly these.
fn lists(part: &str, expected: &[Vec<u8>]) {
    lists_with(&[], part, expected);
}

fn lists_with(definitions: &[(u8, &str)], part: &str, expected: &[Vec<u8>]) {
    let question = ask(definitions, part, "00", "");
    assert_eq!(steps(&question, 1, NEW.into()), Ok(expected.to_vec()), "{part}");
}

/// The answer with the meaning before the request.
fn before(question: &[u8], capacity: u64) -> Answer {
    untidied::judge(question, capacity, &mut vec![0; (SITUATION_BYTES * capacity) as usize])
}

#[test]
fn worked_verdicts() {
    for (worked, answer_before) in UNUSED {
        let question = worked.bytes();
        assert_eq!(judge(&question, worked.capacity).to_string(), worked.answer, "{}", worked.name);
        assert_eq!(before(&question, worked.capacity).to_string(), *answer_before);
    }
}

/// A result of 121 bytes that has 21 once it is tidied.
#[test]
fn a_result_that_was_too_long() {
    let body = [vec![0x01], vec![0x08; 100], vec![0x00]].concat();
    let part = [hex("07 09 00"), [0x03, 0x00, 0x00].repeat(6), vec![0x00]].concat();
    let question = raw(&[(0, body)], &part, &part, &[]);
    assert_eq!(before(&question, 256), Unsettled);
    assert_eq!(judge(&question, 256), Same(14));
}

#[test]
fn worked_listings() {
    lists("02 00 08 03 81 81 00", &[step(&[], [1, 0, NEW], "03 01 01 00")]);
    lists("02 00 08 03 81 80 08 00", &[step(&[], [1, 0, NEW], "08 03 01 80 00")]);
    for part in ["01 08 08 03 81 00 00", "01 08 08 03 80 00 00"] {
        lists(part, &[step(&[], [0, 0, 0], "08 03 80 00 00")]);
    }
    // Close leaves nothing to bind.
    let closing = [
        step(&[], [0, 0, 0], "07 00 00"),
        step(&[], [1, 0, NEW], "07 04 00 00 00"),
        step(&[], [3, 0, NEW], "07 00 02 00 00"),
    ];
    lists("07 04 00 00 02 00 00", &closing);
    // The communication was the last to use the name.
    lists("08 07 02 80 00 03 80 00 00", &[step(&[], [0, 0, 0], "07 00 00")]);
}

/// At every depth of a result, beneath each kind of term.
#[test]
fn however_deep() {
    let kept = "06 02 00 03 81 80 00 05 80 00 04 80 09 00 80 81";
    let untidy = "06 08 02 00 08 03 83 81 08 00 08 05 81 00 08 04 82 08 09 00 81 84";
    let binary = [(2, "00")];
    let expected = step(&[], [0, 0, 0], &format!("08 {kept}"));
    lists_with(&binary, &format!("01 08 {untidy}"), &[expected]);
    // A component that does not move is tidied too.
    lists(
        "07 01 00 01 08 00",
        &[step(&[], [0, 0, 0], "07 00 01 00"), step(&[], [0, 0, 0], "07 01 00 00")],
    );
}

/// The names of a call are its free names, whether its body uses them or not.
#[test]
fn names_of_calls_count() {
    let ignored = [(2, "01 00")];
    lists_with(&ignored, "01 08 09 00 80 00", &[step(&[], [0, 0, 0], "08 09 00 80 00")]);
    lists_with(&ignored, "01 08 09 00 00 00", &[step(&[], [0, 0, 0], "09 00 00 00")]);
    lists_with(&ignored, "01 08 08 09 00 81 00", &[step(&[], [0, 0, 0], "08 09 00 80 00")]);
    lists_with(&ignored, "08 09 00 80 00", &[step(&[], [0, 0, 0], "00")]);
}

/// Steps that differ in unused restrictions alone are one step, and the order is that of what is
/// left.
#[test]
fn duplicates_and_order() {
    lists("06 01 00 06 01 08 00 08 01 08 08 00", &[step(&[], [0, 0, 0], "00")]);
    let ordered = [step(&[], [0, 0, 0], "01 00"), step(&[], [0, 0, 0], "01 01 00")];
    lists("06 01 08 08 08 01 00 01 01 01 00", &ordered);
}

/// 112 bytes are counted once the result is tidied, whatever it has before.
#[test]
fn the_length_of_a_result() {
    let question = |restrictions: usize, length: usize| {
        let body = [vec![0x01], vec![0x08; restrictions], silent(10)].concat();
        let part = [hex("07 09 00"), silent(length)].concat();
        raw(&[(0, body)], &part, &[0x00], &[])
    };
    for restrictions in [0, 1, 50, 101] {
        let listed = steps(&question(restrictions, 101), 1, 0).unwrap();
        assert!(listed.iter().any(|step| step[19] == 112));
        assert_eq!(steps(&question(restrictions, 102), 1, 0), Err(Unsettled));
    }
    // Two bodies at once, and a restriction for the name that is extruded.
    let sending = [hex("04 80"), vec![0x08; 108], vec![0x00]].concat();
    let receiving = [hex("02 80"), vec![0x08; 108], vec![0x00]].concat();
    let bodies = [(1, sending), (1, receiving)];
    let part = [hex("08 07 07 09 00 80 09 01 80"), silent(103)].concat();
    let listed = steps(&raw(&bodies, &part, &[0x00], &[]), 1, 0).unwrap();
    assert_eq!(listed.iter().map(|step| step[19]).collect::<Vec<_>>(), [107, 111]);
}

/// 256 distinct steps are counted once the results are tidied: 15 outputs meet 17 inputs, and two
/// more, where what follows differs in unused restrictions and has none to four silent steps.
#[test]
fn the_number_of_steps() {
    let mut words = vec![String::new()];
    for place in 0..8 {
        words.extend(["01", "08"].map(|first| format!("{first} {}", words[place])));
    }
    let body = |prefix: &str, count: usize| {
        let branches = words.iter().take(count).map(|word| format!("{prefix} {word} 00 "));
        format!("{} {}", "06".repeat(count - 1), branches.collect::<String>())
    };
    let definitions = [body("03 80 80", 15), body("02 80", 17)];
    let definitions = definitions.each_ref().map(|body| (1, body.as_str()));
    let part = "07 07 08 07 09 00 80 09 01 80 03 00 00 00 03 01 01 00";
    let question = ask(&definitions, part, "00", "");
    let mut area = vec![0; STEPS * STEP_BYTES];
    assert_eq!(untidied::steps(&question, 1, 15, &mut area), Unsettled);
    assert_eq!(steps(&question, 1, 15).map(|list| list.len()), Ok(4 * 5 + 2));
}

/// What writes a question writes it as it stands, and check 13 goes by the same names.
#[test]
fn questions_keep_their_restrictions() {
    let question = pair("08 01 08 03 01 02 00", "08 00", "");
    assert_eq!(merge(&question, 1, 2), Ok(pair("08 01 08 03 01 01 00", "08 00", "")));
    let beside = common::beside(&question, &hex("08 00"));
    assert_eq!(beside, Ok(pair("07 08 01 08 03 01 02 00 08 00", "07 08 00 08 00", "")));
    assert_eq!(steps(&question, 1, 1), Err(Answer::Refused(13)));
}

/// A question with unused restrictions, or another one.
fn question(random: &mut Random) -> Vec<u8> {
    match random.chance(75) {
        true => Draft::untidy(random).bytes(),
        false => generate::any(random),
    }
}

/// A question settled before keeps its word at the same capacity, with no larger n.
#[test]
fn settled_before_is_settled_alike() {
    type Judging = fn(&[u8], u64, &mut [u8]) -> Answer;
    let judgings: [(Judging, Judging); 3] = [
        (untidied::judge, reference::judge),
        (untidied::judge_late, reference::judge_late),
        (untidied::judge_early, reference::judge_early),
    ];
    let (mut settled, mut smaller, mut became_settled) = (0, 0, 0);
    each_seed(4000, |random| {
        let question = question(random);
        let capacity = *random.pick(&[1, 2, 8, 40, 256, 256, 256]);
        let mut work = vec![0; (SITUATION_BYTES * capacity) as usize];
        for (before, now) in judgings {
            let before = before(&question, capacity, &mut work);
            let now = now(&question, capacity, &mut work);
            match (before, now) {
                (Same(before), Same(now)) | (Different(before), Different(now)) => {
                    assert!(now <= before, "{before}, {now}: {question:02x?}");
                    settled += 1;
                    smaller += usize::from(now < before);
                }
                (Unsettled, Same(_) | Different(_)) => became_settled += 1,
                (before, now) => assert_eq!(before, now, "{question:02x?}"),
            }
        }
    });
    println!("settled: {settled}, {smaller} with a smaller n; became settled: {became_settled}");
    assert!(settled > 4000 && smaller > 200 && became_settled > 500);
}

/// The list is that of before with its results tidied, in order and without duplicates. Tidying the
/// part and the bodies first makes no difference.
#[test]
fn lists_are_those_of_before_tidied() {
    let (mut shorter, mut became_settled) = (0, 0);
    let mut area = vec![0; STEPS * STEP_BYTES];
    each_seed(2000, |random| {
        let question = Draft::untidy(random).bytes();
        let fields = Fields::of(&question);
        let arities: Vec<u8> = fields.definitions.iter().map(|definition| definition.0).collect();
        let tidied = |term: &[u8]| tidied(term, &arities);
        let bodies = fields.definitions.iter().map(|(arity, body)| (*arity, tidied(body)));
        let bodies: Vec<(u8, Vec<u8>)> = bodies.collect();
        let tidy_question = raw(&bodies, &tidied(&fields.first), &tidied(&fields.second), &[]);
        for side in [1, 2] {
            let now = steps(&question, side, 15);
            assert_eq!(now, steps(&tidy_question, side, 15));
            match (untidied::steps(&question, side, 15, &mut area), now) {
                (Answer::Result(count), now) => {
                    let listed = area.chunks(STEP_BYTES).take(count as usize);
                    let mut expected: Vec<Vec<u8>> = listed
                        .map(|step| {
                            let result = tidied(&step[20..20 + usize::from(step[19])]);
                            let mut step = [&step[..19], &[result.len() as u8], &result].concat();
                            step.resize(STEP_BYTES, 0);
                            step
                        })
                        .collect();
                    expected.sort();
                    expected.dedup();
                    shorter += usize::from(expected.len() < count as usize);
                    assert_eq!(now, Ok(expected));
                }
                (Unsettled, now) => became_settled += usize::from(now.is_ok()),
                (before, now) => assert_eq!(now, Err(before)),
            }
        }
    });
    println!("shorter lists: {shorter}; became settled: {became_settled}");
    assert!(shorter > 20 && became_settled > 20);
}
