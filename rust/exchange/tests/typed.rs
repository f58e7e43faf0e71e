//! The types give what the functions give.

use exchange::{
    Answer, Capacity, Judge, Name, Question, Refusal, Side, Step, QUESTION_BYTES, STEPS, STEP_BYTES,
};
use generate::{each_seed, Fields};

fn assert_fields(question: Question<'_>) {
    let fields = Fields::of(question.bytes());
    let definitions: Vec<(u8, Vec<u8>)> =
        question.definitions().map(|(arity, body)| (arity, body.to_vec())).collect();
    assert_eq!(definitions, fields.definitions);
    assert_eq!(question.part(Side::First), fields.first);
    assert_eq!(question.part(Side::Second), fields.second);
    let apart: Vec<u8> = question.apart().flat_map(|(a, b)| [a.byte(), b.byte()]).collect();
    assert_eq!(apart, fields.apart);
}

fn assert_steps(question: Question<'_>, name: Name) {
    let mut areas = [vec![0; STEPS * STEP_BYTES], vec![0; STEPS * STEP_BYTES]];
    let [typed, plain] = &mut areas;
    for side in Side::BOTH {
        let listed = exchange::steps(question.bytes(), side.number(), name.byte().into(), plain);
        let steps = question.steps(side, name, typed);
        assert_eq!(steps.map(|steps| steps.map(|steps| steps.len())), listed);
        if let Ok(Answer::Result(steps)) = steps {
            assert!(steps.iter().map(Step::bytes).eq(plain.chunks(STEP_BYTES).take(steps.len())));
            for step in steps.iter() {
                let class = |name| step.class(name);
                assert!(Name::all().all(|name| class(class(name)) == class(name)));
                assert_eq!(step.action().renamed(class), step.action());
            }
        }
    }
}

fn assert_merged(question: Question<'_>, a: Name, b: Name) {
    let mut areas = [[0; QUESTION_BYTES], [0; QUESTION_BYTES]];
    let [typed, plain] = &mut areas;
    let merged = exchange::merge(question.bytes(), a.byte().into(), b.byte().into(), plain);
    match question.merge(a, b, typed) {
        Ok(question) => {
            assert_eq!(question.bytes(), &plain[..merged.expect("both merge")]);
            assert!(Question::new(question.bytes()).is_ok());
        }
        Err(refusal) => assert_eq!(merged, Err(refusal)),
    }
}

#[test]
fn random_questions() {
    let mut judge = Judge::new(Capacity::new(64).expect("a capacity"));
    each_seed(3_000, |random| {
        let bytes = generate::any(random);
        let question = match Question::new(&bytes) {
            Ok(question) => question,
            Err(refusal) => return assert_eq!(exchange::check(&bytes), Err(refusal)),
        };
        let mut name = || Name::new(random.below(Name::COUNT) as u8).expect("a name");
        assert_fields(question);
        assert_steps(question, name());
        assert_merged(question, name(), name());
        let mut work = vec![0; judge.capacity().work_bytes()];
        let capacity = judge.capacity().situations();
        assert_eq!(Ok(judge.judge(question)), exchange::judge(&bytes, capacity, &mut work));
        assert_eq!(
            Ok(judge.judge_late(question)),
            exchange::judge_late(&bytes, capacity, &mut work)
        );
        assert_eq!(
            Ok(judge.judge_early(question)),
            exchange::judge_early(&bytes, capacity, &mut work)
        );
    });
}

#[test]
fn a_third_part_beside_both() {
    let bytes = [1, 0, 0, 1, 0, 0, 2, 1, 0, 0, 0];
    let question = Question::new(&bytes).expect("an accepted question");
    let mut area = [0; QUESTION_BYTES];
    let beside = question.beside(&[3, 0, 1, 0], &mut area).expect("it fits");
    assert_eq!(beside.part(Side::Second), [7, 1, 0, 3, 0, 1, 0]);
    assert_eq!(question.beside(&[], &mut area), Err(Refusal::Length));
}

#[test]
fn numbers_at_their_limits() {
    assert_eq!(Capacity::new(0), None);
    assert_eq!(Capacity::new(1), Some(Capacity::MIN));
    assert_eq!(Capacity::new(4096), Some(Capacity::MAX));
    assert_eq!(Capacity::new(u64::from(u16::MAX) + 2), None);
    assert!(Name::all().map(Name::byte).eq(0..16));
    assert_eq!(Side::BOTH.map(Side::other), [Side::Second, Side::First]);
}
