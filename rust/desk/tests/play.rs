//! Fields and plays against the library and against their definition.

use desk::explain::explain;
use desk::model::Exchange;
use desk::play::{Field, Play};
use desk::position::{Limit, Position, Table};
use exchange::{Answer, Capacity, Judge, Question, Verdict};
use generate::{each_seed, Random};

/// The most situations of a field that is compared position by position.
const SMALL: u64 = 48;

fn question(random: &mut Random) -> Vec<u8> {
    match random.below(6) {
        0 => generate::unrelated(random),
        1 => generate::busy(random),
        2 | 3 => generate::untidy(random),
        _ => generate::near_miss(random),
    }
}

fn judged(table: &Table, position: &Position, judge: &mut Judge) -> Answer<Verdict> {
    table.judged(position, judge).expect("a position is an accepted question")
}

/// The rank of each position by its definition, worked out in rounds.
fn ranks(field: &Field) -> Vec<Option<usize>> {
    let mut ranks = vec![None; field.positions.len()];
    for round in 1.. {
        let known = ranks.clone();
        for (number, expanded) in field.expanded.iter().enumerate() {
            let moves = &expanded.as_ref().expect("the field is settled").moves;
            let told_apart =
                moves.iter().any(|moved| moved.answers.iter().all(|&(_, to)| known[to].is_some()));
            if ranks[number].is_none() && told_apart {
                ranks[number] = Some(round);
            }
        }
        if ranks == known {
            break;
        }
    }
    ranks
}

fn compare_field(exchange: &Exchange, size: usize, judge: &mut Judge) {
    let table = Table::new(exchange);
    let start = table.start(exchange);
    let mut field = Field::new(table, start.clone(), size);
    while !field.is_whole() {
        field.look(1).expect("the field has no more positions than the library says");
    }
    if let Some((_, limit)) = field.first_limit() {
        // All names are free in a part, and the library has none to list its steps with.
        return assert!(matches!(limit, Limit::Unlistable(_)), "{limit:?}");
    }
    assert_eq!(field.positions.len(), size);
    let ranks = ranks(&field);
    for (position, rank) in field.positions.iter().zip(&ranks) {
        let different =
            matches!(judged(field.table(), position, judge), Answer::Result(Verdict::Different(_)));
        assert_eq!(different, rank.is_some());
    }
    let play = Play::find(Field::new(Table::new(exchange), start, size)).ok();
    assert_eq!(play.as_ref().and_then(|play| play.rank(0)), ranks[0]);
    if let Some(play) = play {
        assert_goes_down(&play, 0, judge);
    }
}

/// Every answer along the play leads to a position that the library judges different, with fewer
/// moves to go.
fn assert_goes_down(play: &Play, position: usize, judge: &mut Judge) {
    let rank = play.rank(position).expect("a position of the play has a rank");
    let here = &play.field.positions[position];
    let verdict = judged(play.field.table(), here, judge);
    assert!(matches!(verdict, Answer::Result(Verdict::Different(_))));
    let (_, best) = play.best(position).expect("a ranked position has a move");
    for &(_, answer) in &best.answers {
        assert!(play.rank(answer).is_some_and(|after| after < rank));
        assert_goes_down(play, answer, judge);
    }
}

#[test]
fn fields_and_plays_of_random_questions() {
    let mut judge = Judge::new(Capacity::new(SMALL).expect("a capacity"));
    let (mut different, mut same) = (0, 0);
    each_seed(1_500, |random| {
        let bytes = question(random);
        let question = Question::new(&bytes).expect("the question is accepted");
        let exchange = Exchange::of(question);
        match judge.judge(question) {
            Answer::Result(Verdict::Same(size)) => {
                same += 1;
                compare_field(&exchange, size, &mut judge);
            }
            Answer::Result(Verdict::Different(size)) => {
                different += 1;
                compare_field(&exchange, size, &mut judge);
            }
            Answer::Unsettled => {}
        }
    });
    assert!(different > 200 && same > 200, "{different} different, {same} same");
}

/// Whatever the question, an explanation comes, with the library's answer.
#[test]
fn explanations_of_random_questions() {
    let mut judge = Judge::default();
    let (mut greatest, mut told) = (Judge::new(Capacity::MAX), 0);
    each_seed(400, |random| {
        let bytes = generate::any(random);
        let Ok(question) = Question::new(&bytes) else { return };
        let explanation = explain(&Exchange::of(question), Capacity::default());
        assert_eq!(explanation.answer, judge.judge(question));
        let text = desk::telling::lines(&explanation.blocks);
        assert!(!text.contains("do not rely"), "{text}");
        told += assert_positions_are_files(&Exchange::of(question), &text, &mut greatest);
    });
    assert!(told > 100, "{told} positions are told");
}

/// Each position that is told, with the definitions, is a file that the library judges different.
/// Its names get other bytes there, so that its field may be larger.
fn assert_positions_are_files(exchange: &Exchange, told: &str, judge: &mut Judge) -> usize {
    let file = desk::text::file(exchange);
    let definitions: Vec<&str> = file.lines().filter(|line| line.starts_with('K')).collect();
    let positions = told.split("\nPosition ").skip(1);
    let count = positions.clone().count();
    for position in positions {
        let lines = position.lines().skip(1).map_while(|line| line.strip_prefix("    "));
        let file = definitions.iter().copied().chain(lines).collect::<Vec<_>>().join("\n");
        let read = desk::text::read(&file);
        let bytes = read.unwrap_or_else(|fault| panic!("{}", fault.render("f", &file))).bytes();
        let verdict = judge.judge(Question::new(&bytes).expect("it was read"));
        assert!(matches!(verdict, Answer::Result(Verdict::Different(_))), "{verdict}: {file}");
    }
    count
}

#[test]
fn every_worked_exchange_is_explained() {
    let unused = generate::UNUSED.iter().map(|(worked, _)| worked);
    for worked in generate::EXCHANGES.iter().chain(generate::APPENDIX).chain(unused) {
        let bytes = worked.bytes();
        let question = Question::new(&bytes).expect(worked.name);
        let capacity = Capacity::new(worked.capacity).expect("a capacity");
        let explanation = explain(&Exchange::of(question), capacity);
        assert_eq!(explanation.answer.to_string(), worked.answer, "{}", worked.name);
        let different = matches!(explanation.answer, Answer::Result(Verdict::Different(_)));
        assert_eq!(explanation.play.is_some(), different, "{}", worked.name);
    }
}
