//! A question as text reads back to the same bytes.

use desk::model::Exchange;
use desk::text;
use exchange::Question;
use generate::{each_seed, Worked};

fn assert_reads_back(bytes: &[u8]) {
    let Ok(question) = Question::new(bytes) else { return };
    let file = text::file(&Exchange::of(question));
    let exchange = text::read(&file).unwrap_or_else(|fault| {
        panic!("{}", fault.render("file", &file));
    });
    assert_eq!(exchange.bytes(), bytes, "{file}");
    // The words of a file stay as they are when it is printed once more.
    assert_eq!(text::file(&exchange), file);
}

#[test]
fn random_questions() {
    each_seed(5_000, |random| assert_reads_back(&generate::any(random)));
}

#[test]
fn worked_questions() {
    let worked = generate::EXCHANGES.iter().chain(generate::APPENDIX);
    worked.map(Worked::bytes).for_each(|bytes| assert_reads_back(&bytes));
}
