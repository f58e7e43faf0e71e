//! Judges the question that comes on standard input, as the program `judge` does:
//!
//!     cargo run --release -p exchange --example judge < question

use exchange::{Judge, Question};
use std::io::Read;
use std::process::ExitCode;

fn main() -> ExitCode {
    let mut bytes = Vec::new();
    if let Err(error) = std::io::stdin().read_to_end(&mut bytes) {
        eprintln!("standard input: {error}");
        return ExitCode::FAILURE;
    }
    match Question::new(&bytes) {
        Ok(question) => println!("{}", Judge::default().judge(question)),
        Err(refusal) => println!("refused {}", refusal.rule()),
    }
    ExitCode::SUCCESS
}
