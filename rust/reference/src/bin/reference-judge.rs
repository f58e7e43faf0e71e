//! The program `judge`: it reads a question from standard input and prints one line.

#![deny(missing_docs)]
#![forbid(unsafe_code)]

use std::io::{self, Read, Write};

/// The capacity that the program uses.
const CAPACITY: u64 = 256;

fn main() -> io::Result<()> {
    // A question of 4,097 bytes is already too long, whatever follows.
    let mut question = Vec::new();
    let longest = reference::QUESTION_BYTES as u64 + 1;
    io::stdin().lock().take(longest).read_to_end(&mut question)?;
    let mut work = vec![0; (reference::SITUATION_BYTES * CAPACITY) as usize];
    let answer = reference::judge(&question, CAPACITY, &mut work);
    writeln!(io::stdout(), "{answer}")
}
