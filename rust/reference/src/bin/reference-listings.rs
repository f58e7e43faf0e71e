//! Prints what the program `listings` must print for the same standard input: the answer of each
//! listing, and each step in hexadecimal, its filling left out.

#![deny(missing_docs)]
#![forbid(unsafe_code)]

use std::io::{self, Read, Write};

use reference::Listed;

/// Of more steps than this only the number is printed.
const MOST_LINES: usize = 16;

/// Where a step has the length of its result.
const SIZE: usize = 19;

fn line(step: &Listed) -> String {
    let bytes = step.bytes();
    let end = SIZE + 1 + bytes[SIZE] as usize;
    bytes[..end].iter().map(|byte| format!("{byte:02x}")).collect()
}

fn print(out: &mut impl Write, case: &[u8]) -> io::Result<()> {
    match reference::listed_steps(&case[2..], case[0].into(), case[1].into()) {
        Ok(steps) => {
            writeln!(out, "steps {}", steps.len())?;
            if steps.len() <= MOST_LINES {
                steps.iter().try_for_each(|step| writeln!(out, "{}", line(step)))?;
            }
            Ok(())
        }
        Err(answer) => writeln!(out, "{answer}"),
    }
}

fn main() -> io::Result<()> {
    let mut input = Vec::new();
    io::stdin().lock().read_to_end(&mut input)?;
    let (count, mut rest) = input.split_first().expect("the number of cases");
    let mut out = io::stdout().lock();
    for _ in 0..*count {
        let (size, behind) = rest.split_at(2);
        let (case, after) = behind.split_at(usize::from(size[0]) * 256 + usize::from(size[1]));
        print(&mut out, case)?;
        rest = after;
    }
    Ok(())
}
