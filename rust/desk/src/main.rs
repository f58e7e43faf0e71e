//! The program `desk`: reads exchanges as text, judges, explains and draws them.

#![forbid(unsafe_code)]

use desk::draw::{self, Merged, Unmerged};
use desk::explain::{explain, play};
use desk::input::{self, Found, Unreadable};
use desk::judging::{self, Outcome, Relation};
use desk::report::report;
use desk::usage::{command, Command};
use desk::{telling, text};
use exchange::Capacity;
use std::io::{self, Write};
use std::process::ExitCode;

/// The exit statuses beside those of verdicts.
const UNREADABLE: u8 = 3;
const USAGE: u8 = 4;

fn main() -> ExitCode {
    let done = match command(std::env::args_os().skip(1)) {
        Ok(command) => run(command),
        Err(wrong) => {
            complain(&format!("desk: {wrong}\nTry `desk --help`.\n"));
            Ok(USAGE)
        }
    };
    ExitCode::from(done.unwrap_or_else(|unreadable| {
        complain(&unreadable.full);
        UNREADABLE
    }))
}

fn run(command: Command) -> Result<u8, Unreadable> {
    match command {
        Command::Print(text) => write(None, text.as_bytes()).map(|()| 0),
        Command::Judge(named, relation, capacity) => judge(&named, relation, capacity),
        Command::Explain(file, capacity) => {
            let explanation = explain(&input::exchange(&file)?, capacity);
            write(None, telling::lines(&explanation.blocks).as_bytes())?;
            Ok(judging::status(&explanation.answer))
        }
        Command::Bytes(file, output) => write(output, &input::exchange(&file)?.bytes()).map(|()| 0),
        Command::Text(file, output) => {
            let exchange = input::only_question(&file, &input::bytes(&file)?)?;
            write(output, text::file(&exchange).as_bytes()).map(|()| 0)
        }
        Command::Draw(file, merged, output, capacity) => {
            let drawing = draw(&file, &merged, capacity)?;
            write(output, drawing.as_bytes()).map(|()| 0)
        }
        Command::Report(named, output, capacity) => {
            let report = report(found(&named), capacity);
            write(output, report.page.as_bytes()).map(|()| report.status)
        }
    }
}

fn draw(file: &str, merged: &[(String, String)], capacity: Capacity) -> Result<String, Unreadable> {
    let exchange = input::exchange(file)?;
    let merged = Merged::new(&exchange, merged).map_err(|unmerged| {
        let reason = match unmerged {
            Unmerged::Unknown(name) => format!("`{name}` is no free name of it"),
            Unmerged::Refused(a, b, refusal) => format!("{a}={b} is {refusal}"),
        };
        Unreadable::plain(file, &reason)
    })?;
    let play = play(merged.exchange(), capacity);
    Ok(draw::file(&draw::scenes(&merged, &exchange, play.as_ref())))
}

fn judge(named: &[String], relation: Relation, capacity: Capacity) -> Result<u8, Unreadable> {
    let outcomes = judging::judged(found(named), relation, capacity);
    if let [(_, Outcome::Unreadable(unreadable))] = outcomes.as_slice() {
        complain(&unreadable.full);
    }
    let mut lines: Vec<String> =
        outcomes.iter().map(|(file, outcome)| judging::line(file, outcome)).collect();
    lines.push(judging::counts(&outcomes));
    write(None, (lines.join("\n") + "\n").as_bytes())?;
    Ok(outcomes.first().map_or(0, |(_, worst)| worst.status()))
}

/// The files to read. What is passed over is said.
fn found(named: &[String]) -> Found {
    let found = input::found(named);
    for (folder, count) in &found.passed_over {
        let ending = input::ENDING;
        complain(&format!("desk: {folder}: {count} passed over, which do not end in .{ending}\n"));
    }
    found
}

/// Writes to a file or to standard output. Who closes standard output early wants no more of it.
fn write(file: Option<String>, bytes: &[u8]) -> Result<(), Unreadable> {
    let (name, written) = match file.filter(|file| file != "-") {
        Some(file) => (file.clone(), std::fs::write(&file, bytes)),
        None => {
            let mut output = io::stdout().lock();
            let written = output.write_all(bytes).and_then(|()| output.flush());
            ("standard output".to_string(), written)
        }
    };
    match written {
        Err(error) if error.kind() != io::ErrorKind::BrokenPipe => {
            Err(Unreadable::plain(&name, &error.to_string()))
        }
        _ => Ok(()),
    }
}

fn complain(text: &str) {
    let _ = io::stderr().write_all(text.as_bytes());
}
