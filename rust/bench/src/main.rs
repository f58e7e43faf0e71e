//! Times of the proved judge against the reference, both built for release, in one run.
//!
//! ```text
//! bench                              all workloads
//! bench NAME...                      the workloads named
//! bench --list                       what the workloads are
//! bench --choices                    a search over 64 choices against 64 judgings
//! bench --once NAME IMPLEMENTATION   one workload once with `exchange` or `reference`, for a profiler
//! ```

#![deny(missing_docs)]
#![deny(unsafe_code)]

mod choices;
#[allow(unsafe_code)]
mod clock;
mod table;
mod task;
mod timing;
mod workloads;

use std::process::ExitCode;
use task::Implementation;
use workloads::Workload;

const USAGE: &str = "usage: bench [NAME... | --list | --choices | --once NAME exchange|reference]";

fn main() -> ExitCode {
    let words: Vec<String> = std::env::args().skip(1).collect();
    let words: Vec<&str> = words.iter().map(String::as_str).collect();
    let workloads = workloads::all();
    let done = match words[..] {
        ["--list"] => {
            workloads.iter().for_each(|workload| println!("{}", table::described(workload)));
            Some(())
        }
        ["--choices"] => {
            let names = ["exchanges", "field-64", "blocked", "ladder"];
            let named = workloads.iter().filter(|workload| names.contains(&workload.name));
            choices::print(named);
            Some(())
        }
        ["--once", name, "exchange"] => once(&workloads, name, Implementation::Exchange),
        ["--once", name, "reference"] => once(&workloads, name, Implementation::Reference),
        [] => {
            table::print(workloads.iter().filter(|workload| !workload.on_request));
            Some(())
        }
        _ => {
            let named = words.iter().map(|name| find(&workloads, name));
            named.collect::<Option<Vec<_>>>().map(|named| table::print(named.into_iter()))
        }
    };
    match done {
        Some(()) => ExitCode::SUCCESS,
        None => {
            eprintln!("{USAGE}");
            ExitCode::FAILURE
        }
    }
}

fn find<'a>(workloads: &'a [Workload], name: &str) -> Option<&'a Workload> {
    workloads.iter().find(|workload| workload.name == name)
}

/// Runs a workload once and prints its answers.
fn once(workloads: &[Workload], name: &str, implementation: Implementation) -> Option<()> {
    let workload = find(workloads, name)?;
    for answer in timing::run_once(workload, implementation) {
        println!("{answer}");
    }
    Some(())
}
