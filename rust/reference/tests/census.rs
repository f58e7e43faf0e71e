//! Request 2026-14: the census of small parts. The parts are built from the table of document 01, length by length, and every ordered
//! pair is judged.

mod common;

use common::{judge, parts};
use reference::Answer::{self, Different, Same, Unsettled};

/// What the program `census` prints.
const PRINTED: &str = include_str!("../../../crates/census/stdout");

/// The names beneath `depth` binders: 0 and 1 are free.
fn names(depth: u8) -> Vec<u8> {
    [0, 1].into_iter().chain(0x80..0x80 + depth).collect()
}

/// Each of `heads` before each of `tails`.
fn joined(heads: &[Vec<u8>], tails: &[Vec<u8>]) -> Vec<Vec<u8>> {
    heads.iter().flat_map(|head| tails.iter().map(|tail| [&head[..], tail].concat())).collect()
}

/// The terms of `length` bytes beneath `depth` binders, without calls: parallels stand outermost, or nowhere.
fn terms(length: usize, depth: u8, outermost: bool) -> Vec<Vec<u8>> {
    match length {
        0 => return vec![],
        1 => return vec![vec![0]],
        _ => {}
    }
    let one: Vec<Vec<u8>> = names(depth).into_iter().map(|name| vec![name]).collect();
    let two = joined(&one, &one);
    let mut found = joined(&[vec![1]], &terms(length - 1, depth, false));
    found.extend(joined(&[vec![8]], &terms(length - 1, depth + 1, outermost)));
    for tag in [2, 4] {
        found.extend(joined(&joined(&[vec![tag]], &one), &terms(length - 2, depth + 1, false)));
    }
    if length > 3 {
        for tag in [3, 5] {
            found.extend(joined(&joined(&[vec![tag]], &two), &terms(length - 3, depth, false)));
        }
    }
    for tag in if outermost { vec![6, 7] } else { vec![6] } {
        let beneath = tag == 7;
        for first in 1..length - 1 {
            let left = joined(&[vec![tag]], &terms(first, depth, beneath));
            found.extend(joined(&left, &terms(length - 1 - first, depth, beneath)));
        }
    }
    found
}

/// The line of the census for one length.
fn line(length: usize) -> String {
    let all = terms(length, 0, true);
    let (mut same, mut different, mut unsettled) = (0, 0, 0);
    for first in &all {
        for second in &all {
            match judge(&parts(first, second), 186) {
                Same(_) => same += 1,
                Different(_) => different += 1,
                Unsettled => unsettled += 1,
                other => panic!("{first:02x?} {second:02x?}: {other:?}"),
            }
        }
    }
    assert_eq!(same + different + unsettled, all.len() * all.len());
    format!("{length} {same} {different} {unsettled}\n")
}

#[test]
fn the_census_is_what_the_program_prints() {
    assert_eq!((1..=5).map(line).collect::<String>(), PRINTED);
}

#[test]
fn the_parts_are_accepted_and_different_strings_of_bytes() {
    for (length, number) in [(1, 1), (2, 2), (3, 10), (4, 45), (5, 209)] {
        let mut all = terms(length, 0, true);
        assert!(all.iter().all(|part| part.len() == length));
        assert!(all.iter().all(|part| reference::check(&parts(part, part)) == Answer::Result(0)));
        all.sort();
        all.dedup();
        assert_eq!(all.len(), number);
    }
}
