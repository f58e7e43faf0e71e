//! "Exchanges to try", the pairs of appendix B.1 of document 000, and those of requests.

mod common;

use common::{hex, judge};
use generate::{Fields, Worked, APPENDIX, EXCHANGES, INSIDE, REARRANGED};

fn answers(worked: &Worked) {
    let answer = judge(&worked.bytes(), worked.capacity);
    assert_eq!(answer.to_string(), worked.answer, "{}", worked.name);
}

/// The sides may change places.
fn answers_swapped(worked: &Worked) {
    let Fields { definitions, first, second, apart } = worked.fields();
    let swapped = Fields { definitions, first: second, second: first, apart };
    let answer = judge(&swapped.bytes(), worked.capacity);
    assert_eq!(answer.to_string(), worked.answer, "{}, swapped", worked.name);
}

#[test]
fn exchanges_to_try() {
    EXCHANGES.iter().for_each(answers);
    EXCHANGES.iter().for_each(answers_swapped);
}

#[test]
fn appendix_b1() {
    APPENDIX.iter().for_each(answers);
    APPENDIX.iter().for_each(answers_swapped);
}

#[test]
fn pieces_in_another_order() {
    REARRANGED.iter().for_each(answers);
    REARRANGED.iter().for_each(answers_swapped);
}

#[test]
fn a_pair_inside_larger_exchanges() {
    INSIDE.iter().for_each(answers);
    INSIDE.iter().for_each(answers_swapped);
}

/// The file that the paper gives byte for byte.
#[test]
fn the_whole_file() {
    let file = hex("01 00 00 08 06 01 00 05 00 01 01 00 00 02 01 00 00 00");
    let named = |worked: &&Worked| worked.name == "τ.0 + [a=b]τ.0 and τ.0";
    assert_eq!(EXCHANGES.iter().find(named).unwrap().bytes(), file);
}

/// The definition whose restrictions gathered has one situation, whatever the capacity.
#[test]
fn restrictions_that_gathered() {
    let restricting = EXCHANGES.last().unwrap();
    for capacity in [1, 109, 110, 111, 256, 4096] {
        answers(&Worked { capacity, ..*restricting });
    }
}
