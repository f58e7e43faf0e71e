//! Request 2026-13 with random pairs: "same" carries into larger exchanges that are accepted.

mod common;

use common::judge;
use generate::{each_seed, Draft};
use reference::Answer::{self, Different, Same};

#[test]
fn same_inside_is_never_different() {
    let (mut pairs, mut accepted, mut same, mut refused) = (0, 0, 0, 0);
    each_seed(3000, |random| {
        let mut draft = match random.chance(60) {
            true => Draft::held_apart(random),
            false => Draft::near_miss(random),
        };
        if !matches!(judge(&draft.bytes(), 256), Same(_)) {
            return;
        }
        pairs += 1;
        for _ in 0..random.between(1, 5) {
            draft = draft.embedded(random);
        }
        let larger = draft.bytes();
        if reference::check(&larger) != Answer::Result(0) {
            refused += 1;
            return;
        }
        accepted += 1;
        let answer = judge(&larger, 256);
        assert!(!matches!(answer, Different(_)), "{draft:?}");
        same += usize::from(matches!(answer, Same(_)));
    });
    println!("pairs: {pairs}; larger: {accepted} accepted, {refused} refused, {same} same");
    assert!(accepted > 1000 && same > 800 && refused > 100);
}
