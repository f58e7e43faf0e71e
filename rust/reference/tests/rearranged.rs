//! Request 2026-07 with random parts: pieces in another order are never "different".

mod common;

use common::judge;
use generate::{each_seed, Draft};
use reference::Answer::{self, Different, Same};

#[test]
fn pieces_in_another_order_are_never_different() {
    let (mut moved, mut same) = (0, 0);
    each_seed(3000, |random| {
        let draft = Draft::reordered(random);
        let question = draft.bytes();
        assert_eq!(reference::check(&question), Answer::Result(0));
        let answer = judge(&question, 256);
        assert!(!matches!(answer, Different(_)), "{draft:?}");
        moved += usize::from(draft.first != draft.second);
        same += usize::from(matches!(answer, Same(_)));
    });
    println!("parts that changed: {moved}, same: {same}");
    assert!(moved > 2500 && same > 1500);
}
