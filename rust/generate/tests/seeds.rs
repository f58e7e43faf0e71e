//! The generator follows from its seed alone.

use generate::{Draft, Random};
use std::collections::HashSet;

#[test]
fn the_same_seed_gives_the_same_question() {
    for seed in 0..500 {
        let once = generate::any(&mut Random::new(seed));
        assert_eq!(once, generate::any(&mut Random::new(seed)));
    }
}

#[test]
fn seeds_give_many_questions() {
    let questions: HashSet<Vec<u8>> =
        (0..2000).map(|seed| generate::any(&mut Random::new(seed))).collect();
    println!("different questions of 2000: {}", questions.len());
    assert!(questions.len() > 1700);
}

/// Numbers below a bound reach all of them, and nothing else.
#[test]
fn numbers_below_a_bound() {
    let mut random = Random::new(7);
    let mut counts = [0; 10];
    for _ in 0..10_000 {
        counts[random.below(10)] += 1;
    }
    assert!(counts.iter().all(|&count| count > 800 && count < 1200), "{counts:?}");
}

#[test]
fn drafts_keep_the_limits() {
    for seed in 0..2000 {
        let random = &mut Random::new(seed);
        let near = [Draft::near_miss, Draft::reordered, Draft::held_apart];
        let drafts = near.into_iter().chain([Draft::unrelated, Draft::busy, Draft::untidy]);
        for draft in drafts.map(|make| make(random)) {
            let bodies = draft.definitions.iter().map(|definition| &definition.1);
            for term in bodies.chain([&draft.first, &draft.second]) {
                assert_eq!(term.bytes().len(), term.size());
                assert!((1..=112).contains(&term.size()));
            }
            assert!(draft.apart.len() <= 120);
        }
    }
}
