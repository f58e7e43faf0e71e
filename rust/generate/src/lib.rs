//! Questions for the exchange judge, for tests that compare two implementations: random ones, and
//! those that the papers work out.
//!
//! Everything random follows from the number that seeds the [`Random`] generator, so a case can be named
//! by its seed. Drafts are accepted questions as trees; the functions here give bytes.

#![deny(missing_docs)]
#![forbid(unsafe_code)]

mod changes;
mod damage;
mod draft;
mod editions;
mod embed;
mod fields;
mod grow;
mod limits;
mod random;
mod rearrange;
mod rewrite;
mod seeds;
mod term;
mod unused;
mod worked;

pub use changes::{entries, third_part, Entry};
pub use damage::damaged;
pub use draft::Draft;
pub use editions::{counted, counted_third};
pub use fields::{hex, Fields};
pub use limits::near_limit;
pub use random::Random;
pub use seeds::{each_seed, SEED, TIMES};
pub use term::{Name, Term};
pub use worked::{Worked, APPENDIX, EXCHANGES, INSIDE, REARRANGED, UNUSED};

/// A question of any kind. Most are accepted; the rest are damaged or pass a limit.
pub fn any(random: &mut Random) -> Vec<u8> {
    match random.below(11) {
        0 => unrelated(random),
        1..=4 => near_miss(random),
        5..=6 => busy(random),
        7 => near_limit(random),
        8..=9 => damaged(random),
        _ => untidy(random),
    }
}

/// An accepted question whose parts have nothing to do with each other.
pub fn unrelated(random: &mut Random) -> Vec<u8> {
    Draft::unrelated(random).bytes()
}

/// An accepted question whose second part is a rewritten copy of the first.
pub fn near_miss(random: &mut Random) -> Vec<u8> {
    Draft::near_miss(random).bytes()
}

/// An accepted question with large fields: definitions that go round, side by side, and a
/// rewritten copy.
pub fn busy(random: &mut Random) -> Vec<u8> {
    Draft::busy(random).bytes()
}

/// An accepted question with restrictions that bind nothing.
pub fn untidy(random: &mut Random) -> Vec<u8> {
    Draft::untidy(random).bytes()
}
