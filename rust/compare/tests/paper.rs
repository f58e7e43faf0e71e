//! The reference's own tests, with the two implementations side by side in its place.

// Each of the files brings the helpers that they share.
#![allow(clippy::duplicate_mod)]

extern crate compare as reference;

#[path = "../../reference/tests/apart.rs"]
mod apart;
#[path = "../../reference/tests/census.rs"]
mod census;
#[path = "../../reference/tests/changes.rs"]
mod changes;
#[path = "../../reference/tests/exchanges.rs"]
mod exchanges;
#[path = "../../reference/tests/field.rs"]
mod field;
#[path = "../../reference/tests/inside.rs"]
mod inside;
#[path = "../../reference/tests/late_early.rs"]
mod late_early;
#[path = "../../reference/tests/rearranged.rs"]
mod rearranged;
#[path = "../../reference/tests/refusals.rs"]
mod refusals;
#[path = "../../reference/tests/steps.rs"]
mod steps;
#[path = "../../reference/tests/tidied.rs"]
mod tidied;
