//! What is timed: an operation on a question, by one of the two implementations.

use compare::{proved, Answer, SITUATION_BYTES, STEPS, STEP_BYTES};

/// An implementation.
#[derive(Clone, Copy, PartialEq, Eq, Debug)]
pub enum Implementation {
    /// The proved library.
    Exchange,
    /// The reference.
    Reference,
}

/// Which relation is judged.
#[derive(Clone, Copy, PartialEq, Eq, Debug)]
pub enum Relation {
    /// Open bisimilarity.
    Open,
    /// Late bisimilarity.
    Late,
    /// Early bisimilarity.
    Early,
}

/// An operation with its numbers.
#[derive(Clone, Copy, Debug)]
pub enum Operation {
    /// Judging with a capacity.
    Judge {
        /// The relation.
        relation: Relation,
        /// The capacity.
        capacity: u64,
    },
    /// Listing the first part's steps with a new name.
    List {
        /// The new name.
        new_name: u64,
    },
}

/// An operation on a question.
#[derive(Clone, Debug)]
pub struct Task {
    /// The question.
    pub question: Vec<u8>,
    /// The operation.
    pub operation: Operation,
}

impl Task {
    /// The length of the area that the operation needs.
    pub fn area_bytes(&self) -> usize {
        match self.operation {
            Operation::Judge { capacity, .. } => (SITUATION_BYTES * capacity) as usize,
            Operation::List { .. } => STEPS * STEP_BYTES,
        }
    }

    /// Runs the task, with an area that is long enough.
    pub fn run(&self, implementation: Implementation, area: &mut [u8]) -> Answer {
        let question = &self.question;
        match (self.operation, implementation) {
            (Operation::Judge { relation, capacity }, _) => {
                judging(relation, implementation)(question, capacity, area)
            }
            (Operation::List { new_name }, Implementation::Exchange) => {
                proved::steps(question, 1, new_name, area)
            }
            (Operation::List { new_name }, Implementation::Reference) => {
                reference::steps(question, 1, new_name, area)
            }
        }
    }
}

/// The operation that judges the relation.
fn judging(
    relation: Relation,
    implementation: Implementation,
) -> fn(&[u8], u64, &mut [u8]) -> Answer {
    match (relation, implementation) {
        (Relation::Open, Implementation::Exchange) => proved::judge,
        (Relation::Late, Implementation::Exchange) => proved::judge_late,
        (Relation::Early, Implementation::Exchange) => proved::judge_early,
        (Relation::Open, Implementation::Reference) => reference::judge,
        (Relation::Late, Implementation::Reference) => reference::judge_late,
        (Relation::Early, Implementation::Reference) => reference::judge_early,
    }
}
