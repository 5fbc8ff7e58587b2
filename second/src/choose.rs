//! Choosing the pair of a vector (document 02, T-04): each pair is tried,
//! exponent rising, then factor rising, and the first of those with the fewest
//! bytes for that vector is the answer. Only an empty vector, or one of more
//! than 1,024 values, is refused (31).
//!
//! This is the full search: no pair is left early.

use crate::answer::{refuse, Fault, Refusal};
use crate::floats::{Kind, Pair, Turn};
use crate::layout::{vector_bytes, MOST_IN_VECTOR};
use crate::write::cost;

/// A vector with one pair: how wide its fields are, and how many exceptions
/// it has.
#[derive(Clone, Copy, PartialEq, Eq, Debug)]
pub struct Trial {
    pub pair: Pair,
    pub width: usize,
    pub exceptions: usize,
}

impl Trial {
    /// Bytes of the vector: metadata, the packed part rounded up, exceptions.
    pub fn bytes(&self, kind: Kind, count: usize) -> usize {
        vector_bytes(kind, count, self.width, self.exceptions)
    }
}

/// Every pair, exponent rising, then factor rising: 66 or 190.
pub fn pairs(kind: Kind) -> Vec<Pair> {
    let of = |exponent| (0..=exponent).map(move |factor| Pair { exponent, factor });
    (0..=kind.largest_exponent()).flat_map(of).collect()
}

/// The vector with each pair, in their order.
pub fn trials(kind: Kind, values: &[u64]) -> Vec<Trial> {
    trials_by(Kind::whole, kind, values)
}

/// The same, its whole numbers by a turn.
pub fn trials_by(turn: Turn, kind: Kind, values: &[u64]) -> Vec<Trial> {
    let with = |pair: Pair| {
        let (width, exceptions) = cost(turn, kind, values, pair.exponent, pair.factor);
        Trial { pair, width, exceptions }
    };
    pairs(kind).into_iter().map(with).collect()
}

/// The first of those with the fewest, by a count; there is at least one.
pub fn first_fewest(trials: &[Trial], count: impl Fn(&Trial) -> usize) -> Trial {
    let mut best = trials[0];
    for trial in trials {
        if count(trial) < count(&best) {
            best = *trial;
        }
    }
    best
}

/// The chosen pair.
pub fn choose(kind: Kind, values: &[u64]) -> Result<Pair, Refusal> {
    if values.is_empty() {
        return refuse(Fault::EmptyVector);
    }
    if values.len() > MOST_IN_VECTOR {
        return refuse(Fault::VectorTooLong);
    }
    let trials = trials(kind, values);
    Ok(first_fewest(&trials, |trial| trial.bytes(kind, values.len())).pair)
}
