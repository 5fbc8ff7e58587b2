//! What a value shows of the way to its whole number: which mistakes in it
//! would give another number, or an exception for a number. A comparison that
//! met no such value would not see the mistake.

use crate::floats::{Kind, Pair, Turn};
use crate::older;

/// A mistake in the fast rounding of document 02's T-05.
#[derive(Clone, Copy, PartialEq, Eq, Debug)]
pub enum Edge {
    Nearest,
    ExactSum,
    Downward,
    ToEven,
    BySign,
    OneTest,
    WithoutL,
}

pub const EDGES: [Edge; 7] = [
    Edge::Nearest,
    Edge::ExactSum,
    Edge::Downward,
    Edge::ToEven,
    Edge::BySign,
    Edge::OneTest,
    Edge::WithoutL,
];

impl Edge {
    pub fn text(self) -> &'static str {
        match self {
            Edge::Nearest => "the nearest whole number: another",
            Edge::ExactSum => "the sum not rounded: another",
            Edge::Downward => "a half dropped downward: another",
            Edge::ToEven => "a half rounded to even: another",
            Edge::BySign => "the constant signed: another",
            Edge::OneTest => "no test once rounded: another",
            Edge::WithoutL => "L refused before the sum: another",
        }
    }

    /// The way to a whole number that has this mistake.
    fn turn(self) -> Turn {
        match self {
            Edge::Nearest => older::whole,
            Edge::ExactSum => |k, v, e, f| mistaken(k, v, e, f, |scaled| Some(scaled.trunc())),
            Edge::Downward => {
                |k, v, e, f| mistaken(k, v, e, f, |y| Some(tested(k, fast(k, y))?.floor()))
            }
            Edge::ToEven => |k, v, e, f| {
                mistaken(k, v, e, f, |y| Some(tested(k, fast(k, y))?.round_ties_even()))
            },
            Edge::BySign => {
                |k, v, e, f| mistaken(k, v, e, f, |y| tested(k, fast(k, y.abs()).copysign(y)))
            }
            Edge::OneTest => |k, v, e, f| mistaken(k, v, e, f, |y| Some(fast(k, y))),
            Edge::WithoutL => |k, v, e, f| {
                mistaken(k, v, e, f, |y| {
                    (y.abs() < k.largest()).then(|| fast(k, y)).and_then(|y| tested(k, y))
                })
            },
        }
    }
}

/// The sum and the difference, each rounded once in the kind: those of two
/// 32-bit floats are rounded to 53 digits first, which is more than twice 24,
/// so that the second rounding gives what one would have given.
fn fast(kind: Kind, scaled: f64) -> f64 {
    let once = |number: f64| match kind {
        Kind::Single => f64::from(number as f32),
        Kind::Double => number,
    };
    let sum = once(scaled + kind.rounder());
    once(sum - kind.rounder())
}

/// A rounded magnitude that is not above L.
fn tested(kind: Kind, rounded: f64) -> Option<f64> {
    (rounded.abs() <= kind.largest()).then_some(rounded)
}

/// The exception rule around another rounding of the scaled value. The number
/// stops at the largest of the kind, as conversions of some machines do.
fn mistaken(
    kind: Kind,
    value: u64,
    exponent: usize,
    factor: usize,
    rounding: impl Fn(f64) -> Option<f64>,
) -> Option<i64> {
    let scaled = kind.scaled(value, exponent, factor);
    if value == kind.sign() || scaled.is_nan() || scaled.abs() > kind.largest() {
        return None;
    }
    let most = kind.most();
    let whole = (rounding(scaled)? as i64).clamp(-most - 1, most);
    (kind.back(whole, exponent, factor) == value).then_some(whole)
}

/// All that a value shows with a pair.
pub fn shown(kind: Kind, value: u64, pair: Pair) -> Vec<Edge> {
    let Pair { exponent, factor } = pair;
    let whole = kind.whole(value, exponent, factor);
    let shows = |edge: &Edge| edge.turn()(kind, value, exponent, factor) != whole;
    EDGES.into_iter().filter(shows).collect()
}

/// The least and the largest power of two, of those up to L, above which the
/// fast rounding gives another number than the nearest for some scaled values.
pub fn powers(kind: Kind) -> std::ops::RangeInclusive<usize> {
    match kind {
        Kind::Single => 22..=30,
        Kind::Double => 51..=62,
    }
}

/// The power of two below a positive scaled value that the fast rounding does
/// not bring to the nearest whole number.
pub fn power_moved(kind: Kind, value: u64, pair: Pair) -> Option<usize> {
    let scaled = kind.scaled(value, pair.exponent, pair.factor);
    let moved =
        scaled > 0.0 && scaled <= kind.largest() && fast(kind, scaled) != scaled.round_ties_even();
    moved.then(|| (scaled as u64).ilog2() as usize)
}

#[cfg(test)]
mod tests {
    use super::*;
    use crate::columns::at_rounding;
    use crate::floats::KINDS;
    use crate::random::Random;

    #[test]
    fn without_a_mistake_it_is_the_rule() {
        for kind in KINDS {
            for index in 0..20_000 {
                let mut random = Random::of_case(7, kind as u64, index);
                let exponent = random.between(0, kind.largest_exponent());
                let factor = random.between(0, exponent);
                let value = at_rounding(kind, Pair { exponent, factor }, &mut random);
                let right = |y| Some(tested(kind, fast(kind, y))?.trunc());
                let whole = mistaken(kind, value, exponent, factor, right);
                assert_eq!(whole, kind.whole(value, exponent, factor));
            }
        }
    }

    #[test]
    fn each_mistake_shows_in_a_value() {
        let shows = |value, exponent, factor| shown(Kind::Single, value, Pair { exponent, factor });
        // 4,194,305.0 and its negative, of e 0
        assert_eq!(shows(0x4A80_0002, 0, 0), [Edge::Nearest, Edge::ExactSum]);
        assert_eq!(shows(0xCA80_0002, 0, 0), [Edge::BySign]);
        // -524,288.94, times ten a half; -L; a value scaled to L
        assert_eq!(
            shows(0xC900_000F, 1, 0),
            [Edge::Nearest, Edge::Downward, Edge::ToEven, Edge::BySign]
        );
        assert_eq!(shows(0xCEFF_FFFF, 0, 0), [Edge::BySign, Edge::WithoutL]);
        assert!(shows(0x4D4C_CCCC, 2, 1).contains(&Edge::OneTest));
        assert_eq!(shows(0x3FC0_0000, 1, 0), []);
    }
}
