//! Vectors to choose a pair for, and what each of them shows: which mistakes
//! of a chooser would give another pair. A comparison that met no such vector
//! would not see the mistake.

use crate::choose::{first_fewest, trials, trials_by, Trial};
use crate::columns::{any_pair, at_rounding, special, vector_values};
use crate::floats::{Kind, Pair, TENS_64};
use crate::frames::Request;
use crate::layout::{HEADER, MOST_IN_VECTOR, OFFSET, POSITION};
use crate::older;
use crate::random::Random;

/// How a vector is made.
#[derive(Clone, Copy, Debug)]
pub enum Sort {
    /// Decimals of one number of digits.
    Decimals,
    /// Decimals of two numbers of digits.
    TwoScales,
    /// Decimals of any number of digits each.
    Mixed,
    /// One value all along.
    Constant,
    /// Whole numbers of any size.
    Wholes,
    /// Any bits.
    RandomBits,
    /// NaNs, infinities, zeros, subnormals, the largest and smallest.
    Specials,
    /// Exceptions alone, whatever the pair.
    Exceptions,
    /// Decimals with exceptions among them.
    Strewn,
    /// Exceptions first, and then decimals.
    BadStart,
    /// Decimals that lie close together, but for the last.
    FarEnd,
    /// Values that whole numbers come back as with some pair.
    Back,
    /// Values whose scaled value lies where the fast rounding turns, with some
    /// pair.
    Rounding,
    /// As the columns of the other comparisons.
    Column,
}

pub const SORTS: [Sort; 14] = [
    Sort::Decimals,
    Sort::TwoScales,
    Sort::Mixed,
    Sort::Constant,
    Sort::Wholes,
    Sort::RandomBits,
    Sort::Specials,
    Sort::Exceptions,
    Sort::Strewn,
    Sort::BadStart,
    Sort::FarEnd,
    Sort::Back,
    Sort::Rounding,
    Sort::Column,
];

/// Lengths that are tried often, a few times, and once: short ones around
/// bytes and words, whole vectors, and those that are refused.
const SHORT: [usize; 15] = [1, 2, 3, 5, 7, 8, 9, 15, 16, 17, 31, 33, 63, 64, 65];
const FULL: [usize; 2] = [MOST_IN_VECTOR - 1, MOST_IN_VECTOR];
const REFUSED: [usize; 6] = [0, MOST_IN_VECTOR + 1, MOST_IN_VECTOR + 2, 2_048, 16_384, 16_400];

/// How often each sort and short length is tried for one seed.
pub const TURNS: usize = 8;

/// The lengths of a turn.
pub fn lengths(turn: usize) -> Vec<usize> {
    let mut lengths = SHORT.to_vec();
    if turn < 2 {
        lengths.extend(FULL);
    }
    if turn == 0 {
        lengths.extend(REFUSED);
    }
    lengths
}

/// Decimals of so many digits, as a file of prices or of measures has them:
/// they lie in a range, and some are negative.
struct Decimals {
    digits: usize,
    base: i64,
    range: usize,
}

impl Decimals {
    fn any(kind: Kind, random: &mut Random) -> Decimals {
        let digits = random.between(0, kind.largest_exponent());
        // Far enough that the fast rounding has turned.
        let largest = if kind == Kind::Single { 24 } else { 53 };
        let base = random.of_bits(largest) as i64;
        let base = if random.one_in(4) { -base } else { base };
        Decimals { digits, base, range: 1 << random.between(0, 20) }
    }

    fn value(&self, kind: Kind, random: &mut Random) -> u64 {
        let whole = self.base + random.below(self.range) as i64;
        kind.nearest(whole as f64 / TENS_64[self.digits])
    }
}

/// A NaN, an infinity or a negative zero: an exception with every pair.
fn exception(kind: Kind, random: &mut Random) -> u64 {
    let infinity = kind.nearest(f64::INFINITY);
    let bits = match random.below(3) {
        0 => return kind.sign(),
        1 => infinity,
        _ => infinity + 1 + random.below(1_000) as u64,
    };
    if random.one_in(2) {
        bits | kind.sign()
    } else {
        bits
    }
}

/// The values of a vector of this sort.
pub fn vector(sort: Sort, kind: Kind, count: usize, random: &mut Random) -> Vec<u64> {
    let main = Decimals::any(kind, random);
    let other = Decimals::any(kind, random);
    let pair = any_pair(kind, random);
    let often = *random.choose(&[2, 3, 5, 10, 30]);
    let first = random.below(count / 2 + 1);
    let constant = vector_values(kind, pair, 1, random)[0];
    if let Sort::Column = sort {
        return vector_values(kind, pair, count, random);
    }
    let value = |i: usize| match sort {
        Sort::TwoScales if random.one_in(often) => other.value(kind, random),
        Sort::Mixed => Decimals::any(kind, random).value(kind, random),
        Sort::Constant => constant,
        Sort::Wholes => kind.nearest(random.of_bits(kind.bits()) as f64),
        Sort::RandomBits => random.word() & kind.mask(),
        Sort::Specials => special(kind, random),
        Sort::Exceptions => exception(kind, random),
        Sort::Strewn if random.one_in(often) => exception(kind, random),
        Sort::BadStart if i < first => exception(kind, random),
        Sort::FarEnd if i + 1 == count => other.value(kind, random),
        Sort::Back => {
            let whole = random.of_bits(kind.bits() / 2) as i64;
            kind.back(whole, pair.exponent, pair.factor)
        }
        Sort::Rounding => at_rounding(kind, pair, random),
        _ => main.value(kind, random),
    };
    (0..count).map(value).collect()
}

/// What a vector shows of a chooser.
#[derive(Clone, Copy, PartialEq, Eq, Debug)]
pub enum Sight {
    Tie,
    FactorFirst,
    LastOfFewest,
    NoPositions,
    NoRounding,
    ExceptionsAlone,
    WidthAlone,
    OlderTurn,
    SomeExceptions,
    AllExceptions,
}

pub const SIGHTS: [Sight; 10] = [
    Sight::Tie,
    Sight::FactorFirst,
    Sight::LastOfFewest,
    Sight::NoPositions,
    Sight::NoRounding,
    Sight::ExceptionsAlone,
    Sight::WidthAlone,
    Sight::OlderTurn,
    Sight::SomeExceptions,
    Sight::AllExceptions,
];

impl Sight {
    pub fn text(self) -> &'static str {
        match self {
            Sight::Tie => "several pairs with the fewest bytes",
            Sight::FactorFirst => "factor before exponent: another",
            Sight::LastOfFewest => "the last of the fewest: another",
            Sight::NoPositions => "without positions: another",
            Sight::NoRounding => "not rounded up to bytes: another",
            Sight::ExceptionsAlone => "fewest exceptions alone: another",
            Sight::WidthAlone => "least width alone: another",
            Sight::OlderTurn => "nearest whole numbers: another",
            Sight::SomeExceptions => "the best has some exceptions",
            Sight::AllExceptions => "exceptions alone, with every pair",
        }
    }
}

/// All that a vector shows, which is not empty.
pub fn sights(kind: Kind, values: &[u64]) -> Vec<Sight> {
    let count = values.len();
    let trials = trials(kind, values);
    let bytes = |trial: &Trial| trial.bytes(kind, count);
    let best = first_fewest(&trials, bytes);
    let backward: Vec<Trial> = trials.iter().rev().copied().collect();
    let mut by_factor = trials.clone();
    by_factor.sort_by_key(|trial| (trial.pair.factor, trial.pair.exponent));
    let positions = |trial: &Trial| bytes(trial) - POSITION * trial.exceptions;
    let bits =
        |trial: &Trial| count * trial.width + 8 * (POSITION + kind.size()) * trial.exceptions;
    let shows = |sight: &Sight| match sight {
        Sight::Tie => trials.iter().filter(|trial| bytes(trial) == bytes(&best)).count() > 1,
        Sight::FactorFirst => first_fewest(&by_factor, bytes) != best,
        Sight::LastOfFewest => first_fewest(&backward, bytes) != best,
        Sight::NoPositions => first_fewest(&trials, positions) != best,
        Sight::NoRounding => first_fewest(&trials, bits) != best,
        Sight::ExceptionsAlone => first_fewest(&trials, |trial| trial.exceptions) != best,
        Sight::WidthAlone => first_fewest(&trials, |trial| trial.width) != best,
        Sight::OlderTurn => {
            first_fewest(&trials_by(older::whole, kind, values), bytes).pair != best.pair
        }
        Sight::SomeExceptions => (1..count).contains(&best.exceptions),
        Sight::AllExceptions => trials.iter().all(|trial| trial.exceptions == count),
    };
    SIGHTS.into_iter().filter(shows).collect()
}

/// What the place of an answer has to be, whoever gives it.
#[derive(Clone, Copy, Debug)]
pub enum Place {
    Exactly(usize),
    AtLeast(usize),
}

impl Place {
    pub fn holds(self, place: u64) -> bool {
        match self {
            Place::Exactly(wanted) => place == wanted as u64,
            Place::AtLeast(least) => place >= least as u64,
        }
    }
}

/// The page of a vector with the chosen pair, written into just the header,
/// an offset and the fewest bytes; and the pages with some other pairs, none
/// of which is shorter.
pub fn pages(kind: Kind, values: &[u64], random: &mut Random) -> Vec<(Request, Place)> {
    let trials = trials(kind, values);
    let best = first_fewest(&trials, |trial| trial.bytes(kind, values.len()));
    let length = HEADER + OFFSET + best.bytes(kind, values.len());
    let bytes = |pair: Pair| vec![pair.exponent as u8, pair.factor as u8];
    let (s, v) = (10, || values.to_vec());
    let output = random.bytes(length);
    let written = Request::Write { kind, s, values: v(), pairs: bytes(best.pair), output };
    let mut pages = vec![(written, Place::Exactly(length))];
    for _ in 0..2 {
        let pairs = bytes(random.choose(&trials).pair);
        let other = Request::Measure { kind, s, values: v(), pairs };
        pages.push((other, Place::AtLeast(length)));
    }
    pages
}
