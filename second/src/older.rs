//! Pages by the older rule, as they were written before document 02's T-05,
//! and what the examiner has to say of them now.
//!
//! The older rule took the whole number nearest to the scaled value, ties to
//! even, and held only the scaled value against L. The layout was the same, so
//! the writer's own is used with the older turn. What becomes of a page follows
//! from the two turns of its values alone; nothing of the examiner is used.

use crate::answer::{refuse_at, Fault, Outcome};
use crate::columns::{at_rounding, sound_column, Column};
use crate::floats::{Kind, Pair};
use crate::random::Random;
use crate::write;

/// The whole number of a value by the older rule, or nothing if the value was
/// an exception. A NaN is not below L either.
pub fn whole(kind: Kind, value: u64, exponent: usize, factor: usize) -> Option<i64> {
    let scaled = kind.scaled(value, exponent, factor);
    if value == kind.sign() || scaled.is_nan() || scaled.abs() > kind.largest() {
        return None;
    }
    let whole = scaled.round_ties_even() as i64;
    (kind.back(whole, exponent, factor) == value).then_some(whole)
}

/// The older page of sound settings.
pub fn page(kind: Kind, s: u8, values: &[u64], pairs: &[u8]) -> Vec<u8> {
    write::page(whole, kind, s, values, pairs)
}

/// What the examiner makes of an older page.
#[derive(Clone, Copy, PartialEq, Eq, Debug)]
pub enum Fate {
    /// No value has moved.
    Kept,
    /// Row 21: a whole number comes back as a value that is an exception now.
    NowException,
    /// Row 21: it comes back as a value that turns into another whole number.
    NowAnother,
    /// Row 22: a listed value has a whole number now.
    NowWhole,
}

pub const FATES: [Fate; 4] = [Fate::Kept, Fate::NowException, Fate::NowAnother, Fate::NowWhole];

impl Fate {
    pub fn text(self) -> &'static str {
        match self {
            Fate::Kept => "accepted: no value moved",
            Fate::NowException => "21: an exception now",
            Fate::NowAnother => "21: another whole number now",
            Fate::NowWhole => "22: no exception any more",
        }
    }

    /// Whether the value stood unlisted in the older page.
    fn is_unlisted(self) -> bool {
        matches!(self, Fate::NowException | Fate::NowAnother)
    }
}

/// How a value has moved, if it has, from the older rule to T-05's.
pub fn moved(kind: Kind, value: u64, exponent: usize, factor: usize) -> Option<Fate> {
    match (whole(kind, value, exponent, factor), kind.whole(value, exponent, factor)) {
        (Some(_), None) => Some(Fate::NowException),
        (Some(older), Some(now)) if older != now => Some(Fate::NowAnother),
        (None, Some(_)) => Some(Fate::NowWhole),
        _ => None,
    }
}

/// What becomes of the older page of a column, and the examiner's answer: the
/// first vector in which a value moved decides, in it the first unlisted value
/// that did, and only if there is none the first listed one.
pub fn told(kind: Kind, s: u8, values: &[u64], pairs: &[u8]) -> (Fate, Outcome) {
    for (v, (values, pair)) in values.chunks(1 << s).zip(pairs.chunks_exact(2)).enumerate() {
        let fates = values.iter().map(|value| moved(kind, *value, pair[0].into(), pair[1].into()));
        let fates: Vec<Option<Fate>> = fates.collect();
        let first = |unlisted: bool| {
            fates.iter().position(|fate| fate.is_some_and(|fate| fate.is_unlisted() == unlisted))
        };
        let Some(position) = first(true).or_else(|| first(false)) else { continue };
        let (fate, fault) = match fates[position] {
            Some(Fate::NowException) => (Fate::NowException, Fault::BackAsException),
            Some(Fate::NowAnother) => (Fate::NowAnother, Fault::BackAsAnother),
            _ => (Fate::NowWhole, Fault::ListedNoException),
        };
        return (fate, refuse_at(fault, v, position));
    }
    (Fate::Kept, Ok(values.len()))
}

/// How many values are tried until one has the fate that is looked for. With
/// some pairs none has.
const TRIES: usize = 200;

/// A column whose older page is likely to have this fate, in any of its
/// vectors: up to that vector moved values become zero, which no rule moves,
/// and there one value is put that moves so. What else has moved in it stays
/// every second time, and what has moved behind it always. To be kept, nothing
/// may move at all.
pub fn column(fate: Fate, kind: Kind, random: &mut Random) -> Column {
    let s = *random.choose(&[3, 3, 3, 4, 4, 5, 6, 10]);
    let most = if random.one_in(8) { 1_500 } else { 80 };
    let count = random.between(1, most);
    let mut column = sound_column(kind, s, count, random);
    let chosen = random.below(count);
    let still = match (fate, chosen >> s) {
        (Fate::Kept, _) => count,
        (_, vector) if random.one_in(2) => vector << s,
        (_, vector) => count.min((vector + 1) << s),
    };
    for i in 0..still {
        let Pair { exponent, factor } = pair_at(&column, i);
        if moved(kind, column.values[i], exponent, factor).is_some() {
            column.values[i] = 0;
        }
    }
    if fate != Fate::Kept {
        let pair = pair_at(&column, chosen);
        let tried = (0..TRIES).map(|_| at_rounding(kind, pair, random));
        let fitting = |value: &u64| moved(kind, *value, pair.exponent, pair.factor) == Some(fate);
        if let Some(value) = tried.into_iter().find(fitting) {
            column.values[chosen] = value;
        }
    }
    column
}

/// The pair of a value's vector.
fn pair_at(column: &Column, i: usize) -> Pair {
    let at = 2 * (i >> column.s);
    Pair { exponent: column.pairs[at].into(), factor: column.pairs[at + 1].into() }
}

#[cfg(test)]
mod tests {
    use super::*;

    #[test]
    fn values_that_moved() {
        let single = |value, exponent, factor| {
            let now = Kind::Single.whole(value, exponent, factor);
            (whole(Kind::Single, value, exponent, factor), now)
        };
        // 4,194,305.0, 2,147,483,520.0 and its negative, of e 0
        assert_eq!(single(0x4A80_0002, 0, 0), (Some(4_194_305), None));
        assert_eq!(single(0x4EFF_FFFF, 0, 0), (Some(2_147_483_520), None));
        assert_eq!(single(0xCEFF_FFFF, 0, 0), (Some(-2_147_483_520), Some(-2_147_483_520)));
        // 1,048,576.9 and -8,192.023: both numbers come back
        assert_eq!(single(0x4980_0007, 1, 0), (Some(10_485_769), Some(10_485_768)));
        assert_eq!(single(0xC600_0018, 4, 1), (Some(-8_192_024), Some(-8_192_023)));
        // 83,886.234 and -524,288.94: the nearest number doesn't come back
        assert_eq!(single(0x47A3_D71E, 2, 0), (None, Some(8_388_624)));
        assert_eq!(single(0xC900_000F, 1, 0), (None, Some(-5_242_889)));
    }

    #[test]
    fn an_unlisted_value_goes_before_a_listed_one() {
        let (zero, listed, unlisted) = (0, 0x47A3_D71E, 0x4A80_0002);
        let both = [zero, listed, unlisted, listed];
        let of = |values: &[u64]| told(Kind::Single, 3, values, &[2, 0]);
        assert_eq!(of(&both[..2]), (Fate::NowWhole, refuse_at(Fault::ListedNoException, 0, 1)));
        let pairs = [2, 0, 0, 0];
        let values = [&[zero; 8], &both[..]].concat();
        let wanted = (Fate::NowException, refuse_at(Fault::BackAsException, 1, 2));
        assert_eq!(told(Kind::Single, 3, &values, &pairs), wanted);
        assert_eq!(of(&[zero; 8]), (Fate::Kept, Ok(8)));
    }
}
