//! Columns of values with their settings and rooms.
//!
//! A column is built sound, vector by vector, from flavours of values that
//! lie where the rules turn. Then, by its index, a fault may be put in.

use crate::floats::{Kind, Pair, KINDS, TENS_64};
use crate::layout::{bound, is_vector_size, vectors, MOST_VALUES};
use crate::random::Random;
use crate::rooms::{exceptions, Room, Shape, ENOUGH};
use crate::write::measure;

/// Everything that a writer is lent; the room is the output's length.
pub struct Column {
    pub note: String,
    pub kind: Kind,
    pub s: u8,
    pub values: Vec<u64>,
    pub pairs: Vec<u8>,
    pub room: usize,
}

impl Column {
    /// The page's size and document 01's bound, as the column stands. Where the
    /// settings have no page, the bound stands in for it.
    pub fn sizes(&self) -> (usize, usize) {
        let s = if is_vector_size(self.s) { self.s } else { 10 };
        let bound = bound(self.kind, self.values.len(), vectors(self.values.len(), s));
        let page = measure(self.kind, self.s, &self.values, &self.pairs);
        (page.unwrap_or(bound), bound)
    }

    fn lend(&mut self, room: Room, random: &mut Random) {
        let (page, bound) = self.sizes();
        self.room = room.length(page, bound, random);
    }
}

/// How a value is made.
#[derive(Clone, Copy, Debug)]
enum Flavour {
    /// Decimals with as many digits as the pair takes, or any number.
    Decimals,
    /// Whole numbers of any size.
    Wholes,
    /// Any bits.
    RandomBits,
    /// NaNs, infinities, zeros, subnormals, the largest and smallest.
    Specials,
    /// Values whose scaled value lies around L.
    NearLargest,
    /// Values whose whole number lies where floats lose their last digits.
    NearPowers,
    /// Values whose scaled value lies on or beside a half.
    Halves,
    /// Values whose scaled value lies where the fast rounding turns.
    Rounding,
    /// Values that whole numbers come back as, and their neighbours.
    Back,
    /// Powers of ten, and of two.
    Powers,
}

const FLAVOURS: [Flavour; 10] = [
    Flavour::Decimals,
    Flavour::Wholes,
    Flavour::RandomBits,
    Flavour::Specials,
    Flavour::NearLargest,
    Flavour::NearPowers,
    Flavour::Halves,
    Flavour::Rounding,
    Flavour::Back,
    Flavour::Powers,
];

pub fn any_pair(kind: Kind, random: &mut Random) -> Pair {
    // Small exponents are what columns mostly have.
    let most = if random.one_in(2) { 4 } else { kind.largest_exponent() };
    let exponent = random.between(0, most);
    let factor = if random.one_in(2) { 0 } else { random.between(0, exponent) };
    Pair { exponent, factor }
}

/// A value of a flavour, made for a pair.
fn value(flavour: Flavour, kind: Kind, pair: Pair, random: &mut Random) -> u64 {
    let bits = match flavour {
        Flavour::Decimals => decimal(kind, pair, random),
        Flavour::Wholes => kind.nearest(random.of_bits(kind.bits()) as f64),
        Flavour::RandomBits => random.word(),
        Flavour::Specials => special(kind, random),
        Flavour::NearLargest => near_largest(kind, pair, random),
        Flavour::NearPowers => near_powers(kind, pair, random),
        Flavour::Halves => half(kind, pair, random),
        Flavour::Rounding => at_rounding(kind, pair, random),
        Flavour::Back => back(kind, pair, random),
        Flavour::Powers => power(kind, random),
    };
    let negative = random.one_in(4);
    let bits = if negative { bits ^ kind.sign() } else { bits };
    bits & kind.mask()
}

/// 10^(e - f), to place a value so that its scaled value is known.
fn scale(pair: Pair) -> f64 {
    TENS_64[pair.exponent - pair.factor]
}

fn decimal(kind: Kind, pair: Pair, random: &mut Random) -> u64 {
    let fitting = pair.exponent - pair.factor;
    let any = random.between(0, kind.largest_exponent());
    let digits = if random.one_in(4) { any } else { fitting };
    let most = *random.choose(&[7, 10, 14, 20, 24, 31, 40, 53]);
    kind.nearest(random.of_bits(most) as f64 / TENS_64[digits])
}

/// A zero, an infinity, a NaN, a subnormal, or a value at the edge of one.
pub fn special(kind: Kind, random: &mut Random) -> u64 {
    let infinity = kind.nearest(f64::INFINITY);
    let fraction = kind.mask() >> (if kind == Kind::Single { 9 } else { 12 });
    match random.below(8) {
        0 => 0,
        1 => infinity,
        2 => infinity | 1,
        3 => infinity | ((fraction + 1) >> 1),
        4 => infinity | 1 | (random.word() & fraction),
        5 => random.word() & fraction,
        6 => 1 + random.below(3) as u64,
        _ => *random.choose(&[infinity - 1, fraction, fraction + 1, fraction + 2]),
    }
}

fn near_largest(kind: Kind, pair: Pair, random: &mut Random) -> u64 {
    kind.nearest(kind.largest() / scale(pair)).wrapping_add_signed(random.near(4))
}

/// 2^22 to 2^24 and 2^51 to 2^53 are where the constants of the sources and
/// the floats' own precision end; 2^31 and 2^63 are where the numbers end.
fn near_powers(kind: Kind, pair: Pair, random: &mut Random) -> u64 {
    let power = match kind {
        Kind::Single => *random.choose(&[22, 23, 24, 24, 25, 30]),
        Kind::Double => *random.choose(&[51, 52, 53, 53, 54, 62]),
    };
    let whole = (1i64 << power) + random.near(5);
    if random.one_in(3) {
        let value = (whole as f64 + 0.5) / scale(pair);
        return kind.nearest(value).wrapping_add_signed(random.near(1));
    }
    let bits = kind.back(whole, pair.exponent, pair.factor);
    bits.wrapping_add_signed(random.near(1))
}

fn half(kind: Kind, pair: Pair, random: &mut Random) -> u64 {
    let most = *random.choose(&[3, 10, 22, 30, 51]);
    let value = (random.of_bits(most) as f64 + 0.5) / scale(pair);
    kind.nearest(value).wrapping_add_signed(random.near(1))
}

/// The scaled value lies a few floats beside a power of two from 2^22 or 2^51
/// up to L, beside a place from which the sum reaches one, anywhere in the
/// first such powers, on a half in them, or beside L. Both signs are met.
pub fn at_rounding(kind: Kind, pair: Pair, random: &mut Random) -> u64 {
    let first = if kind == Kind::Single { 22 } else { 51 };
    let power = f64::powi(2.0, random.between(first, kind.bits() - 1) as i32);
    let low = 1u64 << first;
    let beside = |scaled: f64, far: usize, random: &mut Random| {
        kind.scaled(kind.nearest(scaled).wrapping_add_signed(random.near(far)), 0, 0)
    };
    let scaled = match random.below(6) {
        0 => beside(power, 6, random),
        1 => beside(power - kind.rounder(), 6, random),
        2 => (low + random.below(low as usize) as u64) as f64,
        3 => (2 * low + random.below(2 * low as usize) as u64) as f64,
        4 => (low + random.below(low as usize) as u64) as f64 + 0.5,
        _ => beside(kind.largest(), 2, random),
    };
    let scaled = if random.one_in(3) { -scaled } else { scaled };
    kind.nearest(scaled / scale(pair)).wrapping_add_signed(random.near(1))
}

fn back(kind: Kind, pair: Pair, random: &mut Random) -> u64 {
    let whole = random.of_bits(kind.bits() - 1) as i64;
    let bits = kind.back(whole, pair.exponent, pair.factor);
    let far = if random.one_in(3) { 1 } else { 0 };
    bits.wrapping_add_signed(random.near(far))
}

fn power(kind: Kind, random: &mut Random) -> u64 {
    if random.one_in(2) {
        let ten = *random.choose(&TENS_64);
        let value = if random.one_in(2) { ten } else { 1.0 / ten };
        return kind.nearest(value).wrapping_add_signed(random.near(1));
    }
    let fraction_bits = if kind == Kind::Single { 23 } else { 52 };
    (random.word() & (kind.mask() >> 1)) >> fraction_bits << fraction_bits
}

/// The values of one vector: one flavour, a mixture, or one value all along,
/// now and then with specials strewn in.
pub fn vector_values(kind: Kind, pair: Pair, count: usize, random: &mut Random) -> Vec<u64> {
    let main = *random.choose(&FLAVOURS);
    let other = *random.choose(&FLAVOURS);
    let constant = random.one_in(8);
    let strewn = *random.choose(&[0, 0, 3, 10, 40]);
    let first = value(main, kind, pair, random);
    let mut values = Vec::with_capacity(count);
    for _ in 0..count {
        values.push(if strewn > 0 && random.one_in(strewn) {
            value(other, kind, pair, random)
        } else if constant {
            first
        } else {
            value(main, kind, pair, random)
        });
    }
    values
}

/// A column without a fault, of a given size, and room that is enough.
pub fn sound_column(kind: Kind, s: u8, count: usize, random: &mut Random) -> Column {
    let same = any_pair(kind, random);
    let vary = random.one_in(2);
    let mut column =
        Column { note: "sound".into(), kind, s, values: Vec::new(), pairs: Vec::new(), room: 0 };
    while column.values.len() < count {
        let pair = if vary { any_pair(kind, random) } else { same };
        let size = (1 << s).min(count - column.values.len());
        column.values.extend(vector_values(kind, pair, size, random));
        column.pairs.extend([pair.exponent as u8, pair.factor as u8]);
    }
    let room = *random.choose(&ENOUGH);
    column.lend(room, random);
    column
}

/// A column without a fault whose page has this shape. How much is lent for it
/// is the caller's to choose.
pub fn shaped_column(kind: Kind, shape: Shape, random: &mut Random) -> Column {
    let s = *random.choose(&[3, 3, 3, 4, 4, 5, 6, 7, 8, 9, 10]);
    let size = 1 << s;
    let count = match shape {
        Shape::NoVectors => 0,
        Shape::OneVector | Shape::OneWithExceptions => random.between(1, size),
        Shape::ManyVectors | Shape::ManyWithExceptions => {
            let full = random.between(1, (MOST_VALUES / size - 1).min(20));
            size * full + random.between(1, size)
        }
    };
    let mut column = sound_column(kind, s, count, random);
    let listed = exceptions(kind, s, &column.values, &column.pairs);
    if !shape.has_exceptions() {
        // Zero is no exception, whatever the pair is.
        for position in listed {
            column.values[position] = 0;
        }
    } else if listed.is_empty() {
        for _ in 0..random.between(1, 3) {
            column.values[random.below(count)] = kind.nearest(f64::INFINITY);
        }
    }
    column
}

/// Sizes from 0 to the most, small ones more often.
fn column_size(s: u8, random: &mut Random) -> usize {
    let size = 1 << s;
    match random.below(100) {
        0..=2 => 0,
        3..=17 => random.between(1, 8),
        18..=49 => random.between(1, 100),
        50..=79 => random.between(1, 1_100),
        80..=91 => (random.between(1, 4) * size + random.below(3)).saturating_sub(1),
        92..=97 => random.between(1, 5_000),
        98 => random.between(1, MOST_VALUES),
        _ => MOST_VALUES - random.below(2) * random.below(9),
    }
}

/// A fault put into a sound column.
type Spoil = fn(&mut Column, &mut Random);

const SPOILS: [(&str, Spoil); 11] = [
    ("s below 3", |column, random| column.s = random.below(3) as u8),
    ("s above 10", |column, random| {
        column.s = if random.one_in(2) { 11 } else { random.between(11, 255) as u8 }
    }),
    ("too many values", |column, random| {
        let count = MOST_VALUES + random.between(1, 16);
        column.values.resize_with(count, || random.word() & column.kind.mask());
        if random.one_in(2) && is_vector_size(column.s) {
            column.pairs = vec![0; 2 * vectors(count, column.s)];
        }
    }),
    ("pairs of odd length", |column, random| {
        if random.one_in(2) && !column.pairs.is_empty() {
            column.pairs.pop();
        } else {
            column.pairs.push(random.byte());
        }
    }),
    ("a pair too few or too many", |column, random| {
        let count = column.pairs.len();
        let wanted = match random.below(4) {
            0 => 0,
            1 => count.saturating_sub(2),
            2 => count / 2,
            _ => count + 2 * random.between(1, 3),
        };
        column.pairs.resize(wanted, 0);
    }),
    ("exponent above E", |column, random| {
        let above = column.kind.largest_exponent() + 1;
        let exponent = if random.one_in(2) { above } else { random.between(above, 255) };
        put_pair(column, random, |_| (exponent as u8, 0));
    }),
    ("factor above exponent", |column, random| {
        let more = random.between(1, 5) as u8;
        put_pair(column, random, |exponent| (exponent, exponent.saturating_add(more)));
    }),
    ("exponent and factor above", |column, random| {
        let exponent = random.between(column.kind.largest_exponent() + 1, 254) as u8;
        put_pair(column, random, |_| (exponent, exponent + 1));
    }),
    ("room one short", |column, random| column.lend(Room::OneShort, random)),
    ("room short", |column, random| column.lend(Room::Short, random)),
    ("no room", |column, random| column.lend(Room::Nothing, random)),
];

/// Changes the pair of one vector, if there is one.
fn put_pair(column: &mut Column, random: &mut Random, make: impl Fn(u8) -> (u8, u8)) {
    let pairs = column.pairs.len() / 2;
    if pairs > 0 {
        let at = 2 * random.below(pairs);
        let (exponent, factor) = make(column.pairs[at]);
        column.pairs[at] = exponent;
        column.pairs[at + 1] = factor;
    }
}

/// How many columns in a row differ in their fault, per kind.
const CYCLE: usize = 30;

/// The column of an index: some have one fault, some several, most none.
pub fn column(index: usize, random: &mut Random) -> Column {
    let kind = KINDS[index / CYCLE % 2];
    let turn = index % CYCLE;
    let s = random.between(3, 10) as u8;
    let count = column_size(s, random);
    // A fault in a pair wants a pair, and later vectors too.
    let count = if turn < SPOILS.len() { count.max(1) } else { count };
    let mut column = sound_column(kind, s, count, random);
    if turn < SPOILS.len() {
        let (note, spoil) = SPOILS[turn];
        spoil(&mut column, random);
        column.note = note.into();
    } else if turn < SPOILS.len() + 3 {
        for _ in 0..random.between(2, 4) {
            let (note, spoil) = *random.choose(&SPOILS);
            spoil(&mut column, random);
            column.note = format!("{}, {note}", column.note);
        }
    }
    column
}
