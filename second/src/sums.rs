//! What a request shows of row 17 (document 02's T-06): where the sum is that
//! leaves the kind's signed range, what the call would say without the row, and
//! which mistakes in it would get another answer. A comparison that met no such
//! request would not see the mistake.

use crate::answer::{Call, Fault, Outcome, Refusal};
use crate::examine::examine_by;
use crate::floats::Kind;
use crate::frames::Request;
use crate::read::{read_by, sums, Sums, Vector};
use crate::read_vector::{find, read_vector_by};

/// Frame plus field as it was before T-06: modulo 2^W, read as signed.
pub fn modulo(kind: Kind, frame: i64, field: u64) -> i64 {
    kind.signed((frame as u64).wrapping_add(field))
}

/// What a request may show, mostly of the sum that row 17 names.
#[derive(Clone, Copy, PartialEq, Eq, Debug)]
pub enum Trace {
    // Where it is.
    FirstVector,
    LaterVector,
    ShortVector,
    FirstPosition,
    InnerPosition,
    LastPosition,
    Unlisted,
    Listed,
    ListedAlone,
    // Which sum it is.
    HighNarrow,
    HighWide,
    BelowZero,
    JustBeyond,
    // What the call would say without it.
    Done,
    Later,
    BytesAfter,
    ShortOutput,
    UnusedBit,
    NotBack,
    Needless,
    NoStandIn,
    NoFit,
    // Mistakes: which sums, which position, in which order.
    LetThrough,
    RefusedBefore,
    UnsignedRange,
    SignedField,
    WidthAlone,
    UnlistedAlone,
    LastOfThem,
    BeforePositions,
    BeforeEnd,
}

/// Each trace in words.
pub const TRACES: [(Trace, &str); 31] = [
    (Trace::FirstVector, "in the first vector"),
    (Trace::LaterVector, "in a later vector"),
    (Trace::ShortVector, "in a vector that isn't full"),
    (Trace::FirstPosition, "at the first position"),
    (Trace::InnerPosition, "between first and last"),
    (Trace::LastPosition, "at the last position"),
    (Trace::Unlisted, "at an unlisted position"),
    (Trace::Listed, "at a listed position"),
    (Trace::ListedAlone, "at listed positions alone"),
    (Trace::HighNarrow, "frame from 0 up, width below W"),
    (Trace::HighWide, "frame from 0 up, width W"),
    (Trace::BelowZero, "frame below 0"),
    (Trace::JustBeyond, "a sum of 2^(W-1)"),
    (Trace::Done, "else done"),
    (Trace::Later, "else a row of a later vector"),
    (Trace::BytesAfter, "else 14"),
    (Trace::ShortOutput, "else 15"),
    (Trace::UnusedBit, "else 20"),
    (Trace::NotBack, "else 21"),
    (Trace::Needless, "else 22"),
    (Trace::NoStandIn, "else 23"),
    (Trace::NoFit, "else 24"),
    (Trace::LetThrough, "2^(W-1) let through: another"),
    (Trace::RefusedBefore, "2^(W-1) - 1 refused: another"),
    (Trace::UnsignedRange, "the unsigned range: another"),
    (Trace::SignedField, "the field signed: another"),
    (Trace::WidthAlone, "by frame and width: another"),
    (Trace::UnlistedAlone, "listed left out: another"),
    (Trace::LastOfThem, "the last position: another"),
    (Trace::BeforePositions, "before 13: another"),
    (Trace::BeforeEnd, "before the second 8: another"),
];

impl Trace {
    /// The calls whose requests can show it. What the examiner refuses by 17 it
    /// has always refused: such a page is no list of values' page.
    pub fn shown_by(self) -> &'static [Call] {
        match self {
            Trace::Done | Trace::ShortOutput => &[Call::Read, Call::ReadVector],
            Trace::Later | Trace::BytesAfter => &[Call::Read, Call::Examine],
            Trace::UnusedBit
            | Trace::NotBack
            | Trace::Needless
            | Trace::NoStandIn
            | Trace::NoFit => &[Call::Examine],
            Trace::BeforeEnd => &[Call::ReadVector],
            _ => &[Call::Read, Call::Examine, Call::ReadVector],
        }
    }
}

/// The sum at a position, as a whole number of any size.
fn sum(vector: &Vector, position: usize) -> i128 {
    i128::from(vector.frame) + i128::from(vector.fields[position])
}

/// Whether a sum is no number of the kind.
fn leaves(kind: Kind, sum: i128) -> bool {
    let most = i128::from(kind.most());
    sum > most || sum < -most - 1
}

/// The first position that a test refuses, or the numbers as before T-06.
fn first(kind: Kind, vector: &Vector, refused: impl Fn(usize) -> bool) -> Result<Vec<i64>, usize> {
    match (0..vector.fields.len()).find(|i| refused(*i)) {
        Some(position) => Err(position),
        None => Ok(vector.fields.iter().map(|field| modulo(kind, vector.frame, *field)).collect()),
    }
}

/// No row 17: the numbers as before T-06.
pub const MODULO: Sums = |kind, vector| first(kind, vector, |_| false);

/// Mistakes in the sums and in which position is named.
const MISTAKES: [(Trace, Sums); 7] = [
    (Trace::LetThrough, |kind, vector| {
        first(kind, vector, |i| sum(vector, i) > i128::from(kind.most()) + 1)
    }),
    (Trace::RefusedBefore, |kind, vector| {
        first(kind, vector, |i| sum(vector, i) >= i128::from(kind.most()))
    }),
    (Trace::UnsignedRange, |kind, vector| {
        let frame = u128::from(vector.frame as u64 & kind.mask());
        first(kind, vector, |i| frame + u128::from(vector.fields[i]) > kind.mask().into())
    }),
    (Trace::SignedField, |kind, vector| {
        let signed = |i: usize| i128::from(kind.signed(vector.fields[i]));
        first(kind, vector, |i| leaves(kind, i128::from(vector.frame) + signed(i)))
    }),
    (Trace::WidthAlone, |kind, vector| {
        let widest = (1i128 << vector.width) - 1;
        first(kind, vector, |_| leaves(kind, i128::from(vector.frame) + widest))
    }),
    (Trace::UnlistedAlone, |kind, vector| {
        first(kind, vector, |i| leaves(kind, sum(vector, i)) && !vector.positions.contains(&i))
    }),
    (Trace::LastOfThem, |kind, vector| {
        let last = (0..vector.fields.len()).rfind(|i| leaves(kind, sum(vector, *i)));
        first(kind, vector, |i| Some(i) == last)
    }),
];

/// What a request about a page gets, with the sums taken in some way; nothing
/// for any other request.
fn outcome(sums: Sums, request: &Request) -> Option<Outcome> {
    match request {
        Request::Read { kind, page, output } => {
            Some(read_by(sums, *kind, page, &mut output.clone()))
        }
        Request::Examine { kind, page } => Some(examine_by(sums, *kind, page)),
        Request::ReadVector { kind, page, number, output } => {
            Some(read_vector_by(sums, *kind, page, *number, &mut output.clone()))
        }
        _ => None,
    }
}

/// All that a request shows.
pub fn shown(request: &Request) -> Vec<Trace> {
    let (Some(right), Some(without)) = (outcome(sums, request), outcome(MODULO, request)) else {
        return Vec::new();
    };
    let mut shown = match right {
        Err(refusal) => of_refusal(request, refusal),
        Ok(_) => Vec::new(),
    };
    if matches!(right, Err(refusal) if refusal.fault == Fault::SumLeavesRange) {
        shown.push(instead(without));
    }
    let another = |(_, sums): &&(Trace, Sums)| outcome(*sums, request) != Some(right);
    shown.extend(MISTAKES.iter().filter(another).map(|(trace, _)| *trace));
    shown
}

/// What the call would say without row 17.
fn instead(without: Outcome) -> Trace {
    match without.map_err(|refusal| refusal.fault.line().row) {
        Ok(_) => Trace::Done,
        Err(14) => Trace::BytesAfter,
        Err(15) => Trace::ShortOutput,
        Err(20) => Trace::UnusedBit,
        Err(21) => Trace::NotBack,
        Err(22) => Trace::Needless,
        Err(23) => Trace::NoStandIn,
        Err(24) => Trace::NoFit,
        Err(_) => Trace::Later,
    }
}

/// What the refused vector shows, if row 17 is its row, or would be if it came
/// earlier.
fn of_refusal(request: &Request, refusal: Refusal) -> Vec<Trace> {
    let (Request::Read { kind, page, .. }
    | Request::Examine { kind, page }
    | Request::ReadVector { kind, page, .. }) = request
    else {
        return Vec::new();
    };
    // Where a row of these is the first, the vector's stored offset is right.
    let Ok((parts, _)) = find(*kind, page, refusal.vector as u64) else { return Vec::new() };
    match refusal.fault {
        Fault::SumLeavesRange => match parts.vector(MODULO, *kind) {
            Ok(vector) => of_sum(*kind, page[3], &vector, refusal),
            Err(_) => Vec::new(),
        },
        _ if sums(*kind, &parts.unchecked(*kind)).is_ok() => Vec::new(),
        Fault::PositionTooHigh | Fault::PositionNotRising => vec![Trace::BeforePositions],
        Fault::EndsElsewhere => vec![Trace::BeforeEnd],
        _ => Vec::new(),
    }
}

/// Where and which the sum is that row 17 has named.
fn of_sum(kind: Kind, s: u8, vector: &Vector, refusal: Refusal) -> Vec<Trace> {
    let (place, count) = (refusal.place, vector.fields.len());
    let listed = |i: &usize| vector.positions.contains(i);
    let mut beyond = (0..count).filter(|i| leaves(kind, sum(vector, *i)));
    let at = match place {
        0 => Trace::FirstPosition,
        _ if place == count - 1 => Trace::LastPosition,
        _ => Trace::InnerPosition,
    };
    let high = if vector.width < kind.bits() { Trace::HighNarrow } else { Trace::HighWide };
    let mut traces = vec![
        if refusal.vector == 0 { Trace::FirstVector } else { Trace::LaterVector },
        at,
        if listed(&place) { Trace::Listed } else { Trace::Unlisted },
        if vector.frame < 0 { Trace::BelowZero } else { high },
    ];
    let others = [
        (count < 1 << s, Trace::ShortVector),
        (beyond.all(|i| listed(&i)), Trace::ListedAlone),
        (sum(vector, place) == i128::from(kind.most()) + 1, Trace::JustBeyond),
    ];
    traces.extend(others.into_iter().filter(|(holds, _)| *holds).map(|(_, trace)| trace));
    traces
}

#[cfg(test)]
mod tests {
    use super::*;
    use crate::floats::KINDS;
    use crate::forge::{summed, SUM_FORGERIES};
    use crate::layout::{pack, push_number};
    use crate::random::Random;

    /// A page of one vector at s 3, with pair 0, 0, whose listed values are NaNs.
    fn page(kind: Kind, frame: i64, width: usize, fields: &[u64], listed: &[u64]) -> Vec<u8> {
        let mut page = vec![1, 0, 0, 3, fields.len() as u8, 0, 0, 0, 4, 0, 0, 0, 0, 0];
        push_number(&mut page, listed.len() as u64, 2);
        push_number(&mut page, frame as u64, kind.size());
        page.push(width as u8);
        page.extend(pack(fields, width));
        listed.iter().for_each(|position| push_number(&mut page, *position, 2));
        listed.iter().for_each(|_| push_number(&mut page, kind.mask(), kind.size()));
        page
    }

    fn shown_by_reading(kind: Kind, page: Vec<u8>) -> Vec<Trace> {
        shown(&Request::Read { kind, page, output: vec![0; 8] })
    }

    /// A trace is counted by its number, so the order must agree.
    #[test]
    fn words_are_in_the_order_of_the_traces() {
        for (index, (trace, _)) in TRACES.iter().enumerate() {
            assert_eq!(*trace as usize, index);
        }
    }

    #[test]
    fn without_a_mistake_it_is_the_rule() {
        let right: Sums = |kind, vector| first(kind, vector, |i| leaves(kind, sum(vector, i)));
        for kind in KINDS {
            for forgery in 0..SUM_FORGERIES.len() {
                for index in 0..50 {
                    let mut random = Random::of_case(7, forgery as u64, index);
                    let made = summed(forgery, kind, &mut random);
                    let request = Request::Examine { kind, page: made.page };
                    assert_eq!(outcome(right, &request), outcome(sums, &request));
                }
            }
        }
    }

    #[test]
    fn where_a_sum_is_and_which() {
        use Trace::*;
        for kind in KINDS {
            let inner = page(kind, kind.most(), 1, &[0, 1, 0], &[]);
            assert_eq!(
                shown_by_reading(kind, inner),
                [
                    &[FirstVector, InnerPosition, Unlisted, HighNarrow, ShortVector, JustBeyond][..],
                    &[Done, LetThrough, RefusedBefore, UnsignedRange, WidthAlone],
                ]
                .concat()
            );
            // The sums are 2^(W-1) - 2, 2^W - 2 and 2^W - 2.
            let fields = [kind.sign() - 1, kind.mask(), kind.mask()];
            let listed = page(kind, -1, kind.bits(), &fields, &[1, 2]);
            assert_eq!(
                shown_by_reading(kind, listed),
                [
                    &[FirstVector, InnerPosition, Listed, BelowZero, ShortVector, ListedAlone][..],
                    &[Done, UnsignedRange, SignedField, WidthAlone, UnlistedAlone, LastOfThem],
                ]
                .concat()
            );
            let high = page(kind, 1, kind.bits(), &[kind.sign(); 8], &[0]);
            assert_eq!(
                shown_by_reading(kind, high),
                [
                    &[FirstVector, FirstPosition, Listed, HighWide][..],
                    &[Done, UnsignedRange, SignedField, UnlistedAlone, LastOfThem],
                ]
                .concat()
            );
        }
    }

    #[test]
    fn sums_that_stay_show_a_range_that_is_too_small() {
        for kind in KINDS {
            let last = page(kind, kind.most() - 1, 2, &[0, 1], &[]);
            let wanted = [Trace::RefusedBefore, Trace::WidthAlone];
            assert_eq!(shown_by_reading(kind, last), wanted);
            let whole = page(kind, -kind.most() - 1, kind.bits(), &[0, kind.mask() - 1], &[]);
            let wanted = [Trace::UnsignedRange, Trace::SignedField];
            assert_eq!(shown_by_reading(kind, whole), wanted);
        }
    }

    #[test]
    fn what_the_row_stands_before_and_behind() {
        let kind = Kind::Single;
        let past = page(kind, kind.most(), 1, &[0, 1, 1], &[2]);
        let with = |at: usize, byte| {
            let mut changed = past.clone();
            changed[at] = byte;
            changed
        };
        let read = |page: Vec<u8>, room| {
            shown(&Request::Read { kind, page, output: vec![0; room] })
                .contains(&Trace::ShortOutput)
        };
        assert!(read(past.clone(), 2) && !read(past.clone(), 3));
        let longer = [&past[..], &[0]].concat();
        assert!(shown_by_reading(kind, longer.clone()).contains(&Trace::BytesAfter));
        // The list's one position is byte 22: not below the count.
        assert_eq!(shown_by_reading(kind, with(22, 3))[..], [Trace::BeforePositions]);
        let output = vec![0; 3];
        let vector = Request::ReadVector { kind, page: longer, number: 0, output };
        assert_eq!(shown(&vector), [Trace::BeforeEnd]);
        let examine = |page: Vec<u8>| shown(&Request::Examine { kind, page });
        assert!(examine(past.clone()).contains(&Trace::NotBack));
        assert!(examine(with(21, 0x0E)).contains(&Trace::UnusedBit));
        let around = page(kind, 8, 32, &[kind.mask(), kind.mask()], &[]);
        assert!(examine(around).contains(&Trace::NoFit));
    }
}
