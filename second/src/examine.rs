//! The examiner: rows 1 to 14 and 17 as the reader, then rows 20 to 24. It names
//! the first vector at fault, in it the lowest row, in that the first position.

use crate::answer::{refuse_at, refuse_in, Fault, Outcome, Refusal};
use crate::floats::Kind;
use crate::read::{parse, sums, Sums, Vector};
use crate::write::fit;

/// Says whether a page is one that the writer writes.
pub fn examine(kind: Kind, bytes: &[u8]) -> Outcome {
    examine_by(sums, kind, bytes)
}

/// The same, with the sums taken in some way.
pub fn examine_by(sums: Sums, kind: Kind, bytes: &[u8]) -> Outcome {
    let page = parse(sums, kind, bytes)?;
    for (v, vector) in page.vectors.iter().enumerate() {
        examine_vector(kind, vector, v)?;
    }
    Ok(page.count)
}

/// Rows 20 to 24 of one vector, each over the whole vector before the next.
fn examine_vector(kind: Kind, vector: &Vector, v: usize) -> Result<(), Refusal> {
    let unlisted = unlisted(vector);
    if vector.unused_bit {
        return refuse_in(Fault::UnusedBit, v);
    }
    for i in &unlisted {
        check_comes_back(kind, vector, v, *i)?;
    }
    check_listed(kind, vector, v)?;
    check_stand_ins(vector, &unlisted, v)?;
    check_fit(vector, v)
}

/// The positions that are not in the list, rising.
fn unlisted(vector: &Vector) -> Vec<usize> {
    let mut listed = vec![false; vector.fields.len()];
    for position in &vector.positions {
        listed[*position] = true;
    }
    (0..listed.len()).filter(|i| !listed[*i]).collect()
}

/// Row 21: the value that comes back turns into the same whole number.
fn check_comes_back(kind: Kind, vector: &Vector, v: usize, position: usize) -> Result<(), Refusal> {
    let whole = vector.wholes[position];
    let (exponent, factor) = (vector.exponent.into(), vector.factor.into());
    let value = kind.back(whole, exponent, factor);
    match kind.whole(value, exponent, factor) {
        None => refuse_at(Fault::BackAsException, v, position),
        Some(again) if again != whole => refuse_at(Fault::BackAsAnother, v, position),
        Some(_) => Ok(()),
    }
}

/// Row 22: a listed value is an exception.
fn check_listed(kind: Kind, vector: &Vector, v: usize) -> Result<(), Refusal> {
    for (position, value) in vector.positions.iter().zip(&vector.exceptions) {
        if kind.whole(*value, vector.exponent.into(), vector.factor.into()).is_some() {
            return refuse_at(Fault::ListedNoException, v, *position);
        }
    }
    Ok(())
}

/// Row 23: a listed position holds the stand-in. Rows 21 and 22 have shown
/// that the unlisted values are the ones that are no exceptions.
fn check_stand_ins(vector: &Vector, unlisted: &[usize], v: usize) -> Result<(), Refusal> {
    let stand_in = unlisted.first().map_or(0, |first| vector.wholes[*first]);
    for position in &vector.positions {
        if vector.wholes[*position] != stand_in {
            return refuse_at(Fault::NotTheStandIn, v, *position);
        }
    }
    Ok(())
}

/// Row 24: frame and width are the writer's.
fn check_fit(vector: &Vector, v: usize) -> Result<(), Refusal> {
    let (frame, _, width) = fit(&vector.wholes);
    if vector.frame != frame {
        return refuse_in(Fault::FrameNotSmallest, v);
    }
    if vector.width != width {
        return refuse_in(Fault::WidthNotFewest, v);
    }
    Ok(())
}
