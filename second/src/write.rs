//! The writer and its measuring step: rows 5, 6, 16, then 9 and 10 vector by
//! vector; then, for the writer, 15 if the output is shorter than the page
//! (document 02's T-03).

use crate::answer::{refuse, refuse_in, Fault, Outcome, Refusal};
use crate::floats::{Kind, Turn};
use crate::layout::{self, push_number};

/// The settings' rows, then the page's exact size as the count.
pub fn measure(kind: Kind, s: u8, values: &[u64], pairs: &[u8]) -> Outcome {
    check_settings(kind, s, values.len(), pairs)?;
    let vectors = layout::vectors(values.len(), s);
    let size = layout::HEADER + layout::OFFSET * vectors + vector_sizes(kind, s, values, pairs);
    let bound = layout::bound(kind, values.len(), vectors);
    assert!(size <= bound, "a page of {size} bytes, above document 01's bound of {bound}");
    Ok(size)
}

/// Rows 5, 6, 16, then 9 and 10 vector by vector.
fn check_settings(kind: Kind, s: u8, count: usize, pairs: &[u8]) -> Result<(), Refusal> {
    if !layout::is_vector_size(s) {
        return refuse(Fault::VectorSize);
    }
    if count > layout::MOST_VALUES {
        return refuse(Fault::TooManyValues);
    }
    if pairs.len() != 2 * layout::vectors(count, s) {
        return refuse(Fault::PairsPerVector);
    }
    for (vector, pair) in pairs.chunks_exact(2).enumerate() {
        check_pair(kind, pair[0], pair[1], vector)?;
    }
    Ok(())
}

/// Bytes of all vectors, for sound settings.
fn vector_sizes(kind: Kind, s: u8, values: &[u64], pairs: &[u8]) -> usize {
    let vectors = values.chunks(1 << s).zip(pairs.chunks_exact(2));
    vectors.map(|(values, pair)| vector_size(kind, values, pair[0], pair[1])).sum()
}

/// Bytes of one vector, from its values and not from what is written.
fn vector_size(kind: Kind, values: &[u64], exponent: u8, factor: u8) -> usize {
    let (width, exceptions) = cost(Kind::whole, kind, values, exponent.into(), factor.into());
    layout::vector_bytes(kind, values.len(), width, exceptions)
}

/// The width of a vector's fields and the count of its exceptions. A stand-in
/// is the whole number of another value, so it makes no field wider; and of
/// exceptions alone all fields are 0.
pub fn cost(
    turn: Turn,
    kind: Kind,
    values: &[u64],
    exponent: usize,
    factor: usize,
) -> (usize, usize) {
    let wholes: Vec<i64> =
        values.iter().filter_map(|value| turn(kind, *value, exponent, factor)).collect();
    let width = match (wholes.iter().min(), wholes.iter().max()) {
        (Some(least), Some(most)) => {
            layout::width_of((i128::from(*most) - i128::from(*least)) as u64)
        }
        _ => 0,
    };
    (width, values.len() - wholes.len())
}

/// Rows 9 and 10, for the writer and the reader alike.
pub fn check_pair(kind: Kind, exponent: u8, factor: u8, vector: usize) -> Result<(), Refusal> {
    if usize::from(exponent) > kind.largest_exponent() {
        return refuse_in(Fault::ExponentAbove, vector);
    }
    if factor > exponent {
        return refuse_in(Fault::FactorAbove, vector);
    }
    Ok(())
}

/// Writes a page into the output, or refuses and leaves it as it came.
pub fn write(kind: Kind, s: u8, values: &[u64], pairs: &[u8], output: &mut [u8]) -> Outcome {
    let size = measure(kind, s, values, pairs)?;
    if output.len() < size {
        return refuse(Fault::OutputTooShort);
    }
    let page = page(Kind::whole, kind, s, values, pairs);
    // The size was summed up before; the bytes now have to say the same.
    assert_eq!(page.len(), size, "the page has another length than was measured");
    output[..page.len()].copy_from_slice(&page);
    Ok(page.len())
}

/// The page of sound settings, its whole numbers by a turn.
pub fn page(turn: Turn, kind: Kind, s: u8, values: &[u64], pairs: &[u8]) -> Vec<u8> {
    let parts: Vec<Vec<u8>> = values
        .chunks(1 << s)
        .zip(pairs.chunks_exact(2))
        .map(|(values, pair)| vector(turn, kind, values, pair[0], pair[1]))
        .collect();

    let mut page = vec![1, 0, 0, s];
    push_number(&mut page, values.len() as u64, 4);
    let mut offset = layout::OFFSET * parts.len();
    for part in &parts {
        push_number(&mut page, offset as u64, layout::OFFSET);
        offset += part.len();
    }
    page.extend(parts.concat());
    page
}

/// The bytes of one vector.
fn vector(turn: Turn, kind: Kind, values: &[u64], exponent: u8, factor: u8) -> Vec<u8> {
    let wholes: Vec<Option<i64>> =
        values.iter().map(|value| turn(kind, *value, exponent.into(), factor.into())).collect();
    let stand_in = wholes.iter().flatten().next().copied().unwrap_or(0);
    let filled: Vec<i64> = wholes.iter().map(|whole| whole.unwrap_or(stand_in)).collect();
    let (frame, fields, width) = fit(&filled);
    let listed: Vec<usize> = (0..values.len()).filter(|i| wholes[*i].is_none()).collect();

    let mut bytes = vec![exponent, factor];
    push_number(&mut bytes, listed.len() as u64, 2);
    push_number(&mut bytes, frame as u64, kind.size());
    push_number(&mut bytes, width as u64, 1);
    bytes.extend(layout::pack(&fields, width));
    for position in &listed {
        push_number(&mut bytes, *position as u64, layout::POSITION);
    }
    for position in &listed {
        push_number(&mut bytes, values[*position], kind.size());
    }
    bytes
}

/// Frame, fields and width of a vector's whole numbers. The fields are taken
/// in a wider type: the difference of two numbers of W bits may not fit in W.
pub fn fit(wholes: &[i64]) -> (i64, Vec<u64>, usize) {
    let frame = wholes.iter().copied().min().unwrap_or(0);
    let fields: Vec<u64> =
        wholes.iter().map(|whole| (i128::from(*whole) - i128::from(frame)) as u64).collect();
    let largest = fields.iter().copied().max().unwrap_or(0);
    (frame, fields, layout::width_of(largest))
}
