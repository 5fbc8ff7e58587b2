//! The reading of one vector by its number (document 02, T-01): rows 1 to 6;
//! 30; 7 for the offsets; 8 if it starts before their end; for it alone 7 for
//! metadata, 9 to 12, 7 for data; 8 again if it doesn't end where the next
//! offset, or the page's end, says; 13; 17 (T-06); 15.

use crate::answer::{refuse, refuse_in, Fault, Outcome, Refusal};
use crate::floats::Kind;
use crate::layout;
use crate::read::{parse_header, parse_offsets, parse_parts, sums, Parts, Sums};

/// Reads one vector into the front of the output, or refuses and leaves the
/// output as it came.
pub fn read_vector(kind: Kind, bytes: &[u8], number: u64, output: &mut [u64]) -> Outcome {
    read_vector_by(sums, kind, bytes, number, output)
}

/// The same, with the sums taken in some way.
pub fn read_vector_by(
    sums: Sums,
    kind: Kind,
    bytes: &[u8],
    number: u64,
    output: &mut [u64],
) -> Outcome {
    let (parts, ends) = find(kind, bytes, number)?;
    if !ends {
        return refuse_in(Fault::EndsElsewhere, parts.v);
    }
    let values = parts.vector(sums, kind)?.values(kind);
    if output.len() < values.len() {
        return refuse(Fault::OutputTooShort);
    }
    output[..values.len()].copy_from_slice(&values);
    Ok(values.len())
}

/// The rows up to 7 for data; and whether the vector ends where the next offset,
/// or the page's end, says. What the page holds of other vectors is not looked
/// at.
pub fn find(kind: Kind, bytes: &[u8], number: u64) -> Result<(Parts<'_>, bool), Refusal> {
    let (s, count) = parse_header(bytes)?;
    let body = &bytes[layout::HEADER..];
    let vectors = layout::vectors(count, s);
    if number >= vectors as u64 {
        return refuse(Fault::NoSuchVector);
    }
    let v = number as usize;
    let offsets = parse_offsets(body, vectors)?;
    let start = offsets[v];
    if start < layout::OFFSET * vectors {
        return refuse_in(Fault::StartsTooEarly, v);
    }
    // Past the end there is nothing, not even metadata.
    let rest = body.get(start..).unwrap_or(&[]);
    let parts = parse_parts(kind, rest, layout::values_in(v, count, s), v)?;
    let end = offsets.get(v + 1).copied().unwrap_or(body.len());
    let ends = start + parts.size == end;
    Ok((parts, ends))
}
