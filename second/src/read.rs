//! The reader: rows 1 to 6; 7 for the offsets; then each vector in turn, 8,
//! 7 for metadata, 9 to 12, 7 for data, 13, 17; then 14, then 15.

use crate::answer::{refuse, refuse_at, refuse_in, Fault, Outcome, Refusal};
use crate::floats::Kind;
use crate::layout::{self, number};
use crate::write::check_pair;

/// A page that has passed rows 1 to 14 and 17.
pub struct Page {
    pub s: u8,
    pub count: usize,
    pub vectors: Vec<Vector>,
}

/// A vector as it stands in the page, and its whole numbers.
pub struct Vector {
    pub exponent: u8,
    pub factor: u8,
    pub frame: i64,
    pub width: usize,
    pub fields: Vec<u64>,
    pub unused_bit: bool,
    pub positions: Vec<usize>,
    pub exceptions: Vec<u64>,
    /// By the reading rule, at listed positions too.
    pub wholes: Vec<i64>,
}

/// A way from a vector's frame and fields to its whole numbers; or the position
/// that row 17 refuses.
pub type Sums = fn(Kind, &Vector) -> Result<Vec<i64>, usize>;

/// The right way: each frame plus field, listed or not. The first that leaves
/// the kind's signed range is refused.
pub fn sums(kind: Kind, vector: &Vector) -> Result<Vec<i64>, usize> {
    let mut wholes = Vec::new();
    for (position, field) in vector.fields.iter().enumerate() {
        wholes.push(kind.plus(vector.frame, *field).ok_or(position)?);
    }
    Ok(wholes)
}

impl Vector {
    /// The values: whole numbers brought back, listed positions overwritten.
    pub fn values(&self, kind: Kind) -> Vec<u64> {
        let mut values: Vec<u64> = self
            .wholes
            .iter()
            .map(|whole| kind.back(*whole, self.exponent.into(), self.factor.into()))
            .collect();
        for (position, value) in self.positions.iter().zip(&self.exceptions) {
            values[*position] = *value;
        }
        values
    }
}

/// Reads a page into the output, or refuses and leaves it as it came.
pub fn read(kind: Kind, bytes: &[u8], output: &mut [u64]) -> Outcome {
    read_by(sums, kind, bytes, output)
}

/// The same, with the sums taken in some way.
pub fn read_by(sums: Sums, kind: Kind, bytes: &[u8], output: &mut [u64]) -> Outcome {
    let page = parse(sums, kind, bytes)?;
    if output.len() < page.count {
        return refuse(Fault::OutputTooShort);
    }
    let values: Vec<u64> = page.vectors.iter().flat_map(|vector| vector.values(kind)).collect();
    output[..page.count].copy_from_slice(&values);
    Ok(page.count)
}

/// Rows 1 to 14 and 17 in their order.
pub fn parse(sums: Sums, kind: Kind, bytes: &[u8]) -> Result<Page, Refusal> {
    let (s, count) = parse_header(bytes)?;
    let body = &bytes[layout::HEADER..];
    let offsets = parse_offsets(body, layout::vectors(count, s))?;

    let mut page = Page { s, count, vectors: Vec::new() };
    let mut next = layout::OFFSET * offsets.len();
    for (v, offset) in offsets.into_iter().enumerate() {
        if offset != next {
            return refuse_in(Fault::WrongOffset, v);
        }
        let values = layout::values_in(v, count, s);
        let parts = parse_parts(kind, &body[next..], values, v)?;
        page.vectors.push(parts.vector(sums, kind)?);
        next += parts.size;
    }
    if body.len() > next {
        return refuse(Fault::BytesAfter);
    }
    Ok(page)
}

/// Rows 1 to 6: s and the count of values.
pub fn parse_header(bytes: &[u8]) -> Result<(u8, usize), Refusal> {
    if bytes.len() < layout::HEADER {
        return refuse(Fault::FewBytes);
    }
    if bytes[0] != 1 {
        return refuse(Fault::Version);
    }
    if bytes[1] != 0 {
        return refuse(Fault::Mode);
    }
    if bytes[2] != 0 {
        return refuse(Fault::IntegerEncoding);
    }
    if !layout::is_vector_size(bytes[3]) {
        return refuse(Fault::VectorSize);
    }
    let count = number(&bytes[4..8]);
    if count > layout::MOST_VALUES as u64 {
        return refuse(Fault::TooManyValues);
    }
    Ok((bytes[3], count as usize))
}

/// Row 7 for the offsets: all of them, as they are stored.
pub fn parse_offsets(body: &[u8], vectors: usize) -> Result<Vec<usize>, Refusal> {
    let Some(table) = body.get(..layout::OFFSET * vectors) else {
        return refuse(Fault::OffsetsPastEnd);
    };
    Ok(table.chunks_exact(layout::OFFSET).map(|offset| number(offset) as usize).collect())
}

/// The parts of one vector, which lie inside the page.
pub struct Parts<'a> {
    pub v: usize,
    values: usize,
    exponent: u8,
    factor: u8,
    frame: i64,
    width: usize,
    packed: &'a [u8],
    list: &'a [u8],
    patterns: &'a [u8],
    /// Bytes of the whole vector.
    pub size: usize,
}

/// Row 7 for metadata, 9 to 12, 7 for data, of the vector that the rest of
/// the page starts with.
pub fn parse_parts(kind: Kind, rest: &[u8], values: usize, v: usize) -> Result<Parts<'_>, Refusal> {
    let data = layout::metadata(kind);
    if rest.len() < data {
        return refuse_in(Fault::MetadataPastEnd, v);
    }
    let (exponent, factor) = (rest[0], rest[1]);
    let listed = number(&rest[2..4]) as usize;
    let frame = kind.signed(number(&rest[4..4 + kind.size()]));
    let width = usize::from(rest[4 + kind.size()]);

    check_pair(kind, exponent, factor, v)?;
    if listed > values {
        return refuse_in(Fault::TooManyExceptions, v);
    }
    if width > kind.bits() {
        return refuse_in(Fault::WidthAbove, v);
    }
    let size = layout::vector_bytes(kind, values, width, listed);
    if rest.len() < size {
        return refuse_in(Fault::DataPastEnd, v);
    }

    let list = data + layout::packed_bytes(values, width);
    let patterns = list + layout::POSITION * listed;
    let (packed, list, patterns) =
        (&rest[data..list], &rest[list..patterns], &rest[patterns..size]);
    Ok(Parts { v, values, exponent, factor, frame, width, packed, list, patterns, size })
}

impl Parts<'_> {
    /// Rows 13 and 17, then the vector.
    pub fn vector(&self, sums: Sums, kind: Kind) -> Result<Vector, Refusal> {
        let positions = parse_positions(self.list, self.values, self.v)?;
        let mut vector = Vector { positions, ..self.unchecked(kind) };
        match sums(kind, &vector) {
            Ok(wholes) => vector.wholes = wholes,
            Err(position) => return refuse_at(Fault::SumLeavesRange, self.v, position),
        }
        Ok(vector)
    }

    /// The vector before rows 13 and 17, with no positions and whole numbers.
    pub fn unchecked(&self, kind: Kind) -> Vector {
        Vector {
            exponent: self.exponent,
            factor: self.factor,
            frame: self.frame,
            width: self.width,
            fields: layout::unpack(self.packed, self.values, self.width),
            unused_bit: layout::unused_bit_set(self.packed, self.values, self.width),
            positions: Vec::new(),
            exceptions: self.patterns.chunks_exact(kind.size()).map(number).collect(),
            wholes: Vec::new(),
        }
    }
}

/// Row 13: each position is below the count and above the one before.
fn parse_positions(list: &[u8], values: usize, v: usize) -> Result<Vec<usize>, Refusal> {
    let mut positions: Vec<usize> = Vec::new();
    for (index, entry) in list.chunks_exact(layout::POSITION).enumerate() {
        let position = number(entry) as usize;
        if position >= values {
            return refuse_at(Fault::PositionTooHigh, v, index);
        }
        if positions.last().is_some_and(|before| position <= *before) {
            return refuse_at(Fault::PositionNotRising, v, index);
        }
        positions.push(position);
    }
    Ok(positions)
}
