//! Counts, sizes and bit packing (document 01, "The page, byte by byte").

use crate::floats::Kind;

/// Bytes of the header.
pub const HEADER: usize = 8;
/// Bytes of an offset.
pub const OFFSET: usize = 4;
/// Bytes of an exception's position.
pub const POSITION: usize = 2;
/// The largest count of values in a page.
pub const MOST_VALUES: usize = 16_384;
/// The largest count of values in a vector: 2^10.
pub const MOST_IN_VECTOR: usize = 1_024;

/// Row 5's test.
pub fn is_vector_size(s: u8) -> bool {
    (3..=10).contains(&s)
}

/// The count of vectors: values divided by the vector size, rounded up.
pub fn vectors(count: usize, s: u8) -> usize {
    count.div_ceil(1 << s)
}

/// The count of values in one vector: full, but perhaps for the last.
pub fn values_in(vector: usize, count: usize, s: u8) -> usize {
    let size = 1 << s;
    let before = vector * size;
    size.min(count - before)
}

/// Metadata of a vector: exponent, factor, count of exceptions, frame, width.
pub fn metadata(kind: Kind) -> usize {
    1 + 1 + 2 + kind.size() + 1
}

/// Bytes of the packed fields.
pub fn packed_bytes(count: usize, width: usize) -> usize {
    (count * width).div_ceil(8)
}

/// Bytes of a whole vector.
pub fn vector_bytes(kind: Kind, count: usize, width: usize, exceptions: usize) -> usize {
    metadata(kind) + packed_bytes(count, width) + exceptions * (POSITION + kind.size())
}

/// Document 01's bound (004, section 9.3): no page of so many values is longer.
/// By T-03 it is that alone; what the writer asks for is the page's own size.
pub fn bound(kind: Kind, count: usize, vectors: usize) -> usize {
    HEADER + vectors * (OFFSET + metadata(kind)) + count * (2 * kind.size() + POSITION)
}

/// The smallest number of bits that holds a field.
pub fn width_of(field: u64) -> usize {
    64 - field.leading_zeros() as usize
}

/// Bit j of field i becomes bit (i x width + j) of the packed part. A field
/// has no bits above its 64th, should a forged width ask for them.
pub fn pack(fields: &[u64], width: usize) -> Vec<u8> {
    let mut packed = vec![0; packed_bytes(fields.len(), width)];
    for (i, field) in fields.iter().enumerate() {
        for j in 0..width.min(64) {
            let bit = i * width + j;
            packed[bit / 8] |= ((field >> j & 1) as u8) << (bit % 8);
        }
    }
    packed
}

/// The fields of a packed part, which is long enough for them.
pub fn unpack(packed: &[u8], count: usize, width: usize) -> Vec<u64> {
    let mut fields = vec![0; count];
    for (i, field) in fields.iter_mut().enumerate() {
        for j in 0..width {
            let bit = i * width + j;
            *field |= u64::from(packed[bit / 8] >> (bit % 8) & 1) << j;
        }
    }
    fields
}

/// Whether a bit after the last field is 1.
pub fn unused_bit_set(packed: &[u8], count: usize, width: usize) -> bool {
    (count * width..packed.len() * 8).any(|bit| packed[bit / 8] >> (bit % 8) & 1 == 1)
}

/// A number of up to 8 bytes, little-endian.
pub fn number(bytes: &[u8]) -> u64 {
    bytes.iter().rev().fold(0, |number, byte| number << 8 | u64::from(*byte))
}

/// Appends the lowest `size` bytes of a number, little-endian.
pub fn push_number(bytes: &mut Vec<u8>, number: u64, size: usize) {
    bytes.extend_from_slice(&number.to_le_bytes()[..size]);
}

#[cfg(test)]
mod tests {
    use super::*;

    #[test]
    fn the_last_vector_is_full_if_the_remainder_is_0() {
        assert_eq!((vectors(0, 3), vectors(8, 3), vectors(9, 3)), (0, 1, 2));
        assert_eq!(values_in(0, 8, 3), 8);
        assert_eq!(values_in(1, 9, 3), 1);
        assert_eq!(values_in(1, 16, 3), 8);
    }

    #[test]
    fn fields_are_packed_lowest_bit_first() {
        assert_eq!(pack(&[111, 444, 777, 0], 10), [0x6F, 0xF0, 0x96, 0x30, 0x00]);
        assert_eq!(unpack(&[0x6F, 0xF0, 0x96, 0x30, 0x00], 4, 10), [111, 444, 777, 0]);
        assert_eq!(unpack(&pack(&[u64::MAX, 0, 5], 64), 3, 64), [u64::MAX, 0, 5]);
    }

    #[test]
    fn widths() {
        assert_eq!([0, 1, 2, 3, 4, u64::MAX].map(width_of), [0, 1, 2, 2, 3, 64]);
    }
}
