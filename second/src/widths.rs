//! Pages at every width: fields that begin at every bit of a byte, in packed
//! parts that end at every byte of a word, with other bytes right behind; and of
//! these, pages with sums at the end of the kind's signed range (T-06).

use crate::floats::{Kind, KINDS};
use crate::layout::{self, pack, push_number};
use crate::random::Random;

/// The counts of values of these pages: every small one, and some around a
/// few words and around a whole vector.
const COUNTS: [usize; 24] =
    [1, 2, 3, 4, 5, 6, 7, 8, 9, 10, 11, 12, 13, 15, 16, 17, 31, 33, 63, 64, 65, 129, 1_023, 1_024];

/// Each kind, each of its widths from `first` on and each count, with random
/// numbers of its own.
pub fn at_widths(
    seed: u64,
    phase: u64,
    first: usize,
) -> impl Iterator<Item = (Kind, usize, usize, Random)> {
    let widths =
        KINDS.into_iter().flat_map(move |kind| (first..=kind.bits()).map(move |w| (kind, w)));
    widths.flat_map(move |(kind, width)| {
        COUNTS.into_iter().map(move |count| {
            let index = (kind.bits() * 100 + width) as u64 * 10_000 + count as u64;
            (kind, width, count, Random::of_case(seed, phase, index))
        })
    })
}

/// The bits of a whole number that the kind holds exactly, and the bits in
/// which fields that are wider differ from one another.
fn digits_and_window(kind: Kind) -> (usize, usize) {
    match kind {
        Kind::Single => (24, 12),
        Kind::Double => (53, 20),
    }
}

/// A number of so many bits, each of them random.
fn bits(count: usize, random: &mut Random) -> u64 {
    random.word().checked_shr(64 - count as u32).unwrap_or(0)
}

/// Fields of this width, and what the frame takes away from them. A field
/// that the kind does not hold exactly is a number common to all, plus a few
/// bits: in every second field its lowest, so that each bit of that field
/// shows in the value, and otherwise any, so that neighbours differ.
fn fields(kind: Kind, width: usize, count: usize, random: &mut Random) -> (u64, Vec<u64>) {
    let (digits, window) = digits_and_window(kind);
    if width <= digits {
        return (0, (0..count).map(|_| bits(width, random)).collect());
    }
    let common = bits(width - 1, random);
    let apart = |i: usize| {
        let shift = if i % 2 == 0 { 0 } else { random.between(0, width - 1 - window) };
        common + (bits(window, random) << shift)
    };
    (common, (0..count).map(apart).collect())
}

/// A page of one vector whose fields have this width.
pub fn page_at(kind: Kind, width: usize, count: usize, random: &mut Random) -> Vec<u8> {
    let (common, fields) = fields(kind, width, count, random);
    page_of(kind, common.wrapping_neg(), width, &fields, random)
}

/// A page in which frame plus field leaves the range at one position alone, by
/// one; and the same page with one less there, so that none does.
pub struct Beyond {
    pub position: usize,
    pub page: Vec<u8>,
    pub within: Vec<u8>,
}

/// Such a page of one vector whose fields have this width, from 1 up. Every
/// other sum is the largest of the range, or any below.
pub fn beyond_at(kind: Kind, width: usize, count: usize, random: &mut Random) -> Beyond {
    let position = match random.below(4) {
        0 => 0,
        1 => random.below(count),
        2 => count - 1 - random.below(count.min(9)),
        _ => count - 1,
    };
    let over = 1 << (width - 1) | bits(width - 1, random);
    let frame = i128::from(kind.most()) + 1 - i128::from(over);
    let other = |_| if random.one_in(2) { over - 1 } else { over - 1 - bits(width - 1, random) };
    let mut fields: Vec<u64> = (0..count).map(other).collect();
    fields[position] = over;
    let page = page_of(kind, frame as u64, width, &fields, random);
    fields[position] -= 1;
    Beyond { position, page, within: page_of(kind, frame as u64, width, &fields, random) }
}

/// A page of one vector. The last value is an exception of ones, so that bits
/// which are not the fields' follow the packed part; unused bits are 1 now and
/// then.
fn page_of(kind: Kind, frame: u64, width: usize, fields: &[u64], random: &mut Random) -> Vec<u8> {
    let count = fields.len();
    let mut packed = pack(fields, width);
    let used = count * width % 8;
    if used > 0 && random.one_in(4) {
        *packed.last_mut().expect("a byte that is used in part") |= 255 << used;
    }
    let mut page = vec![1, 0, 0, 10];
    push_number(&mut page, count as u64, 4);
    push_number(&mut page, layout::OFFSET as u64, layout::OFFSET);
    page.extend([0, 0]);
    push_number(&mut page, 1, 2);
    push_number(&mut page, frame, kind.size());
    page.push(width as u8);
    page.extend(packed);
    push_number(&mut page, count as u64 - 1, layout::POSITION);
    push_number(&mut page, kind.mask(), kind.size());
    page
}

#[cfg(test)]
mod tests {
    use super::*;
    use crate::answer::{refuse_at, Fault, Outcome, Refusal};
    use crate::read::read;

    #[test]
    fn every_bit_of_a_field_shows() {
        for kind in KINDS {
            for width in 1..=kind.bits() {
                let mut random = Random::of_case(9, width as u64, 0);
                let page = page_at(kind, width, 9, &mut random);
                let packed = layout::HEADER + layout::OFFSET + layout::metadata(kind);
                let first = first_value(kind, &page);
                assert!(first.is_ok());
                for bit in 0..width {
                    let mut changed = page.clone();
                    changed[packed + bit / 8] ^= 1 << (bit % 8);
                    assert_ne!(first_value(kind, &changed), first, "bit {bit} of {width}");
                }
            }
        }
    }

    /// The upmost bit of a field of width W may take the sum out of the range.
    fn first_value(kind: Kind, page: &[u8]) -> Result<u64, Refusal> {
        let mut values = vec![0; 9];
        read(kind, page, &mut values)?;
        Ok(values[0])
    }

    #[test]
    fn one_sum_is_beyond_the_range_or_none() {
        for kind in KINDS {
            for width in 1..=kind.bits() {
                for count in [1, 2, 9] {
                    let mut random = Random::of_case(9, width as u64, count as u64);
                    let made = beyond_at(kind, width, count, &mut random);
                    let read = |page: &[u8]| -> Outcome { read(kind, page, &mut vec![0; count]) };
                    let refused = refuse_at(Fault::SumLeavesRange, 0, made.position);
                    assert_eq!(read(&made.page), refused, "width {width}");
                    assert_eq!(read(&made.within), Ok(count), "width {width}");
                }
            }
        }
    }
}
