//! Row 17 in both kinds: frame plus field leaves the kind's signed range, at a listed position or another, and what the row comes before and
//! behind. Pages are made here byte by byte, since no writer gives such a page.
use strahnuk::*;

/// The tests of one kind. The kinds differ in names and widths.
macro_rules! sums {
    ($kind:ident $bits:ident $signed:ident $float:ident:
     $write:ident $read:ident $read_into:ident $read_vector_into:ident $examine:ident) => {
        mod $kind {
            use super::*;

            const W: u8 = $bits::BITS as u8;
            const MARK: $bits = 0xA5;

            /// Whole vectors of eight values at s 3: frame and width of each, and its packed bytes.
            fn page(vectors: &[($signed, u8, Vec<u8>)]) -> Vec<u8> {
                let mut page = vec![1, 0, 0, 3, 8 * vectors.len() as u8, 0, 0, 0];
                let mut offset = 4 * vectors.len() as u32;
                for (_, _, packed) in vectors {
                    page.extend(offset.to_le_bytes());
                    offset += 5 + u32::from(W) / 8 + packed.len() as u32;
                }
                for (frame, width, packed) in vectors {
                    page.extend([0; 4]);
                    page.extend(frame.to_le_bytes());
                    page.push(*width);
                    page.extend(packed);
                }
                page
            }

            /// All calls that read say so, with room and without, and leave the output.
            fn refused(page: &[u8], vector: u64, place: u64) {
                let expected = Refusal { row: Row::SumOutOfRange, vector, place };
                for room in [0, 40] {
                    let mut out = vec![MARK; room];
                    assert_eq!($read_into(page, &mut out), Err(expected));
                    assert_eq!($read_vector_into(page, vector as usize, &mut out), Err(expected));
                    assert_eq!(out, vec![MARK; room], "the output was changed");
                }
                assert_eq!($examine(page), Err(expected));
            }

            #[test]
            fn the_first_position_is_named() {
                // One bit a field: the packed byte says which sums are one above the frame.
                for place in 0..8 {
                    for later in [0, 0x80] {
                        let packed = vec![1 << place | later];
                        refused(&page(&[($signed::MAX, 1, packed.clone())]), 0, place);
                        let second = page(&[(0, 0, vec![]), ($signed::MAX, 1, packed)]);
                        refused(&second, 1, place);
                    }
                }
            }

            #[test]
            fn the_largest_sum_is_read() {
                let most = vec![($signed::MAX as $float).to_bits(); 8];
                let words = |word: $bits| [word.to_le_bytes(); 8].concat();
                for (frame, width, packed) in [
                    ($signed::MAX, 0, vec![]),
                    ($signed::MAX - 1, 1, vec![0xFF]),
                    (-1, W, words($bits::MAX / 2 + 1)),
                    ($signed::MIN, W, words($bits::MAX)),
                ] {
                    assert_eq!($read(&page(&[(frame, width, packed)])).as_ref(), Ok(&most));
                }
                refused(&page(&[(-1, W, words($bits::MAX / 2 + 2))]), 0, 0);
                refused(&page(&[($signed::MIN + 1, W, words($bits::MAX))]), 0, 0);
            }

            #[test]
            fn a_listed_position_counts() {
                // A zero and a NaN, which is listed. Then the frame is the largest, and the fields are 0 and 1.
                let sound = $write(&[0, $bits::MAX], 3, &[Pair::default()]).unwrap();
                let listed = &sound[16 + usize::from(W) / 8 + 1..];
                let frame = $signed::MAX.to_le_bytes();
                let mut page = [&sound[..16], &frame, &[1, 2], listed].concat();
                refused(&page, 0, 1);
                // Row 13, for its position in the list, goes before.
                let list = page.len() - listed.len();
                page[list] = 2;
                let expected = Refusal { row: Row::Position, vector: 0, place: 0 };
                assert_eq!($examine(&page), Err(expected));
                assert_eq!($read(&page), Err(expected));
            }

            #[test]
            fn a_later_fault_is_not_seen_and_an_earlier_one_is() {
                let vectors = [($signed::MAX, 1, vec![0x10]), (0, 0, vec![])];
                let beyond = page(&vectors);
                let second = beyond.len() - 5 - usize::from(W) / 8;
                for (at, byte) in [(second, 99), (second + 2, 9)] {
                    let mut later = beyond.clone();
                    later[at] = byte;
                    refused(&later, 0, 4);
                }
                refused(&[&beyond[..], &[0]].concat(), 0, 4);
                let mut earlier = beyond.clone();
                earlier[16] = 99;
                let expected = Refusal { row: Row::Exponent, vector: 0, place: 0 };
                assert_eq!($read(&earlier), Err(expected));
            }
        }
    };
}

sums!(single u32 i32 f32: write32 read32 read_into32 read_vector_into32 examine32);
sums!(double u64 i64 f64: write64 read64 read_into64 read_vector_into64 examine64);
