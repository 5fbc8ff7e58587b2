//! One vector by its number, in both kinds: it is its stretch of the column, every row that refuses it is met, faults elsewhere are not
//! seen, and the output keeps what the call does not write.
mod pages;

use pages::with;
use std::collections::BTreeSet;
use strahnuk::*;

fn refusal(row: Row, vector: u64, place: u64) -> Refusal {
    Refusal { row, vector, place }
}

/// The tests of one kind. The kinds differ in names, in the length of a vector's metadata and in the largest exponent.
macro_rules! vectors {
    ($kind:ident $bits:ident $float:ident $metadata:literal $exponent:literal:
     $write:ident $read:ident $read_vector:ident $read_vector_into:ident $read_vector_floats:ident) => {
        mod $kind {
            use super::*;

            const SIGN: $bits = 1 << ($bits::BITS - 1);
            const MARK: $bits = 0xA5;
            const HALVES: Pair = Pair { exponent: 1, factor: 0 };

            /// Halves, but positions 1 and 4 of every eight hold negative zeros, subnormals and NaNs, which are exceptions.
            fn column(length: usize) -> Vec<$bits> {
                let value = |i: usize| match i % 8 {
                    1 => SIGN | (i / 8) as $bits,
                    4 => $float::NAN.to_bits() ^ i as $bits,
                    _ => (i as $float / 2.0).to_bits(),
                };
                (0..length).map(value).collect()
            }

            /// 20 values in vectors of eight, so the last holds four. Byte 8 begins the offsets, byte 20 the first vector.
            fn page() -> Vec<u8> {
                $write(&column(20), 3, &[HALVES; 3]).unwrap()
            }

            fn start(page: &[u8], vector: usize) -> usize {
                8 + page[8 + 4 * vector] as usize
            }

            /// Where the list of positions begins in vector 1, which ends with two positions and two values.
            fn list(page: &[u8]) -> usize {
                start(page, 2) - 2 * (2 + $bits::BITS as usize / 8)
            }

            /// The page with vector 1's frame so far below the largest number; its fields are 0, 0, 10, 15, 0, 25, 30 and 35.
            fn below_most(page: &[u8], below: $bits) -> Vec<u8> {
                let frame = ($bits::MAX / 2 - below).to_le_bytes();
                let at = start(page, 1) + 4;
                [&page[..at], &frame, &page[at + frame.len()..]].concat()
            }

            fn expect_refused(page: &[u8], number: usize, room: usize, expected: Refusal) {
                let mut out = vec![MARK; room];
                assert_eq!($read_vector_into(page, number, &mut out), Err(expected));
                assert_eq!(out, vec![MARK; room], "{}: the output was changed", expected);
            }

            /// A page and a number for each row but 15, and the refusal.
            fn refused() -> Vec<(Vec<u8>, usize, Refusal)> {
                let page = page();
                let start = |vector| start(&page, vector);
                let swapped = with(&with(&page, list(&page), 4), list(&page) + 2, 1);
                vec![
                    (vec![], 0, refusal(Row::FewBytes, 0, 0)),
                    (page[..7].to_vec(), 1, refusal(Row::FewBytes, 0, 0)),
                    (with(&page, 0, 2), 1, refusal(Row::Version, 0, 0)),
                    (with(&page, 1, 1), 1, refusal(Row::Mode, 0, 0)),
                    (with(&page, 2, 1), 1, refusal(Row::IntegerEncoding, 0, 0)),
                    (with(&page, 3, 2), 1, refusal(Row::VectorSize, 0, 0)),
                    (with(&page, 3, 11), 1, refusal(Row::VectorSize, 0, 0)),
                    (with(&page, 6, 1), 1, refusal(Row::TooManyValues, 0, 0)),
                    (page.clone(), 3, refusal(Row::NoSuchVector, 0, 0)),
                    // The whole table of offsets has to be there, whichever is asked for.
                    (page[..19].to_vec(), 0, refusal(Row::PastEnd, 0, 0)),
                    (page[..19].to_vec(), 1, refusal(Row::PastEnd, 0, 0)),
                    // The table ends 12 bytes behind byte 8.
                    (with(&page, 12, 11), 1, refusal(Row::Offset, 1, 0)),
                    (with(&page, 8, 0), 0, refusal(Row::Offset, 0, 0)),
                    // A start past the end, by a little and by much, and one too few bytes of metadata.
                    (with(&page, 12, page.len() as u8 - 7), 1, refusal(Row::PastEnd, 1, 0)),
                    (with(&page, 15, 0xFF), 1, refusal(Row::PastEnd, 1, 0)),
                    (page[..start(2) + $metadata - 1].to_vec(), 2, refusal(Row::PastEnd, 2, 0)),
                    (with(&page, start(1), $exponent + 1), 1, refusal(Row::Exponent, 1, 0)),
                    (with(&page, start(1) + 1, 2), 1, refusal(Row::Factor, 1, 0)),
                    (with(&page, start(1) + 2, 9), 1, refusal(Row::TooManyExceptions, 1, 0)),
                    (with(&page, start(2) + 2, 5), 2, refusal(Row::TooManyExceptions, 2, 0)),
                    (
                        with(&page, start(1) + $metadata - 1, $bits::BITS as u8 + 1),
                        1,
                        refusal(Row::Width, 1, 0),
                    ),
                    (page[..page.len() - 1].to_vec(), 2, refusal(Row::PastEnd, 2, 0)),
                    // The end: the next offset one too far, one too near, and a byte behind the last vector.
                    (with(&page, 16, page[16] + 1), 1, refusal(Row::Offset, 1, 0)),
                    (with(&page, 16, page[16] - 1), 1, refusal(Row::Offset, 1, 0)),
                    ([&page[..], &[0]].concat(), 2, refusal(Row::Offset, 2, 0)),
                    (with(&page, list(&page), 8), 1, refusal(Row::Position, 1, 0)),
                    (swapped, 1, refusal(Row::Position, 1, 1)),
                    (below_most(&page, 0), 1, refusal(Row::SumOutOfRange, 1, 2)),
                    (below_most(&page, 34), 1, refusal(Row::SumOutOfRange, 1, 7)),
                ]
            }

            #[test]
            fn every_row_is_met_and_leaves_the_output() {
                let mut met = BTreeSet::new();
                for (page, number, expected) in refused() {
                    assert_eq!($read_vector(&page, number), Err(expected));
                    // With no room at all too: 15 is the last row.
                    for room in [0, 8, 100] {
                        expect_refused(&page, number, room, expected);
                    }
                    met.insert(expected.row.number());
                }
                for (number, count) in [(0, 8), (1, 8), (2, 4)] {
                    for room in 0..count {
                        expect_refused(&page(), number, room, refusal(Row::OutputTooShort, 0, 0));
                    }
                    met.insert(15);
                }
                let table: BTreeSet<u64> = (1..=13).chain([15, 17, 30]).collect();
                assert_eq!(met, table);
            }

            #[test]
            fn the_first_row_in_order_is_given() {
                let sound = page();
                let (at, list) = (start(&sound, 1), list(&sound));
                // Each fault is of one byte; the byte that it puts there, and the row. All at once, then mended in the rows' order.
                let faults = [
                    (0, 2, Row::Version),
                    (1, 1, Row::Mode),
                    (2, 1, Row::IntegerEncoding),
                    (3, 11, Row::VectorSize),
                    (6, 1, Row::TooManyValues),
                    (12, 11, Row::Offset),
                    (at, $exponent + 1, Row::Exponent),
                    (at + 1, $exponent + 2, Row::Factor),
                    (at + 2, 9, Row::TooManyExceptions),
                    (at + $metadata - 1, $bits::BITS as u8 + 1, Row::Width),
                    (16, sound[16] + 1, Row::Offset),
                    (list, 8, Row::Position),
                ];
                let mut page = below_most(&sound, 0);
                for (byte, fault, _) in faults {
                    page = with(&page, byte, fault);
                }
                for (byte, _, row) in faults {
                    assert_eq!($read_vector_into(&page, 1, &mut []).unwrap_err().row, row);
                    page[byte] = sound[byte];
                }
                expect_refused(&page, 1, 0, refusal(Row::SumOutOfRange, 1, 2));
                expect_refused(&below_most(&page, 35), 1, 0, refusal(Row::OutputTooShort, 0, 0));

                // What cuts a page short: 6, 30, then 7 for the offsets; 8 for the start, then 7 for the metadata.
                expect_refused(&with(&sound, 6, 1)[..8], 3, 0, refusal(Row::TooManyValues, 0, 0));
                expect_refused(&sound[..8], 3, 0, refusal(Row::NoSuchVector, 0, 0));
                expect_refused(&sound[..8], 1, 0, refusal(Row::PastEnd, 0, 0));
                expect_refused(&with(&sound, 12, 11)[..20], 1, 0, refusal(Row::Offset, 1, 0));
                expect_refused(&sound[..20], 1, 0, refusal(Row::PastEnd, 1, 0));
            }

            #[test]
            fn each_vector_is_its_stretch() {
                for s in 3..=10 {
                    let size = 1 << s;
                    for length in [1, size - 1, size, size + 1, 3 * size, MOST_VALUES] {
                        let column = column(length);
                        let pairs = vec![HALVES; (length + size - 1) / size];
                        let page = $write(&column, s, &pairs).unwrap();
                        for (number, stretch) in column.chunks(size).enumerate() {
                            assert_eq!($read_vector(&page, number).as_deref(), Ok(stretch));
                        }
                    }
                }
            }

            #[test]
            fn floats_go_by_their_bits() {
                let floats = $read_vector_floats(&page(), 1).unwrap();
                let bits: Vec<$bits> = floats.iter().map(|value| value.to_bits()).collect();
                assert_eq!(bits, column(20)[8..16]);
                let expected = refusal(Row::NoSuchVector, 0, 0);
                assert_eq!($read_vector_floats(&page(), 3).unwrap_err(), expected);
            }

            #[test]
            fn what_lies_behind_stays() {
                for (number, stretch) in column(20).chunks(8).enumerate() {
                    let count = stretch.len();
                    for more in [0, 1, 100] {
                        let mut out = vec![MARK; count + more];
                        assert_eq!($read_vector_into(&page(), number, &mut out), Ok(count));
                        assert_eq!(out[..count], *stretch);
                        assert_eq!(out[count..], vec![MARK; more]);
                    }
                }
            }

            #[test]
            fn no_number_wraps_around() {
                let expected = refusal(Row::NoSuchVector, 0, 0);
                let empty = $write(&[], 3, &[]).unwrap();
                // A number cut to fewer bits, or multiplied with a carry lost, would be one of the first three.
                for bit in 2..usize::BITS {
                    for low in 0..3 {
                        expect_refused(&page(), (1 << bit) | low, 8, expected);
                        expect_refused(&empty, (1 << bit) | low, 8, expected);
                    }
                }
                for number in [0, 1, 2, usize::MAX - 1, usize::MAX] {
                    expect_refused(&empty, number, 8, expected);
                }
                expect_refused(&page(), usize::MAX, 8, expected);
            }

            #[test]
            fn faults_elsewhere_are_not_seen() {
                let (column, page) = (column(20), page());
                let comes = |page: &[u8], numbers: &[usize]| {
                    for &number in numbers {
                        let stretch = column.chunks(8).nth(number).unwrap();
                        assert_eq!($read_vector(page, number).as_deref(), Ok(stretch));
                    }
                };
                let exponent = with(&page, start(&page, 1), $exponent + 1);
                assert_eq!($read(&exponent), Err(refusal(Row::Exponent, 1, 0)));
                comes(&exponent, &[0, 2]);

                // The first offset is of no concern to the vectors behind the first.
                let offset = with(&page, 8, 0);
                assert_eq!($read(&offset), Err(refusal(Row::Offset, 0, 0)));
                comes(&offset, &[1, 2]);

                let beyond = below_most(&page, 0);
                assert_eq!($read(&beyond), Err(refusal(Row::SumOutOfRange, 1, 2)));
                comes(&beyond, &[0, 2]);

                let longer = [&page[..], &[0]].concat();
                assert_eq!($read(&longer), Err(refusal(Row::BytesAfter, 0, 0)));
                comes(&longer, &[0, 1]);

                // A gap is the fault of the vector before it.
                let mut gap = with(&with(&page, 12, page[12] + 1), 16, page[16] + 1);
                gap.insert(start(&page, 1), 0xFF);
                assert_eq!($read(&gap), Err(refusal(Row::Offset, 1, 0)));
                expect_refused(&gap, 0, 8, refusal(Row::Offset, 0, 0));
                comes(&gap, &[1, 2]);
            }
        }
    };
}

vectors!(single u32 f32 9 10: write32 read32 read_vector32 read_vector_into32 read_vector_f32);
vectors!(double u64 f64 13 18: write64 read64 read_vector64 read_vector_into64 read_vector_f64);
