//! Pairs that are chosen, in both kinds: no other pair gives a shorter page, the first of several is taken, and what is written with them comes
//! back; too few and too many values are refused.
use strahnuk::*;

/// The tests of one kind. The kinds differ in names and in the largest exponent.
macro_rules! choices {
    ($kind:ident $bits:ident $float:ident $exponent:literal $count:literal:
     $measure:ident $write:ident $read:ident $examine:ident $choose:ident $choose_pairs:ident $choose_pairs_floats:ident) => {
        mod $kind {
            use super::*;

            const SIGN: $bits = 1 << ($bits::BITS - 1);

            /// All pairs, exponent rising, then factor rising.
            fn all_pairs() -> Vec<Pair> {
                let of = |exponent| (0..=exponent).map(move |factor| Pair { exponent, factor });
                (0..=$exponent).flat_map(of).collect()
            }

            /// Decimals of so many digits, with whole numbers, a negative zero and a NaN among them.
            fn column(length: usize, digits: i32) -> Vec<$bits> {
                let value = |i: usize| match i % 11 {
                    3 => (i as $float).to_bits(),
                    5 if i % 2 == 0 => SIGN,
                    8 if i % 3 == 0 => $float::NAN.to_bits() ^ i as $bits,
                    _ => (((i * 37 % 1_000) as $float) / (10 as $float).powi(digits)).to_bits(),
                };
                (0..length).map(value).collect()
            }

            /// The full search by what the writer itself measures: the page of one vector with each pair.
            fn searched(vector: &[$bits]) -> Pair {
                let length = |pair: &Pair| $measure(vector, 10, &[*pair]).unwrap();
                let pairs = all_pairs();
                assert_eq!(pairs.len(), $count);
                // Of several that are least, `min_by_key` gives the first.
                pairs.into_iter().min_by_key(length).unwrap()
            }

            #[test]
            fn no_pair_gives_a_shorter_page() {
                for digits in 0..5 {
                    for length in [1, 2, 7, 8, 9, 63, 64, 200] {
                        let vector = column(length, digits);
                        assert_eq!($choose(&vector), Ok(searched(&vector)));
                    }
                }
                let full = column(MOST_IN_VECTOR, 2);
                assert_eq!($choose(&full), Ok(searched(&full)));
            }

            #[test]
            fn the_first_of_several_is_chosen() {
                // Every pair gives zeros the same page, and exceptions alone too.
                assert_eq!($choose(&[0; 9]), Ok(Pair::default()));
                assert_eq!($choose(&[SIGN; 9]), Ok(Pair::default()));
                // 3.0, with 30 tenths and 300 hundredths as good.
                assert_eq!($choose(&[(3.0 as $float).to_bits()]), Ok(Pair::default()));
            }

            #[test]
            fn what_is_no_vector_is_refused() {
                let expected = Err(Refusal { row: Row::NotOneVector, vector: 0, place: 0 });
                let values = column(2 * MOST_IN_VECTOR, 1);
                for length in [0, MOST_IN_VECTOR + 1, 2 * MOST_IN_VECTOR] {
                    assert_eq!($choose(&values[..length]), expected);
                }
                for length in [1, MOST_IN_VECTOR] {
                    assert!($choose(&values[..length]).is_ok());
                }
            }

            #[test]
            fn columns_come_back_through_their_pairs() {
                for s in 3..=10 {
                    let size = 1_usize << s;
                    for length in [0, 1, size - 1, size, size + 1, 3 * size] {
                        let column = column(length, 2);
                        let pairs = $choose_pairs(&column, s).unwrap();
                        let each: Vec<Pair> =
                            column.chunks(size).map(|vector| $choose(vector).unwrap()).collect();
                        assert_eq!(pairs, each);
                        let page = $write(&column, s, &pairs).unwrap();
                        assert_eq!($read(&page).as_ref(), Ok(&column));
                        assert_eq!($examine(&page), Ok(length));
                        for other in all_pairs() {
                            let others = vec![other; pairs.len()];
                            assert!(page.len() <= $measure(&column, s, &others).unwrap());
                        }
                    }
                }
            }

            #[test]
            fn columns_are_refused_as_the_writer_would() {
                let refused = |row| Err(Refusal { row, vector: 0, place: 0 });
                let long = vec![0; MOST_VALUES + 1];
                for s in [0, 2, 11, 63, 64, 255] {
                    assert_eq!($choose_pairs(&[], s), refused(Row::VectorSize));
                    assert_eq!($choose_pairs(&long, s), refused(Row::VectorSize));
                }
                assert_eq!($choose_pairs(&long, 3), refused(Row::TooManyValues));
                let most = $choose_pairs(&long[1..], 10).unwrap();
                assert_eq!(most, vec![Pair::default(); 16]);
            }

            #[test]
            fn floats_go_by_their_bits() {
                let column = column(20, 3);
                let floats: Vec<$float> =
                    column.iter().map(|&bits| $float::from_bits(bits)).collect();
                assert_eq!($choose_pairs_floats(&floats, 3), $choose_pairs(&column, 3));
            }
        }
    };
}

choices!(single u32 f32 10 66:
    measure32 write32 read32 examine32 choose32 choose_pairs32 choose_pairs_f32);
choices!(double u64 f64 18 190:
    measure64 write64 read64 examine64 choose64 choose_pairs64 choose_pairs_f64);
