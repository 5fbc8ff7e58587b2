//! Columns that lose bits elsewhere come back whole, in both kinds; and lent outputs keep what a call does not write.
use strahnuk::*;

/// The tests of one kind. The kinds differ in names and in where the exponent's bits stand.
macro_rules! columns {
    ($kind:ident $bits:ident $float:ident $infinity:literal:
     $measure:ident $write:ident $write_into:ident $read:ident $read_into:ident $examine:ident $write_floats:ident $read_floats:ident) => {
        mod $kind {
            use super::*;

            const SIGN: $bits = 1 << ($bits::BITS - 1);
            const INFINITY: $bits = $infinity;

            /// Zeros, subnormals, the edges of the normal values, infinities and NaNs with payloads, quiet and signalling, of both signs.
            fn specials() -> Vec<$bits> {
                let smallest_normal = $float::MIN_POSITIVE.to_bits();
                let positive = [
                    0,
                    1,
                    smallest_normal - 1,
                    smallest_normal,
                    (1.5 as $float).to_bits(),
                    INFINITY - 1,
                    INFINITY,
                    INFINITY + 1,
                    $float::NAN.to_bits() & !SIGN,
                    $float::NAN.to_bits() & !SIGN | 0x12345,
                    SIGN - 1,
                ];
                positive.iter().flat_map(|&value| [value, value | SIGN]).collect()
            }

            #[test]
            fn specials_come_back() {
                let column = specials();
                for s in 3..=10 {
                    let vectors = (column.len() + (1 << s) - 1) >> s;
                    let pairs = vec![Pair { exponent: 1, factor: 0 }; vectors];
                    let page = $write(&column, s, &pairs).unwrap();
                    assert_eq!($measure(&column, s, &pairs), Ok(page.len()));
                    assert_eq!($examine(&page), Ok(column.len()));
                    assert_eq!($read(&page).as_ref(), Ok(&column));
                }
            }

            #[test]
            fn floats_go_by_their_bits() {
                let column = specials();
                let floats: Vec<$float> =
                    column.iter().map(|&bits| $float::from_bits(bits)).collect();
                let pairs = [Pair { exponent: 1, factor: 1 }];
                let page = $write_floats(&floats, 10, &pairs).unwrap();
                assert_eq!($write(&column, 10, &pairs).as_ref(), Ok(&page));
                let back: Vec<$bits> =
                    $read_floats(&page).unwrap().iter().map(|value| value.to_bits()).collect();
                assert_eq!(back, column);
            }

            #[test]
            fn room_too_short_leaves_the_output() {
                let column = specials();
                let pairs = [Pair { exponent: 1, factor: 0 }];
                let needed = $measure(&column, 10, &pairs).unwrap();
                let short = Refusal { row: Row::OutputTooShort, vector: 0, place: 0 };
                for length in [0, 1, 8, needed - 1] {
                    let mut out = vec![0xA5; length];
                    assert_eq!($write_into(&column, 10, &pairs, &mut out), Err(short));
                    assert_eq!(out, vec![0xA5; length]);
                }
                let page = $write(&column, 10, &pairs).unwrap();
                for length in [0, 1, column.len() - 1] {
                    let mut out = vec![0xA5; length];
                    assert_eq!($read_into(&page, &mut out), Err(short));
                    assert_eq!(out, vec![0xA5; length]);
                }
            }

            #[test]
            fn what_lies_behind_stays() {
                let column = specials();
                let pairs = [Pair { exponent: 1, factor: 0 }];
                let page = $write(&column, 10, &pairs).unwrap();
                // The upper limit of such pages: to the writer it is room like any other.
                let word = $bits::BITS as usize / 8;
                let limit = 8 + 4 + (5 + word) + column.len() * (2 * word + 2);
                assert!(page.len() < limit);
                for length in [page.len(), page.len() + 1, limit - 1, limit, limit + 100] {
                    let mut out = vec![0xA5; length];
                    assert_eq!($write_into(&column, 10, &pairs, &mut out), Ok(page.len()));
                    assert_eq!(out[..page.len()], page);
                    assert!(out[page.len()..].iter().all(|&byte| byte == 0xA5));
                }
                let mut out = vec![0xA5; column.len() + 3];
                assert_eq!($read_into(&page, &mut out), Ok(column.len()));
                assert_eq!(out[..column.len()], column);
                assert_eq!(out[column.len()..], [0xA5; 3]);
            }

            #[test]
            fn empty_slices() {
                assert_eq!($measure(&[], 10, &[]), Ok(8));
                let header = [1, 0, 0, 10, 0, 0, 0, 0];
                assert_eq!($write(&[], 10, &[]).as_deref(), Ok(&header[..]));
                let short = Refusal { row: Row::OutputTooShort, vector: 0, place: 0 };
                assert_eq!($write_into(&[], 10, &[], &mut []), Err(short));
                assert_eq!($read_into(&header, &mut []), Ok(0));
                assert_eq!($read(&header), Ok(vec![]));
                let few = Refusal { row: Row::FewBytes, vector: 0, place: 0 };
                assert_eq!($read(&[]), Err(few));
                assert_eq!($read_into(&[], &mut []), Err(few));
                assert_eq!($examine(&[]), Err(few));
                let pairs = Refusal { row: Row::Pairs, vector: 0, place: 0 };
                assert_eq!($write(&[], 10, &[Pair::default()]), Err(pairs));
                assert_eq!($measure(&[0], 10, &[]), Err(pairs));
            }
        }
    };
}

columns!(single u32 f32 0x7F80_0000:
    measure32 write32 write_into32 read32 read_into32 examine32 write_f32 read_f32);
columns!(double u64 f64 0x7FF0_0000_0000_0000:
    measure64 write64 write_into64 read64 read_into64 examine64 write_f64 read_f64);
