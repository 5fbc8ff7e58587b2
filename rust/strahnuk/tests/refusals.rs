//! Every row of the table, met by a call, and what it prints.
mod pages;

use pages::{with, R1, R11, R2, R5, R6};
use std::collections::BTreeSet;
use std::error::Error;
use strahnuk::*;

/// 24 values in three vectors, exponent 0: byte 16 begins the third offset, byte 20 the first vector, and each takes 9 bytes.
fn three_vectors() -> Vec<u8> {
    let page = write32(&[7.0_f32.to_bits(); 24], 3, &[Pair::default(); 3]).unwrap();
    assert_eq!(page.len(), 47);
    page
}

/// One listed value, at position 0, with exponent 0 and these bits; frame 0, width 0.
fn one_listed(bits: u32) -> Vec<u8> {
    let mut page = write32(&[(-0.0_f32).to_bits()], 10, &[Pair::default()]).unwrap();
    page.splice(23.., bits.to_le_bytes());
    page
}

/// One page for each row that the examiner gives, and what the refusal prints. Row 7 has two, since its vector may be 0.
fn examined() -> Vec<(Vec<u8>, &'static str)> {
    let mut r12 = with(&R2, 23, 3);
    r12[25] = 1;
    let mut factor = with(&R6, 12, 1);
    factor[13] = 2;
    vec![
        (R1[..7].to_vec(), "1 0 0: fewer than 8 bytes"),
        (with(&R1, 0, 2), "2 0 0: the version is not 1"),
        (with(&R1, 1, 1), "3 0 0: the mode is not 0"),
        (with(&R1, 2, 1), "4 0 0: the integer encoding is not 0"),
        (with(&R1, 3, 2), "5 0 0: s is below 3 or above 10"),
        (with(&R1, 6, 1), "6 0 0: more than 16,384 values"),
        (R1[..11].to_vec(), "7 0 0: the offsets, a vector's metadata or its data run past the end"),
        (three_vectors()[..46].to_vec(), "7 2 0: vector 2: the offsets, a vector's metadata or its data run past the end"),
        (with(&three_vectors(), 16, 31), "8 2 0: vector 2: an offset differs from the layout's"),
        (with(&three_vectors(), 29, 11), "9 1 0: vector 1: the exponent is above the kind's largest"),
        (factor, "10 0 0: vector 0: the factor is above the exponent"),
        (with(&three_vectors(), 22, 9), "11 0 0: vector 0: more exceptions than values in the vector"),
        (with(&R6, 20, 33), "12 0 0: vector 0: the width is above the kind's"),
        (r12, "13 0 1: vector 0, list index 1: a position is not below the vector's count, or not above the one before"),
        ([&R1[..], &[0]].concat(), "14 0 0: bytes after the last vector"),
        (
            // Frame 2^31 - 1 with fields 0 and 2.
            [&R6[..16], &[0xFF, 0xFF, 0xFF, 0x7F, 2, 8]].concat(),
            "17 0 1: vector 0, position 1: frame plus field leaves the kind's signed range",
        ),
        (with(&R6, 21, 0x18), "20 0 0: vector 0: an unused packed bit is 1"),
        (
            // 2^31 - 1 comes back as 2^31, which is above the largest scaled magnitude.
            [&R5[..16], &[0xFF, 0xFF, 0xFF, 0x7F, 0]].concat(),
            "21 0 0: vector 0, position 0: an unlisted whole number comes back as a value that is an exception, or that turns into another \
             whole number",
        ),
        (one_listed(1.0_f32.to_bits()), "22 0 0: vector 0, position 0: a listed value is no exception"),
        (with(&R2, 21, 0x10), "23 0 1: vector 0, position 1: a listed position does not hold the stand-in"),
        (R11.to_vec(), "24 0 0: vector 0: the frame is not the smallest, or the width is not the fewest bits"),
    ]
}

/// The numbers of all rows.
fn table() -> BTreeSet<u64> {
    (1..=17).chain(20..=24).chain([30, 31]).collect()
}

#[test]
fn every_row_is_met_and_prints() {
    let mut met = BTreeSet::new();
    let mut seen = |refusal: Refusal, text: &str| {
        assert_eq!(refusal.to_string(), text);
        met.insert(refusal.row.number());
    };
    for (page, text) in examined() {
        let refusal = examine32(&page).unwrap_err();
        seen(refusal, text);
        // The reader refuses for the same reason up to 17, and reads what only the examiner refuses.
        if refusal.row.number() <= 17 {
            assert_eq!(read32(&page), Err(refusal));
        } else {
            assert!(read32(&page).is_ok());
        }
    }
    seen(read_into32(&R5, &mut [0]).unwrap_err(), "15 0 0: the lent output is too short");
    seen(write32(&[0], 10, &[]).unwrap_err(), "16 0 0: the pairs are not one per vector");
    seen(read_vector32(&R5, 1).unwrap_err(), "30 0 0: there is no vector of that number");
    seen(choose32(&[]).unwrap_err(), "31 0 0: no values, or more than 1,024");
    assert_eq!(met, table());
}

#[test]
fn numbers_and_rows_agree() {
    for number in 0..100 {
        let expected = table().get(&number).copied();
        assert_eq!(Row::from_number(number).map(Row::number), expected);
    }
}

#[test]
fn the_first_row_in_order_is_given() {
    // Everything is wrong at once: the earliest row in the call's order decides.
    let column = vec![0_u64; 16_385];
    let row = |result: Result<usize, Refusal>| result.unwrap_err().row;
    let bad = [Pair { exponent: 19, factor: 20 }];
    assert_eq!(row(write_into64(&column, 11, &bad, &mut [])), Row::VectorSize);
    assert_eq!(row(write_into64(&column, 10, &bad, &mut [])), Row::TooManyValues);
    assert_eq!(row(write_into64(&column[..1025], 10, &bad, &mut [])), Row::Pairs);
    assert_eq!(row(write_into64(&column[..1024], 10, &bad, &mut [])), Row::Exponent);
    let bad = [Pair { exponent: 18, factor: 19 }];
    assert_eq!(row(write_into64(&column[..1024], 10, &bad, &mut [])), Row::Factor);
    let good = [Pair { exponent: 18, factor: 18 }];
    assert_eq!(row(write_into64(&column[..1024], 10, &good, &mut [])), Row::OutputTooShort);
}

#[test]
fn a_refusal_is_an_error() {
    fn first_value(page: &[u8]) -> Result<u32, Box<dyn Error + Send + Sync>> {
        Ok(read32(page)?[0])
    }
    assert_eq!(first_value(&R5).unwrap(), 7.0_f32.to_bits());
    assert_eq!(first_value(&[]).unwrap_err().to_string(), "1 0 0: fewer than 8 bytes");
}

#[test]
fn hostile_counts_size_nothing() {
    // Each is refused by the archive, whatever its count claims.
    for count in [0, 1, 16_384, 16_385, u32::MAX] {
        let page = [&[1, 0, 0, 3][..], &count.to_le_bytes(), &[0]].concat();
        let expected = match count {
            0 => Row::BytesAfter,
            1..=16_384 => Row::PastEnd,
            _ => Row::TooManyValues,
        };
        assert_eq!(read64(&page).unwrap_err().row, expected);
        assert_eq!(examine64(&page).unwrap_err().row, expected);
        let expected = if count == 0 { Row::NoSuchVector } else { expected };
        assert_eq!(read_vector64(&page, 0).unwrap_err().row, expected);
    }
}
