//! Document 01's recordings, R1 to R17, through the wrapper; R8 and R9 as T-05 has them.
mod pages;

use pages::{with, R1, R11, R2, R5, R6};
use strahnuk::{
    examine32, examine64, read32, read64, read_vector32, read_vector64, write32, write64, Pair,
    Refusal, Row,
};

fn pair(exponent: u8, factor: u8) -> [Pair; 1] {
    [Pair { exponent, factor }]
}

fn bits(values: &[f32]) -> Vec<u32> {
    values.iter().map(|value| value.to_bits()).collect()
}

/// The column, at s 10 with one pair, gives the page, and the page gives the column, which is also its only vector.
fn round(column: &[u32], exponent: u8, page: &[u8]) {
    assert_eq!(write32(column, 10, &pair(exponent, 0)).as_deref(), Ok(page));
    assert_eq!(examine32(page), Ok(column.len()));
    assert_eq!(read32(page).as_deref(), Ok(column));
    assert_eq!(read_vector32(page, 0).as_deref(), Ok(column));
}

/// Reader and examiner refuse the page for the same row, in vector 0.
fn refused(page: &[u8], row: Row, place: u64) {
    let refusal = Refusal { row, vector: 0, place };
    assert_eq!(read32(page), Err(refusal));
    assert_eq!(examine32(page), Err(refusal));
}

#[test]
fn r1_to_r3_whole_pages() {
    round(&bits(&[1.23, 4.56, 7.89, 0.12]), 2, &R1);
    round(&[0x3FC0_0000, 0x7FC0_0000, 0x4020_0000, 0x3EAA_AAAB], 1, &R2);
    let r3 = [1, 0, 0, 10, 0, 0, 0, 0];
    assert_eq!(write32(&[], 10, &[]).as_deref(), Ok(&r3[..]));
    assert_eq!(examine32(&r3), Ok(0));
    assert_eq!(read32(&r3), Ok(vec![]));
}

#[test]
fn r4_negative_zero_is_an_exception() {
    let page = write32(&bits(&[-0.0]), 10, &pair(0, 0)).unwrap();
    assert_eq!(page.len(), 27);
    assert_eq!(page[12..], [0, 0, 1, 0, 0, 0, 0, 0, 0, 0, 0, 0, 0, 0, 0x80]);
    round(&bits(&[-0.0]), 0, &page);
}

#[test]
fn r5_and_r6_frame_and_width() {
    round(&bits(&[7.0, 7.0]), 0, &R5);
    round(&bits(&[-1.0, 1.0]), 0, &R6);
}

#[test]
fn r7_of_64_bits() {
    let page = write64(&[1.5_f64.to_bits()], 10, &pair(1, 0)).unwrap();
    assert_eq!(page.len(), 25);
    assert_eq!(page[12..], [1, 0, 0, 0, 15, 0, 0, 0, 0, 0, 0, 0, 0]);
    assert_eq!(examine64(&page), Ok(1));
    assert_eq!(read64(&page), Ok(vec![1.5_f64.to_bits()]));
    assert_eq!(read_vector64(&page, 0), Ok(vec![1.5_f64.to_bits()]));
}

#[test]
fn r8_and_r9_large_magnitudes() {
    for (value, exceptions) in [
        (4_194_305.0_f32, 1),
        (4_194_306.0, 0),
        (-4_194_305.0, 0),
        (2_147_483_520.0, 1),
        (-2_147_483_520.0, 0),
        (2_147_483_648.0, 1),
    ] {
        let page = write32(&bits(&[value]), 10, &pair(0, 0)).unwrap();
        assert_eq!(page[14], exceptions, "{}", value);
        let frame = if exceptions == 0 { value as i32 } else { 0 };
        assert_eq!(page[16..20], frame.to_le_bytes(), "{}", value);
        round(&bits(&[value]), 0, &page);
    }
}

#[test]
fn r8_of_before_t_05_reads_but_is_no_page() {
    let r8 = [1, 0, 0, 10, 1, 0, 0, 0, 4, 0, 0, 0, 0, 0, 0, 0, 1, 0, 0x40, 0, 0];
    assert_eq!(read32(&r8), Ok(bits(&[4_194_305.0])));
    assert_eq!(examine32(&r8), Err(Refusal { row: Row::Unlisted, vector: 0, place: 0 }));
}

#[test]
fn r10_and_r11_read_but_are_no_pages() {
    let r10 = with(&R6, 21, 0x18);
    assert_eq!(read32(&r10), Ok(bits(&[-1.0, 1.0])));
    assert_eq!(examine32(&r10), Err(Refusal { row: Row::UnusedBit, vector: 0, place: 0 }));
    assert_eq!(read32(&R11), Ok(bits(&[7.0, 7.0])));
    assert_eq!(examine32(&R11), Err(Refusal { row: Row::FrameOrWidth, vector: 0, place: 0 }));
}

#[test]
fn r12_to_r14_damaged_pages() {
    let mut r12 = with(&R2, 23, 3);
    r12[25] = 1;
    refused(&r12, Row::Position, 1);
    let r13 = [&R1[..], &[0]].concat();
    refused(&r13, Row::BytesAfter, 0);
    refused(&R1[..7], Row::FewBytes, 0);
}

#[test]
fn r15_vector_sizes() {
    for s in [2, 11] {
        refused(&with(&R5, 3, s), Row::VectorSize, 0);
        let refusal = Refusal { row: Row::VectorSize, vector: 0, place: 0 };
        assert_eq!(write32(&bits(&[7.0, 7.0]), s, &pair(0, 0)), Err(refusal));
    }
    assert_eq!(examine32(&with(&R5, 3, 3)), Ok(2));
    assert_eq!(examine32(&R5), Ok(2));
}

#[test]
fn r16_counts() {
    let header = |count: u32| [&[1, 0, 0, 10], &count.to_le_bytes()[..]].concat();
    refused(&header(16_385), Row::TooManyValues, 0);
    refused(&header(u32::MAX), Row::TooManyValues, 0);
    // 16,384 passes that row; then there are no offsets.
    refused(&header(16_384), Row::PastEnd, 0);

    let column = vec![1.5_f32.to_bits(); 16_385];
    let pairs = vec![Pair { exponent: 1, factor: 0 }; 17];
    let refusal = Refusal { row: Row::TooManyValues, vector: 0, place: 0 };
    assert_eq!(write32(&column, 10, &pairs), Err(refusal));
    let page = write32(&column[1..], 10, &pairs[1..]).unwrap();
    assert_eq!(read32(&page).as_deref(), Ok(&column[1..]));
}

#[test]
fn r17_exponent_and_factor() {
    refused(&with(&R6, 12, 11), Row::Exponent, 0);
    let mut page = with(&R6, 12, 1);
    page[13] = 2;
    refused(&page, Row::Factor, 0);
    for (settings, row) in [(pair(11, 0), Row::Exponent), (pair(1, 2), Row::Factor)] {
        assert_eq!(
            write32(&bits(&[-1.0, 1.0]), 10, &settings),
            Err(Refusal { row, vector: 0, place: 0 })
        );
    }
}
