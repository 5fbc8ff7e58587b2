//! Document 01's recordings R1 to R17, with all their bytes and answers; R8 and
//! R9 as document 02's T-05 has them.

use second::answer::{answer_of, Answer, Outcome};
use second::examine::examine;
use second::floats::Kind;
use second::read::read;
use second::write::{measure, write};

/// The filling of a lent output, to see what was left alone.
const LEFT: u8 = 0xA5;
const LEFT_VALUE: u64 = 0xA5A5_A5A5;

/// Bytes from hexadecimal; blanks and slashes are for the reader's eye.
fn bytes(text: &str) -> Vec<u8> {
    let digits: Vec<u32> = text.chars().filter_map(|c| c.to_digit(16)).collect();
    digits.chunks_exact(2).map(|pair| (pair[0] * 16 + pair[1]) as u8).collect()
}

fn singles(values: &[f32]) -> Vec<u64> {
    values.iter().map(|value| u64::from(value.to_bits())).collect()
}

fn numbers(outcome: Outcome) -> (u64, u64, u64) {
    let Answer { number, vector, place } = answer_of(outcome);
    (number, vector, place)
}

/// Writes into the very room measured and into a little more: the page, and
/// nothing of the rest is touched. Into a byte less nothing is written.
fn written(kind: Kind, s: u8, values: &[u64], pairs: &[u8]) -> Vec<u8> {
    let size = measure(kind, s, values, pairs).expect("sound settings");
    let mut short = vec![LEFT; size - 1];
    assert_eq!(numbers(write(kind, s, values, pairs, &mut short)), (15, 0, 0));
    assert!(short.iter().all(|byte| *byte == LEFT));
    let mut page = vec![LEFT; size];
    assert_eq!(write(kind, s, values, pairs, &mut page), Ok(size));
    let mut longer = vec![LEFT; size + 7];
    assert_eq!(write(kind, s, values, pairs, &mut longer), Ok(size));
    assert_eq!(longer, [&page[..], &[LEFT; 7]].concat());
    page
}

/// A page that is written, read back and examined as done.
fn check_page(kind: Kind, values: &[u64], pair: [u8; 2], page: &str) {
    let pairs: &[u8] = if values.is_empty() { &[] } else { &pair };
    let page = bytes(page);
    assert_eq!(written(kind, 10, values, pairs), page);
    check_read(kind, &page, values);
    assert_eq!(numbers(examine(kind, &page)), (0, 0, values.len() as u64));
}

/// A page reads as the values, and leaves the rest of the output.
fn check_read(kind: Kind, page: &[u8], values: &[u64]) {
    let mut output = vec![LEFT_VALUE; values.len() + 3];
    assert_eq!(numbers(read(kind, page, &mut output)), (0, 0, values.len() as u64));
    assert_eq!(&output[..values.len()], values);
    assert!(output[values.len()..].iter().all(|value| *value == LEFT_VALUE));
}

/// Reader and examiner give the same refusal, and nothing is written.
fn check_refused(page: &[u8], answer: (u64, u64, u64)) {
    let mut output = vec![LEFT_VALUE; 20_000];
    assert_eq!(numbers(read(Kind::Single, page, &mut output)), answer);
    assert!(output.iter().all(|value| *value == LEFT_VALUE));
    assert_eq!(numbers(examine(Kind::Single, page)), answer);
}

const R1: &str = "01 00 00 0A 04 00 00 00 / 04 00 00 00 / 02 00 00 00 / 0C 00 00 00 0A / \
                  6F F0 96 30 00";
const R2: &str = "01 00 00 0A 04 00 00 00 / 04 00 00 00 / 01 00 02 00 / 0F 00 00 00 04 / \
                  00 0A / 01 00 03 00 / 00 00 C0 7F AB AA AA 3E";
const R5: &str = "01 00 00 0A 02 00 00 00 / 04 00 00 00 / 00 00 00 00 / 07 00 00 00 00";
const R6: &str = "01 00 00 0A 02 00 00 00 / 04 00 00 00 / 00 00 00 00 / FF FF FF FF 02 / 08";

#[test]
fn r1_decimals() {
    let values = singles(&[1.23, 4.56, 7.89, 0.12]);
    check_page(Kind::Single, &values, [2, 0], R1);
    assert_eq!(bytes(R1).len(), 26);
}

#[test]
fn r2_with_exceptions() {
    let values = [0x3FC0_0000, 0x7FC0_0000, 0x4020_0000, 0x3EAA_AAAB];
    check_page(Kind::Single, &values, [1, 0], R2);
    assert_eq!(bytes(R2).len(), 35);
}

#[test]
fn r3_no_values() {
    check_page(Kind::Single, &[], [0, 0], "01 00 00 0A 00 00 00 00");
}

#[test]
fn r4_negative_zero() {
    let page = "01 00 00 0A 01 00 00 00 / 04 00 00 00 / 00 00 01 00 / 00 00 00 00 00 / \
                00 00 / 00 00 00 80";
    check_page(Kind::Single, &singles(&[-0.0]), [0, 0], page);
    assert_eq!(bytes(page).len(), 27);
}

#[test]
fn r5_constant() {
    check_page(Kind::Single, &singles(&[7.0, 7.0]), [0, 0], R5);
    assert_eq!(bytes(R5).len(), 21);
}

#[test]
fn r6_negative_frame() {
    check_page(Kind::Single, &singles(&[-1.0, 1.0]), [0, 0], R6);
    assert_eq!(bytes(R6).len(), 22);
}

#[test]
fn r7_double() {
    let page = "01 00 00 0A 01 00 00 00 / 04 00 00 00 / 01 00 00 00 / \
                0F 00 00 00 00 00 00 00 00";
    check_page(Kind::Double, &[1.5f64.to_bits()], [1, 0], page);
    assert_eq!(bytes(page).len(), 25);
}

#[test]
fn r8_above_2_to_22() {
    let page = "01 00 00 0A 01 00 00 00 / 04 00 00 00 / 00 00 01 00 / 00 00 00 00 00 / \
                00 00 / 02 00 80 4A";
    check_page(Kind::Single, &singles(&[4_194_305.0]), [0, 0], page);
    // The page of before T-05: frame 4,194,305, which now becomes another.
    let page = bytes("01 00 00 0A 01 00 00 00 / 04 00 00 00 / 00 00 00 00 / 01 00 40 00 00");
    check_read(Kind::Single, &page, &singles(&[4_194_305.0]));
    assert_eq!(numbers(examine(Kind::Single, &page)), (21, 0, 0));
}

#[test]
fn r9_around_the_largest() {
    let page = "01 00 00 0A 01 00 00 00 / 04 00 00 00 / 00 00 00 00 / 80 00 00 80 00";
    check_page(Kind::Single, &singles(&[-2_147_483_520.0]), [0, 0], page);
    for (value, bits) in [(2_147_483_520.0, "FF FF FF 4E"), (2_147_483_648.0, "00 00 00 4F")] {
        let page = "01 00 00 0A 01 00 00 00 / 04 00 00 00 / 00 00 01 00 / 00 00 00 00 00 / 00 00";
        check_page(Kind::Single, &singles(&[value]), [0, 0], &format!("{page} / {bits}"));
    }
}

#[test]
fn r10_unused_bit() {
    let mut page = bytes(R6);
    page[21] = 0x18;
    check_read(Kind::Single, &page, &singles(&[-1.0, 1.0]));
    assert_eq!(numbers(examine(Kind::Single, &page)), (20, 0, 0));
}

#[test]
fn r11_frame_not_smallest() {
    let page = bytes("01 00 00 0A 02 00 00 00 / 04 00 00 00 / 00 00 00 00 / 06 00 00 00 01 / 03");
    check_read(Kind::Single, &page, &singles(&[7.0, 7.0]));
    assert_eq!(numbers(examine(Kind::Single, &page)), (24, 0, 0));
}

#[test]
fn r12_positions_descending() {
    let mut page = bytes(R2);
    page[23..27].copy_from_slice(&[3, 0, 1, 0]);
    check_refused(&page, (13, 0, 1));
}

#[test]
fn r13_one_byte_more() {
    let mut page = bytes(R1);
    page.push(0);
    check_refused(&page, (14, 0, 0));
}

#[test]
fn r14_seven_bytes() {
    check_refused(&bytes(R1)[..7], (1, 0, 0));
    check_refused(&[], (1, 0, 0));
}

#[test]
fn r15_vector_size() {
    let values = singles(&[7.0, 7.0]);
    for s in [2, 11] {
        let mut page = bytes(R5);
        page[3] = s;
        check_refused(&page, (5, 0, 0));
        let mut output = vec![LEFT; 100];
        assert_eq!(numbers(write(Kind::Single, s, &values, &[0, 0], &mut output)), (5, 0, 0));
        assert!(output.iter().all(|byte| *byte == LEFT));
        assert_eq!(numbers(measure(Kind::Single, s, &values, &[0, 0])), (5, 0, 0));
    }
    for s in [3, 10] {
        let mut page = bytes(R5);
        page[3] = s;
        assert_eq!(written(Kind::Single, s, &values, &[0, 0]), page);
        check_read(Kind::Single, &page, &values);
        assert_eq!(numbers(examine(Kind::Single, &page)), (0, 0, 2));
    }
}

#[test]
fn r16_count_of_values() {
    let mut page = bytes("01 00 00 0A 01 40 00 00");
    check_refused(&page, (6, 0, 0));
    // 16,384 passes row 6; then the offsets are missing.
    page[4] = 0;
    check_refused(&page, (7, 0, 0));

    let pairs = vec![0; 2 * 16];
    assert_eq!(numbers(measure(Kind::Single, 10, &[0; 16_385], &[0; 34])), (6, 0, 0));
    let values = vec![0; 16_384];
    let size = 8 + 16 * 13;
    assert_eq!(numbers(measure(Kind::Single, 10, &values, &pairs)), (0, 0, size));
    let page = written(Kind::Single, 10, &values, &pairs);
    check_read(Kind::Single, &page, &values);
    assert_eq!(numbers(examine(Kind::Single, &page)), (0, 0, 16_384));
}

#[test]
fn r17_pairs() {
    for (exponent, factor, row) in [(11, 0, 9), (1, 2, 10)] {
        let mut page = bytes(R6);
        page[12] = exponent;
        page[13] = factor;
        check_refused(&page, (row, 0, 0));
        let pairs = [exponent, factor];
        let values = singles(&[-1.0, 1.0]);
        let mut output = vec![LEFT; 100];
        assert_eq!(numbers(write(Kind::Single, 10, &values, &pairs, &mut output)), (row, 0, 0));
        assert!(output.iter().all(|byte| *byte == LEFT));
        assert_eq!(numbers(measure(Kind::Single, 10, &values, &pairs)), (row, 0, 0));
    }
}
