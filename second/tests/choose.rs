//! Choices worked out by hand from document 01's sizes and T-04's order.

use second::answer::{answer_of, Answer};
use second::choices::{sights, Sight};
use second::choose::{choose, pairs, trials};
use second::floats::{Kind, KINDS};
use second::write::measure;

fn singles(values: &[f32]) -> Vec<u64> {
    values.iter().map(|value| u64::from(value.to_bits())).collect()
}

fn doubles(values: &[f64]) -> Vec<u64> {
    values.iter().map(|value| value.to_bits()).collect()
}

/// The pair is chosen, and the vector has so many bytes with it: the page has
/// the header and one offset more.
fn check(kind: Kind, values: &[u64], exponent: usize, factor: usize, bytes: usize) {
    let pair = choose(kind, values).expect("a vector of 1 to 1,024 values");
    assert_eq!((pair.exponent, pair.factor), (exponent, factor));
    let pair = [exponent as u8, factor as u8];
    assert_eq!(measure(kind, 10, values, &pair), Ok(8 + 4 + bytes));
}

#[test]
fn pairs_rise_by_exponent_and_then_by_factor() {
    for (kind, count, most) in [(Kind::Single, 66, 10), (Kind::Double, 190, 18)] {
        let pairs: Vec<(usize, usize)> =
            pairs(kind).iter().map(|pair| (pair.exponent, pair.factor)).collect();
        assert_eq!(pairs.len(), count);
        assert_eq!(pairs[..6], [(0, 0), (1, 0), (1, 1), (2, 0), (2, 1), (2, 2)]);
        assert_eq!(pairs[count - 1], (most, most));
        assert!(pairs.windows(2).all(|two| two[0] < two[1]));
    }
}

#[test]
fn recordings_of_document_01() {
    // R1: four fields of 10 bits. R2: two of four values are exceptions.
    check(Kind::Single, &singles(&[1.23, 4.56, 7.89, 0.12]), 2, 0, 9 + 5);
    let r2 = [0x3FC0_0000, 0x7FC0_0000, 0x4020_0000, 0x3EAA_AAAB];
    check(Kind::Single, &r2, 1, 0, 9 + 2 + 2 * 6);
    // R5, R6 and R7: no bits, two fields of two, and 15 tenths.
    check(Kind::Single, &singles(&[7.0, 7.0]), 0, 0, 9);
    check(Kind::Single, &singles(&[-1.0, 1.0]), 0, 0, 9 + 1);
    check(Kind::Double, &doubles(&[1.5]), 1, 0, 13);
}

/// Small whole numbers and one half. As whole numbers they take 3 bits each,
/// and the half is an exception of 10 bytes; as tenths they take 7.
fn wholes_and_a_half(count: u8) -> Vec<u64> {
    let mut values: Vec<f64> = (0..count).map(|i| f64::from(i % 8)).collect();
    values[usize::from(count) - 1] = 0.5;
    doubles(&values)
}

#[test]
fn an_exception_costs_its_position_too() {
    // 7 and 10 bytes against 16: without the position it would be 7 and 8.
    check(Kind::Double, &wholes_and_a_half(18), 1, 0, 13 + 16);
    assert!(sights(Kind::Double, &wholes_and_a_half(18)).contains(&Sight::NoPositions));
    // 8 and 10 bytes against 18: the first of the two is chosen.
    check(Kind::Double, &wholes_and_a_half(20), 0, 0, 13 + 8 + 10);
    assert!(sights(Kind::Double, &wholes_and_a_half(20)).contains(&Sight::Tie));
    // 9 and 10 bytes against 20.
    check(Kind::Double, &wholes_and_a_half(22), 0, 0, 13 + 9 + 10);
    assert!(sights(Kind::Double, &wholes_and_a_half(22)).contains(&Sight::SomeExceptions));
}

#[test]
fn the_lower_exponent_goes_before_the_lower_factor() {
    let values = doubles(&[389_237_732_168.358]);
    check(Kind::Double, &values, 6, 1, 13);
    let both = [(6, 1), (7, 0)];
    for trial in trials(Kind::Double, &values) {
        let pair = (trial.pair.exponent, trial.pair.factor);
        assert!(!both.contains(&pair) || trial.exceptions == 0);
        assert!(pair >= (6, 1) || trial.exceptions == 1);
    }
    assert!(sights(Kind::Double, &values).contains(&Sight::FactorFirst));
}

#[test]
fn exceptions_alone_have_the_first_pair() {
    for kind in KINDS {
        let infinity = kind.nearest(f64::INFINITY);
        let values = [infinity, kind.sign(), infinity | 1, infinity | kind.sign()];
        let metadata = 5 + kind.size();
        check(kind, &values, 0, 0, metadata + 4 * (2 + kind.size()));
        assert!(sights(kind, &values).contains(&Sight::AllExceptions));
    }
}

#[test]
fn an_empty_vector_and_one_too_long_are_refused() {
    let refused = Answer { number: 31, vector: 0, place: 0 };
    for kind in KINDS {
        for count in [0, 1_025, 16_384] {
            let answer = answer_of(choose(kind, &vec![0; count]).map(|_| count));
            assert_eq!(answer, refused, "{count} values");
        }
        for count in [1, 1_024] {
            assert!(choose(kind, &vec![0; count]).is_ok(), "{count} values");
        }
    }
}
