//! The serving side over bytes in memory: sound requests, requests that
//! break the shape, and an input that ends.

use second::floats::Kind;
use second::frames::{serve, Request};

/// All that the serving side says to an input.
fn said(input: &[u8]) -> Vec<u8> {
    let mut output = Vec::new();
    serve(&mut &input[..], &mut output).expect("memory doesn't fail");
    output
}

fn numbers(number: u64, vector: u64, place: u64) -> Vec<u8> {
    [number, vector, place].map(u64::to_le_bytes).concat()
}

/// 7.0, 7.0 as singles: a page of 21 bytes into 41.
fn write_request() -> Request {
    Request::Write {
        kind: Kind::Single,
        s: 10,
        values: vec![0x40E0_0000, 0x40E0_0000],
        pairs: vec![0, 0],
        output: vec![0xA5; 41],
    }
}

const PAGE: [u8; 21] = [1, 0, 0, 10, 2, 0, 0, 0, 4, 0, 0, 0, 0, 0, 0, 0, 7, 0, 0, 0, 0];

#[test]
fn a_request_has_the_documented_bytes() {
    let wanted = [
        &[2, 32, 10, 0, 2, 0, 0, 0, 2, 0, 0, 0, 41, 0, 0, 0][..],
        &[0, 0, 0xE0, 0x40, 0, 0, 0xE0, 0x40],
        &[0, 0],
        &[0xA5; 41],
    ];
    assert_eq!(write_request().to_bytes(), wanted.concat());
}

#[test]
fn an_answer_carries_the_whole_output() {
    let wanted = [&numbers(0, 0, 21)[..], &PAGE, &[0xA5; 20]].concat();
    assert_eq!(said(&write_request().to_bytes()), wanted);

    let read = Request::Read { kind: Kind::Single, page: PAGE.to_vec(), output: vec![9, 9, 9] };
    let examine = Request::Examine { kind: Kind::Single, page: PAGE[..20].to_vec() };
    let input = [read.to_bytes(), examine.to_bytes()].concat();
    let values = [0, 0, 0xE0, 0x40, 0, 0, 0xE0, 0x40, 9, 0, 0, 0];
    assert_eq!(said(&input), [&numbers(0, 0, 2)[..], &values, &numbers(7, 0, 0)].concat());
}

#[test]
fn measuring_answers_the_length_of_the_page() {
    let (values, pairs) = (vec![0x40E0_0000, 0x40E0_0000], vec![0, 0]);
    let measure = Request::Measure { kind: Kind::Single, s: 10, values, pairs };
    assert_eq!(said(&measure.to_bytes()), numbers(0, 0, 21));
}

#[test]
fn a_refusal_carries_the_output_as_it_came() {
    let read = Request::Read { kind: Kind::Single, page: PAGE.to_vec(), output: vec![9] };
    assert_eq!(said(&read.to_bytes()), [&numbers(15, 0, 0)[..], &[9, 0, 0, 0]].concat());
    let mut write = write_request();
    if let Request::Write { output, .. } = &mut write {
        output.truncate(20);
    }
    assert_eq!(said(&write.to_bytes()), [&numbers(15, 0, 0)[..], &[0xA5; 20]].concat());
}

#[test]
fn a_vectors_number_has_8_bytes_and_may_be_any() {
    let ask = |number| {
        let page = PAGE.to_vec();
        Request::ReadVector { kind: Kind::Single, page, number, output: vec![9, 9, 9] }.to_bytes()
    };
    let good = ask(0);
    let wanted = [
        &[5, 32, 21, 0, 21, 0, 0, 0, 8, 0, 0, 0, 3, 0, 0, 0][..],
        &PAGE,
        &[0; 8],
        &[9, 0, 0, 0, 9, 0, 0, 0, 9, 0, 0, 0],
    ];
    assert_eq!(good, wanted.concat());
    let values = [0, 0, 0xE0, 0x40, 0, 0, 0xE0, 0x40, 9, 0, 0, 0];
    assert_eq!(said(&good), [&numbers(0, 0, 2)[..], &values].concat());
    for number in [1, 1 << 32, u64::MAX] {
        let left = [9, 0, 0, 0, 9, 0, 0, 0, 9, 0, 0, 0];
        assert_eq!(said(&ask(number)), [&numbers(30, 0, 0)[..], &left].concat());
    }
    for length in [0, 7, 9] {
        let mut bad = good.clone();
        bad[8] = length;
        assert_eq!(said(&bad), numbers(255, 0, 0), "a number of {length} bytes");
    }
}

#[test]
fn choosing_answers_the_pair() {
    let choose = |values| Request::Choose { kind: Kind::Double, values }.to_bytes();
    // 1.5 is 15 tenths; an empty vector is refused, with the pair 0, 0.
    let good = choose(vec![0x3FF8_0000_0000_0000]);
    let wanted =
        [&[6, 64, 1, 0, 1, 0, 0, 0, 0, 0, 0, 0, 0, 0, 0, 0, 0, 0, 0, 0, 0, 0][..], &[0xF8, 0x3F]];
    assert_eq!(good, wanted.concat());
    let input = [good.clone(), choose(vec![])].concat();
    let wanted = [&numbers(0, 0, 1)[..], &[1, 0], &numbers(31, 0, 0), &[0, 0]];
    assert_eq!(said(&input), wanted.concat());
    for at in [8, 12] {
        let mut bad = good.clone();
        bad[at] = 1;
        bad.push(0);
        assert_eq!(said(&bad), numbers(255, 0, 0), "a length at byte {at}");
    }
}

#[test]
fn what_breaks_the_shape_gets_255_and_ends() {
    let good = write_request().to_bytes();
    let no = numbers(255, 0, 0);
    for (at, byte) in [(0, 0), (0, 7), (1, 31), (3, 1), (6, 1), (9, 255), (14, 255)] {
        let mut bad = good.clone();
        bad[at] = byte;
        bad.extend(&good);
        assert_eq!(said(&bad), no, "byte {at} as {byte}");
    }
    for keep in 1..good.len() {
        assert_eq!(said(&good[..keep]), no, "cut to {keep} bytes");
    }
    assert_eq!(said(&[]), []);
}
