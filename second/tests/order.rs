//! The order in which refusals are named, where an input breaks several
//! rules, and the limits that lie close together.

use second::answer::{answer_of, Answer, Outcome};
use second::examine::examine;
use second::floats::Kind;
use second::read::read;
use second::read_vector::read_vector;
use second::write::{measure, write};

fn numbers(outcome: Outcome) -> (u64, u64, u64) {
    let Answer { number, vector, place } = answer_of(outcome);
    (number, vector, place)
}

#[test]
fn writer_names_settings_before_pairs_before_room() {
    let kind = Kind::Single;
    let many = vec![0; 16_385];
    let mut none: [u8; 0] = [];
    assert_eq!(numbers(write(kind, 2, &many, &[99], &mut none)), (5, 0, 0));
    assert_eq!(numbers(write(kind, 3, &many, &[99], &mut none)), (6, 0, 0));
    assert_eq!(numbers(write(kind, 3, &many[..9], &[99, 0], &mut none)), (16, 0, 0));
    assert_eq!(numbers(write(kind, 3, &many[..9], &[1, 2, 99, 0], &mut none)), (10, 0, 0));
    assert_eq!(numbers(write(kind, 3, &many[..9], &[1, 1, 99, 100], &mut none)), (9, 1, 0));
    assert_eq!(numbers(write(kind, 3, &many[..9], &[1, 1, 10, 10], &mut none)), (15, 0, 0));
}

/// The column is measured as `size` bytes and fits in that and in more, up to
/// past the bound; with a byte less, or with nothing, no byte is written.
fn check_size(kind: Kind, values: &[u64], size: usize, bound: usize) {
    let pairs = vec![0; 2 * values.len().div_ceil(8)];
    assert_eq!(numbers(measure(kind, 3, values, &pairs)), (0, 0, size as u64));
    for room in [0, 1, 8, size - 1, size, size + 1, bound - 1, bound, bound + 1] {
        let mut output = vec![0xA5; room];
        let answer = numbers(write(kind, 3, values, &pairs, &mut output));
        let written = if room < size { 0 } else { size };
        let wanted = if room < size { (15, 0, 0) } else { (0, 0, size as u64) };
        assert_eq!(answer, wanted, "room {room}");
        assert!(output[written..].iter().all(|byte| *byte == 0xA5), "room {room}");
    }
}

#[test]
fn writer_wants_the_page_to_the_byte() {
    for (kind, metadata, word) in [(Kind::Single, 9, 4), (Kind::Double, 13, 8)] {
        let head = 8 + 2 * (4 + metadata);
        let bound = head + 9 * (2 * word + 2);
        check_size(kind, &[0; 9], head, bound);
        // Whole numbers 0 to 5 in the first vector: 8 fields of 3 bits.
        let mut values: Vec<u64> = (0..9).map(|i| kind.nearest(f64::from(i % 6))).collect();
        check_size(kind, &values, head + 3, bound);
        // The stand-in, 0, makes no field wider; alone in its vector, the
        // exception leaves no bits to pack.
        values[7] = kind.sign();
        values[8] = kind.sign();
        check_size(kind, &values, head + 3 + 2 * (2 + word), bound);
        // Exceptions alone: the stand-ins are all 0, and nothing is packed.
        check_size(kind, &[kind.nearest(f64::INFINITY); 9], head + 9 * (2 + word), bound);
    }
}

#[test]
fn the_bound_is_not_reached() {
    // Six exceptions beside two numbers so far apart that each costs a whole
    // word, and only the two aren't listed. L itself would be, by T-05.
    for (kind, metadata, word, high) in
        [(Kind::Single, 9, 4, f64::powi(2.0, 30)), (Kind::Double, 13, 8, f64::powi(2.0, 62))]
    {
        let mut values = vec![kind.nearest(f64::INFINITY); 8];
        (values[2], values[5]) = (kind.nearest(high), kind.nearest(-kind.largest()));
        let bound = 8 + 4 + metadata + 8 * (2 * word + 2);
        check_size(kind, &values, bound - 2 * (2 + word), bound);
    }
}

/// Nine values 0 to 8 as singles, s 3, e 0, f 0: two vectors.
fn two_vectors() -> Vec<u8> {
    let values: Vec<u64> = (0..9).map(|i| u64::from((i as f32).to_bits())).collect();
    let mut page = vec![0; 200];
    let length = write(Kind::Single, 3, &values, &[0; 4], &mut page).expect("a sound column");
    page.truncate(length);
    page
}

#[test]
fn reader_looks_at_vectors_in_turn() {
    let page = two_vectors();
    let second = 8 + 8 + 9 + 3;
    assert_eq!(page.len(), second + 9);
    let read_as = |page: &[u8], room: usize| numbers(read(Kind::Single, page, &mut vec![0; room]));

    let mut forged = page.clone();
    forged[12] ^= 1; // the second offset
    forged[16] = 99; // the first exponent
    assert_eq!(read_as(&forged, 0), (9, 0, 0), "the first vector before the second offset");
    forged[16] = 0;
    assert_eq!(read_as(&forged, 0), (8, 1, 0));
    forged.truncate(second);
    assert_eq!(read_as(&forged, 0), (8, 1, 0), "the offset before its metadata");

    assert_eq!(read_as(&page[..15], 0), (7, 0, 0));
    assert_eq!(read_as(&page[..second - 1], 0), (7, 0, 0));
    assert_eq!(read_as(&page[..second + 8], 0), (7, 1, 0));
    let mut longer = page.clone();
    longer.push(0);
    assert_eq!(read_as(&longer, 0), (14, 0, 0), "bytes after before the output's length");
    assert_eq!(read_as(&page, 8), (15, 0, 0));
    assert_eq!(read_as(&page, 9), (0, 0, 9));
}

/// Eleven zeros as doubles, s 3, but for NaNs at 2, 6 and 10: two vectors, each
/// with a list of positions.
fn listed_vectors() -> Vec<u8> {
    let values: Vec<u64> = (0..11).map(|i| if i % 4 == 2 { u64::MAX } else { 0 }).collect();
    let mut page = vec![0; 400];
    let length = write(Kind::Double, 3, &values, &[0; 4], &mut page).expect("a sound column");
    page.truncate(length);
    page
}

fn alone(kind: Kind, page: &[u8], number: u64, room: usize) -> (u64, u64, u64) {
    let mut output = vec![9; room];
    let answer = numbers(read_vector(kind, page, number, &mut output));
    let written = if answer.0 == 0 { answer.2 as usize } else { 0 };
    assert!(output[written..].iter().all(|value| *value == 9), "the rest stays");
    answer
}

#[test]
fn one_vector_is_found_by_its_number_after_the_header_and_before_the_offsets() {
    let page = two_vectors();
    let ask = |page: &[u8], number| alone(Kind::Single, page, number, 0);
    assert_eq!(ask(&page[..7], u64::MAX), (1, 0, 0));
    for number in [2, 3, 1 << 32, (1 << 32) + 1, 1 << 63, u64::MAX] {
        assert_eq!(ask(&page[..15], number), (30, 0, 0), "number {number}");
    }
    assert_eq!(ask(&page[..15], 1), (7, 0, 0), "7 for the offsets gives no vector");
    assert_eq!(ask(&[1, 0, 0, 3, 0, 0, 0, 0], 0), (30, 0, 0), "an empty page has no vector 0");
}

#[test]
fn one_vector_is_read_whatever_the_others_are() {
    let page = two_vectors();
    let mut forged = page.clone();
    forged[16] = 99; // the first exponent
    assert_eq!(alone(Kind::Single, &forged, 0, 8), (9, 0, 0));
    assert_eq!(alone(Kind::Single, &forged, 1, 3), (0, 0, 1));
    forged.truncate(page.len() - 1);
    assert_eq!(alone(Kind::Single, &forged, 1, 3), (7, 1, 0));
    forged[16] = 0;
    assert_eq!(alone(Kind::Single, &forged, 0, 9), (0, 0, 8), "the second vector is cut");

    let mut gap = page.clone();
    gap.splice(16..16, [1, 2, 3]);
    gap[8] += 3;
    gap[12] += 3;
    assert_eq!(alone(Kind::Single, &gap, 0, 8), (0, 0, 8), "a gap before it");
    assert_eq!(alone(Kind::Single, &gap, 1, 1), (0, 0, 1));
}

#[test]
fn one_vector_starts_after_the_offsets_and_ends_where_they_say() {
    let page = two_vectors();
    let second = 8 + 9 + 3;
    let ask = |offset: u32, number| {
        let mut forged = page.clone();
        forged[12..16].copy_from_slice(&offset.to_le_bytes());
        alone(Kind::Single, &forged, number, 8)
    };
    assert_eq!((ask(second, 0), ask(second, 1)), ((0, 0, 8), (0, 0, 1)));
    assert_eq!((ask(second - 1, 0), ask(second + 1, 0)), ((8, 0, 0), (8, 0, 0)));
    assert_eq!((ask(7, 1), ask(0, 1)), ((8, 1, 0), (8, 1, 0)), "before the offsets' end");
    assert_eq!(ask(8, 1), (8, 1, 0), "the first vector's bytes, but not to the page's end");
    assert_eq!(ask(second + 1, 1), (7, 1, 0), "a byte of its metadata is missing");
    assert_eq!((ask(second + 9, 1), ask(u32::MAX, 1)), ((7, 1, 0), (7, 1, 0)), "past the end");

    let longer = [page.clone(), vec![0]].concat();
    assert_eq!(alone(Kind::Single, &longer, 1, 1), (8, 1, 0), "bytes after the last vector");
    assert_eq!(alone(Kind::Single, &longer, 0, 8), (0, 0, 8));
}

#[test]
fn one_vector_ends_rightly_before_its_positions_and_they_before_the_room() {
    let page = listed_vectors();
    let kind = Kind::Double;
    // Two vectors of 13 bytes, no packed ones; 2 and 1 exceptions.
    let (second, positions) = (16 + 13 + 2 * 10, 16 + 13 + 2 * 10 + 13);
    assert_eq!(page.len(), second + 13 + 10);
    let mut forged = page.clone();
    forged[positions] = 3;
    assert_eq!(alone(kind, &forged, 1, 0), (13, 1, 0));
    forged.push(0);
    assert_eq!(alone(kind, &forged, 1, 0), (8, 1, 0));
    forged[second + 2] = 4;
    assert_eq!(alone(kind, &forged, 1, 0), (11, 1, 0));
    forged[16 + 13 + 2] = 2;
    assert_eq!(alone(kind, &forged, 0, 0), (13, 0, 1), "the second of its list");
    assert_eq!((alone(kind, &page, 0, 7), alone(kind, &page, 1, 2)), ((15, 0, 0), (15, 0, 0)));
    assert_eq!((alone(kind, &page, 0, 8), alone(kind, &page, 1, 5)), ((0, 0, 8), (0, 0, 3)));
}

/// The two vectors with the first frame so far below 2^31 - 1: its fields are 0
/// to 7, so that the sum of the next position leaves the range.
fn two_vectors_below(most: i32) -> Vec<u8> {
    let mut page = two_vectors();
    page[20..24].copy_from_slice(&(i32::MAX - most).to_le_bytes());
    page
}

/// Reader, examiner and the reader of the vector say the same, whatever room is
/// lent: 17 comes before 15.
fn check_beyond(kind: Kind, page: &[u8], vector: u64, place: u64) {
    let wanted = (17, vector, place);
    for room in [0, 20] {
        let mut output = vec![9; room];
        assert_eq!(numbers(read(kind, page, &mut output)), wanted);
        assert!(output.iter().all(|value| *value == 9));
        assert_eq!(alone(kind, page, vector, room), wanted);
    }
    assert_eq!(numbers(examine(kind, page)), wanted);
}

#[test]
fn the_first_sum_that_leaves_the_range_is_named() {
    for (below, place) in [(0, 1), (1, 2), (2, 3), (6, 7)] {
        check_beyond(Kind::Single, &two_vectors_below(below), 0, place);
    }
    let page = two_vectors_below(7);
    assert_eq!(numbers(read(Kind::Single, &page, &mut [0; 9])), (0, 0, 9), "2^31 - 1");
    assert_eq!(alone(Kind::Single, &page, 0, 8), (0, 0, 8));
    assert_eq!(alone(Kind::Single, &two_vectors_below(0), 1, 1), (0, 0, 1), "not its fault");
}

#[test]
fn sums_go_before_the_next_vector_and_behind_all_else_of_their_own() {
    let kind = Kind::Single;
    let page = two_vectors_below(2);
    let forged = |changes: &[(usize, u8)]| {
        let mut forged = page.clone();
        changes.iter().for_each(|(at, byte)| forged[*at] = *byte);
        forged
    };
    let read_as = |page: &[u8]| numbers(read(kind, page, &mut [0; 9]));
    let second = 8 + 8 + 9 + 3;
    check_beyond(kind, &forged(&[(second, 99)]), 0, 3);
    assert_eq!(read_as(&forged(&[(12, 0)])), (17, 0, 3), "before the next offset");
    assert_eq!(alone(kind, &forged(&[(12, 0)]), 0, 8), (8, 0, 0), "its end goes before");
    let longer = [&page[..], &[0]].concat();
    check_beyond(kind, &longer, 0, 3);
    for (at, byte, row) in [(16, 99, 9), (17, 1, 10), (18, 9, 11), (24, 33, 12), (24, 32, 7)] {
        assert_eq!(read_as(&forged(&[(at, byte)])), (row, 0, 0));
        assert_eq!(alone(kind, &forged(&[(at, byte)]), 0, 8), (row, 0, 0));
    }
}

/// Three values at s 3, frame 2^31 - 1 and fields 0, 1, 0: the second is listed.
const LISTED: [u8; 28] = [
    1, 0, 0, 3, 3, 0, 0, 0, 4, 0, 0, 0, 0, 0, 1, 0, 255, 255, 255, 127, 1, 2, 1, 0, 0, 0, 192, 127,
];

#[test]
fn a_listed_position_counts_and_its_list_goes_before() {
    check_beyond(Kind::Single, &LISTED, 0, 1);
    let mut forged = LISTED;
    forged[22] = 3;
    assert_eq!(numbers(read(Kind::Single, &forged, &mut [0; 3])), (13, 0, 0));
    assert_eq!(numbers(examine(Kind::Single, &forged)), (13, 0, 0));
    assert_eq!(alone(Kind::Single, &forged, 0, 3), (13, 0, 0));
    let mut forged = LISTED;
    forged[16] = 254;
    assert_eq!(numbers(read(Kind::Single, &forged, &mut [0; 3])), (0, 0, 3));
}

#[test]
fn a_frame_below_0_leaves_more_room() {
    // Frame -1 with fields 2^63 and 2^63 + 1; then the smallest frame with the
    // largest fields.
    let head = [1, 0, 0, 3, 2, 0, 0, 0, 4, 0, 0, 0, 0, 0, 0, 0];
    let page = |frame: i64, fields: [u64; 2]| {
        let fields = fields.map(u64::to_le_bytes).concat();
        [&head[..], &frame.to_le_bytes(), &[64], &fields].concat()
    };
    check_beyond(Kind::Double, &page(-1, [1 << 63, (1 << 63) + 1]), 0, 1);
    check_beyond(Kind::Double, &page(i64::MIN + 1, [u64::MAX, 0]), 0, 0);
    let whole = page(i64::MIN, [u64::MAX; 2]);
    let mut values = [0; 2];
    assert_eq!(numbers(read(Kind::Double, &whole, &mut values)), (0, 0, 2));
    assert_eq!(values, [f64::powi(2.0, 63).to_bits(); 2]);
}

#[test]
fn examiner_names_the_first_vector_then_the_lowest_row() {
    let page = two_vectors();
    let second = 8 + 8 + 9 + 3;
    let mut forged = page.clone();
    forged[second + 4..second + 8].copy_from_slice(&0x0100_0001u32.to_le_bytes());
    assert_eq!(numbers(examine(Kind::Single, &forged)), (21, 1, 0), "2^24 + 1 turns into 2^24");
    forged[16 + 4] = 1; // the first frame: 1 to 8 are still whole numbers
    assert_eq!(numbers(examine(Kind::Single, &forged)), (21, 1, 0));
    forged[16 + 9] |= 1; // the first field is no 0 any more: the frame isn't the smallest
    assert_eq!(numbers(examine(Kind::Single, &forged)), (24, 0, 0));
}
