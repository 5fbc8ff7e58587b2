//! The pages that docs/OLDER-PAGES.md shows as bytes: they are by the older
//! rules, hold what stands there, and get the answers that stand there.

use second::answer::{answer_of, Answer, Outcome};
use second::examine::{examine, examine_by};
use second::floats::Kind;
use second::older::{page, told, Fate};
use second::read::{read, read_by};
use second::read_vector::read_vector;
use second::sums::MODULO;

const TEXT: &str = include_str!("../../docs/OLDER-PAGES.md");

/// The bytes that stand behind a page's name.
fn shown(name: &str) -> Vec<u8> {
    let line = TEXT.lines().find_map(|line| line.strip_prefix(&format!("    {name}.page = ")));
    let bytes = line.unwrap_or_else(|| panic!("{name}.page isn't shown")).split(' ');
    bytes.map(|byte| u8::from_str_radix(byte, 16).expect("a byte")).collect()
}

/// The page of these values is the one shown, reads back, has this fate, and
/// the examiner's numbers stand behind the command.
fn check(name: &str, values: &[f32], exponent: u8, fate: Fate) {
    let (kind, pair) = (Kind::Single, [exponent, 0]);
    let values: Vec<u64> = values.iter().map(|value| value.to_bits().into()).collect();
    let older = shown(name);
    assert_eq!(page(kind, 10, &values, &pair), older, "{name}");

    let mut back = vec![0; values.len()];
    assert_eq!(read(kind, &older, &mut back), Ok(values.len()), "{name}");
    assert_eq!(back, values, "{name}");

    let (met, outcome) = told(kind, 10, &values, &pair);
    assert_eq!((met, examine(kind, &older)), (fate, outcome), "{name}");
    said(&format!("examine 32 {name}.page"), outcome);
}

/// The answer's numbers stand behind the command.
fn said(command: &str, outcome: Outcome) {
    let said = format!("    $ ./alp {command}\n    {}: ", numbers(outcome));
    assert!(TEXT.contains(&said), "{said}");
}

fn numbers(outcome: Outcome) -> String {
    let Answer { number, vector, place } = answer_of(outcome);
    format!("{number} {vector} {place}")
}

#[test]
fn pages_are_as_shown() {
    check("kept", &[4_194_306.0, -8_388_607.0], 0, Fate::Kept);
    check("exception", &[4_194_305.0], 0, Fate::NowException);
    check("another", &[1_048_576.875], 1, Fate::NowAnother);
    check("listed", &[83_886.234_375], 2, Fate::NowWhole);
}

/// The page was read as these values and got that row from the examiner, and
/// now every call that reads it says the same: what stands behind the commands.
fn check_sums(name: &str, column: &str, values: [f32; 2], shown_as: &str, row: &str) {
    let (kind, page) = (Kind::Single, shown(name));
    let mut back = [0; 2];
    assert_eq!(read_by(MODULO, kind, &page, &mut back), Ok(2), "{name}");
    assert_eq!(back, values.map(|value| u64::from(value.to_bits())), "{name}");
    assert_eq!(numbers(examine_by(MODULO, kind, &page)), row, "{name}");

    let outcome = examine(kind, &page);
    assert_eq!(read(kind, &page, &mut back), outcome, "{name}");
    assert_eq!(read_vector(kind, &page, 0, &mut back), outcome, "{name}");
    said(&format!("examine 32 {name}.page"), outcome);
    said(&format!("read 32 {name}.page {column}"), outcome);
    let before = format!("It read as {shown_as}, and the examiner said `{row}`.");
    assert!(TEXT.replace('\n', " ").contains(&before), "{name}: {before}");
}

#[test]
fn sums_are_as_shown() {
    let (prices, texts) = ([21_474_836.0, -21_474_836.0], "21,474,836.0 and -21,474,836.0");
    check_sums("negative", "prices", prices, texts, "21 0 0");
    check_sums("around", "sevens", [7.0, 7.0], "7.0 and 7.0", "24 0 0");
}

#[test]
fn no_other_page_is_shown() {
    assert_eq!(TEXT.lines().filter(|line| line.contains(".page = ")).count(), 6);
}
