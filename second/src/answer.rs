//! What a call says: done with a count, or a refusal with its row.
//!
//! Document 01, "When a call says no", and document 02's T-01, T-04 and T-06. A
//! row that names several reasons is split here, so that each reason is counted
//! and none goes untried.

/// The six calls. Measuring is the writer's first step, offered by itself;
/// reading one vector by its number is document 02's T-01, choosing a vector's
/// pair its T-04.
#[derive(Clone, Copy, PartialEq, Eq, Debug)]
pub enum Call {
    Measure,
    Write,
    Read,
    Examine,
    ReadVector,
    Choose,
}

pub const CALLS: [Call; 6] =
    [Call::Measure, Call::Write, Call::Read, Call::Examine, Call::ReadVector, Call::Choose];

impl Call {
    pub fn name(self) -> &'static str {
        match self {
            Call::Measure => "measure",
            Call::Write => "write",
            Call::Read => "read",
            Call::Examine => "examine",
            Call::ReadVector => "vector",
            Call::Choose => "choose",
        }
    }
}

/// Why a call refuses.
#[derive(Clone, Copy, PartialEq, Eq, Debug)]
pub enum Fault {
    FewBytes,
    Version,
    Mode,
    IntegerEncoding,
    VectorSize,
    TooManyValues,
    OffsetsPastEnd,
    MetadataPastEnd,
    DataPastEnd,
    WrongOffset,
    StartsTooEarly,
    EndsElsewhere,
    ExponentAbove,
    FactorAbove,
    TooManyExceptions,
    WidthAbove,
    PositionTooHigh,
    PositionNotRising,
    BytesAfter,
    OutputTooShort,
    PairsPerVector,
    SumLeavesRange,
    UnusedBit,
    BackAsException,
    BackAsAnother,
    ListedNoException,
    NotTheStandIn,
    FrameNotSmallest,
    WidthNotFewest,
    NoSuchVector,
    EmptyVector,
    VectorTooLong,
}

/// One line of the table: the row, who gives it, and in which words.
pub struct Line {
    pub fault: Fault,
    pub row: u64,
    pub text: &'static str,
    pub given_by: &'static [Call],
    /// Whether the answer carries the vector's number.
    pub of_vector: bool,
}

const ON_PAGES: &[Call] =
    &[Call::Measure, Call::Write, Call::Read, Call::Examine, Call::ReadVector];
const PAGE: &[Call] = &[Call::Read, Call::Examine, Call::ReadVector];
const WHOLE_PAGE: &[Call] = &[Call::Read, Call::Examine];
const ONE_VECTOR: &[Call] = &[Call::ReadVector];
const WRITING: &[Call] = &[Call::Measure, Call::Write];
const OUTPUT: &[Call] = &[Call::Write, Call::Read, Call::ReadVector];
const EXAMINER: &[Call] = &[Call::Examine];
const CHOOSER: &[Call] = &[Call::Choose];

const fn line(
    fault: Fault,
    row: u64,
    text: &'static str,
    given_by: &'static [Call],
    of_vector: bool,
) -> Line {
    Line { fault, row, text, given_by, of_vector }
}

/// Document 01's table, with the rows of T-01, T-04 and T-06. "All" there is
/// what writes or reads a page, and counts the measuring step as the writer's.
pub const TABLE: [Line; 32] = [
    line(Fault::FewBytes, 1, "fewer than 8 bytes", PAGE, false),
    line(Fault::Version, 2, "version not 1", PAGE, false),
    line(Fault::Mode, 3, "mode not 0", PAGE, false),
    line(Fault::IntegerEncoding, 4, "integer encoding not 0", PAGE, false),
    line(Fault::VectorSize, 5, "s below 3 or above 10", ON_PAGES, false),
    line(Fault::TooManyValues, 6, "more than 16,384 values", ON_PAGES, false),
    line(Fault::OffsetsPastEnd, 7, "offsets run past the end", PAGE, false),
    line(Fault::MetadataPastEnd, 7, "metadata runs past the end", PAGE, true),
    line(Fault::DataPastEnd, 7, "data runs past the end", PAGE, true),
    line(Fault::WrongOffset, 8, "an offset differs", WHOLE_PAGE, true),
    line(Fault::StartsTooEarly, 8, "starts before the offsets' end", ONE_VECTOR, true),
    line(Fault::EndsElsewhere, 8, "doesn't end where offsets say", ONE_VECTOR, true),
    line(Fault::ExponentAbove, 9, "exponent above E", ON_PAGES, true),
    line(Fault::FactorAbove, 10, "factor above exponent", ON_PAGES, true),
    line(Fault::TooManyExceptions, 11, "more exceptions than values", PAGE, true),
    line(Fault::WidthAbove, 12, "width above W", PAGE, true),
    line(Fault::PositionTooHigh, 13, "a position not below the count", PAGE, true),
    line(Fault::PositionNotRising, 13, "a position not above the last", PAGE, true),
    line(Fault::BytesAfter, 14, "bytes after the last vector", WHOLE_PAGE, false),
    line(Fault::OutputTooShort, 15, "lent output too short", OUTPUT, false),
    line(Fault::PairsPerVector, 16, "pairs not one per vector", WRITING, false),
    line(Fault::SumLeavesRange, 17, "a sum leaves the signed range", PAGE, true),
    line(Fault::UnusedBit, 20, "an unused packed bit is 1", EXAMINER, true),
    line(Fault::BackAsException, 21, "comes back as an exception", EXAMINER, true),
    line(Fault::BackAsAnother, 21, "turns into another whole number", EXAMINER, true),
    line(Fault::ListedNoException, 22, "a listed value is no exception", EXAMINER, true),
    line(Fault::NotTheStandIn, 23, "doesn't hold the stand-in", EXAMINER, true),
    line(Fault::FrameNotSmallest, 24, "frame not the smallest", EXAMINER, true),
    line(Fault::WidthNotFewest, 24, "width not the fewest bits", EXAMINER, true),
    line(Fault::NoSuchVector, 30, "no such vector", ONE_VECTOR, false),
    line(Fault::EmptyVector, 31, "an empty vector", CHOOSER, false),
    line(Fault::VectorTooLong, 31, "a vector of more than 1,024", CHOOSER, false),
];

impl Fault {
    pub fn line(self) -> &'static Line {
        &TABLE[self as usize]
    }
}

/// A refusal with everything that the answer carries.
#[derive(Clone, Copy, PartialEq, Eq, Debug)]
pub struct Refusal {
    pub fault: Fault,
    pub vector: usize,
    pub place: usize,
}

/// A refusal that belongs to no vector.
pub fn refuse<T>(fault: Fault) -> Result<T, Refusal> {
    Err(Refusal { fault, vector: 0, place: 0 })
}

/// A refusal of one vector, with place 0.
pub fn refuse_in<T>(fault: Fault, vector: usize) -> Result<T, Refusal> {
    Err(Refusal { fault, vector, place: 0 })
}

/// A refusal of one vector at a place in it.
pub fn refuse_at<T>(fault: Fault, vector: usize, place: usize) -> Result<T, Refusal> {
    Err(Refusal { fault, vector, place })
}

/// Done with a count, or a refusal.
pub type Outcome = Result<usize, Refusal>;

/// The three numbers of an answer.
#[derive(Clone, Copy, PartialEq, Eq, Debug)]
pub struct Answer {
    pub number: u64,
    pub vector: u64,
    pub place: u64,
}

pub fn answer_of(outcome: Outcome) -> Answer {
    match outcome {
        Ok(count) => Answer { number: 0, vector: 0, place: count as u64 },
        Err(refusal) => Answer {
            number: refusal.fault.line().row,
            vector: refusal.vector as u64,
            place: refusal.place as u64,
        },
    }
}

#[cfg(test)]
mod tests {
    use super::*;

    /// `Fault::line` looks a fault up by its number, so the order must agree.
    #[test]
    fn table_is_in_the_order_of_the_faults() {
        for (index, line) in TABLE.iter().enumerate() {
            assert_eq!(line.fault as usize, index);
        }
    }
}
