//! What a call says when it says no: the rows of document 01's table, and a refusal with everything that an answer carries.
use std::error::Error;
use std::fmt;

/// Makes `Row` and its two directions from one table, so that number, name and sentence can't come apart.
macro_rules! rows {
    ($($number:literal $name:ident $sentence:literal, $given_by:literal;)*) => {
        /// The rows of the table: why a call refuses.
        ///
        /// Rows may be added later, so a `match` needs an arm for the rest.
        #[derive(Clone, Copy, Debug, PartialEq, Eq, Hash)]
        #[non_exhaustive]
        pub enum Row {
            $(
                #[doc = concat!("Row ", $number, ": ", $sentence, ". Given by: ", $given_by, ".")]
                $name = $number,
            )*
        }

        impl Row {
            /// The row's number in the table.
            ///
            /// ```
            /// assert_eq!(strahnuk::Row::Offset.number(), 8);
            /// ```
            pub fn number(self) -> u64 {
                self as u64
            }

            /// The row's sentence, in lower case and with no full stop.
            ///
            /// ```
            /// assert_eq!(strahnuk::Row::Offset.sentence(), "an offset differs from the layout's");
            /// ```
            pub fn sentence(self) -> &'static str {
                match self {
                    $(Row::$name => $sentence,)*
                }
            }

            /// The row with this number, if there is one.
            ///
            /// ```
            /// assert_eq!(strahnuk::Row::from_number(8), Some(strahnuk::Row::Offset));
            /// assert_eq!(strahnuk::Row::from_number(99), None);
            /// ```
            pub fn from_number(number: u64) -> Option<Row> {
                match number {
                    $($number => Some(Row::$name),)*
                    _ => None,
                }
            }
        }
    };
}

rows! {
    1 FewBytes "fewer than 8 bytes", "read, read vector, examine";
    2 Version "the version is not 1", "read, read vector, examine";
    3 Mode "the mode is not 0", "read, read vector, examine";
    4 IntegerEncoding "the integer encoding is not 0", "read, read vector, examine";
    5 VectorSize "s is below 3 or above 10", "all calls but choose";
    6 TooManyValues "more than 16,384 values", "all calls but choose";
    7 PastEnd "the offsets, a vector's metadata or its data run past the end", "read, read vector, examine";
    8 Offset "an offset differs from the layout's", "read, read vector, examine";
    9 Exponent "the exponent is above the kind's largest", "all calls but choose";
    10 Factor "the factor is above the exponent", "all calls but choose";
    11 TooManyExceptions "more exceptions than values in the vector", "read, read vector, examine";
    12 Width "the width is above the kind's", "read, read vector, examine";
    13 Position "a position is not below the vector's count, or not above the one before", "read, read vector, examine";
    14 BytesAfter "bytes after the last vector", "read, examine";
    15 OutputTooShort "the lent output is too short", "write into, read into, read vector into";
    16 Pairs "the pairs are not one per vector", "measure, write";
    17 SumOutOfRange "frame plus field leaves the kind's signed range", "read, read vector, examine";
    20 UnusedBit "an unused packed bit is 1", "examine";
    21 Unlisted "an unlisted whole number comes back as a value that is an exception, or that turns into another whole number", "examine";
    22 Listed "a listed value is no exception", "examine";
    23 StandIn "a listed position does not hold the stand-in", "examine";
    24 FrameOrWidth "the frame is not the smallest, or the width is not the fewest bits", "examine";
    30 NoSuchVector "there is no vector of that number", "read vector";
    31 NotOneVector "no values, or more than 1,024", "choose";
}

/// A refusal: the row, and where. Nothing that was lent has changed.
///
/// It prints as the answer's three numbers and a sentence:
///
/// ```
/// let refusal = strahnuk::Refusal { row: strahnuk::Row::Offset, vector: 2, place: 0 };
/// assert_eq!(refusal.to_string(), "8 2 0: vector 2: an offset differs from the layout's");
/// ```
#[derive(Clone, Copy, Debug, PartialEq, Eq, Hash)]
pub struct Refusal {
    /// Why.
    pub row: Row,
    /// The vector at fault, counted from 0; 0 too for a row that belongs to no vector.
    pub vector: u64,
    /// For rows 17, 21, 22 and 23 the position in the vector, for row 13 the index in the list of positions, otherwise 0.
    pub place: u64,
}

impl fmt::Display for Refusal {
    fn fmt(&self, f: &mut fmt::Formatter<'_>) -> fmt::Result {
        let Refusal { row, vector, place } = *self;
        write!(f, "{} {} {}: ", row.number(), vector, place)?;
        match row.number() {
            13 => write!(f, "vector {}, list index {}: ", vector, place)?,
            17 | 21..=23 => write!(f, "vector {}, position {}: ", vector, place)?,
            8..=12 | 20 | 24 => write!(f, "vector {}: ", vector)?,
            // With vector 0 this may be the offsets, which belong to no vector.
            7 if vector > 0 => write!(f, "vector {}: ", vector)?,
            _ => {}
        }
        f.write_str(row.sentence())
    }
}

impl Error for Refusal {}
