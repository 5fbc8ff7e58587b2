//! Pages of ALP-encoded float columns that give back every bit or say no: the proved archive `libabi.a`, called safely.
//!
//! A column of 32- or 64-bit floats is written to a page of bytes and comes back exactly, negative zeros, NaN payloads, infinities and
//! subnormals included. The calls take bit patterns, since bits are the point; functions with `f32` and `f64` in their names take floats
//! and go by `to_bits` and `from_bits`, with no arithmetic.
//!
//! ```
//! use strahnuk::{examine64, read64, write64, Pair, Row};
//!
//! # fn main() -> Result<(), strahnuk::Refusal> {
//! // Two decimals each, but for a NaN with a payload and a negative zero.
//! let column = [1.23_f64.to_bits(), 0x7FF8_0000_0000_BEEF, 4.56_f64.to_bits(), (-0.0_f64).to_bits()];
//!
//! // Vectors of 2^10 values, so this is one vector, and it gets one pair: values times 10^2 are whole numbers.
//! let page = write64(&column, 10, &[Pair { exponent: 2, factor: 0 }])?;
//! assert_eq!(read64(&page)?, column);
//!
//! // The examiner accepts exactly the pages that the writer gives.
//! assert_eq!(examine64(&page)?, 4);
//! let mut longer = page.clone();
//! longer.push(0);
//! let refusal = examine64(&longer).unwrap_err();
//! assert_eq!(refusal.row, Row::BytesAfter);
//! assert_eq!(refusal.to_string(), "14 0 0: bytes after the last vector");
//! # Ok(())
//! # }
//! ```
//!
//! Who does not know the pairs has them chosen, vector by vector, for the shortest page:
//!
//! ```
//! use strahnuk::{choose_pairs_f64, read_f64, write_f64};
//!
//! # fn main() -> Result<(), strahnuk::Refusal> {
//! let prices: Vec<f64> = (0..3_000).map(|i| f64::from(9_900 + i % 251) / 100.0).collect();
//! let page = write_f64(&prices, 10, &choose_pairs_f64(&prices, 10)?)?;
//! assert!(page.len() < 8 * prices.len() / 7);
//! assert_eq!(read_f64(&page)?, prices);
//! # Ok(())
//! # }
//! ```
//!
//! # Linking
//!
//! `link/archive`, in the project's root folder, makes the archive. The build script looks for it there, in `target/staticlib`, or in
//! the folder that the environment variable `STRAHNUK_LIB` names. The archive is for x86-64 alone.
//!
//! # What stands around a call
//!
//! Every call runs with rounding to nearest, exceptions masked and no sticky flag, and gives the host's environment (MXCSR) back as it
//! was: directed rounding, traps or flushed subnormals of the host change no byte and no answer. The calls keep no state and may run on
//! several threads at once.
//!
//! A refusal is an `Err`, and then everything lent is as it came. Should the archive ever answer a number that is not in the table of
//! [`Row`], or write a page of another length than it measured, then this crate and the archive don't belong together, and the call panics.
#![deny(missing_docs, unsafe_code, unsafe_op_in_unsafe_fn)]

#[cfg(not(all(target_arch = "x86_64", target_pointer_width = "64", unix)))]
compile_error!("strahnuk: the archive is for x86-64, under the System V calling convention");

#[allow(unsafe_code)]
mod foreign;
mod refusal;

pub use refusal::{Refusal, Row};

/// A page holds at most this many values.
pub const MOST_VALUES: usize = 16_384;

/// A vector holds at most this many values.
pub const MOST_IN_VECTOR: usize = 1_024;

/// The settings of one vector: its values times 10^exponent, then times 10^-factor, are to be whole numbers. A value for which they are
/// not is an exception: it is stored whole and comes back all the same.
///
/// ```
/// let hundredths = strahnuk::Pair { exponent: 2, factor: 0 };
/// assert!(strahnuk::measure64(&[0; 8], 3, &[hundredths]).is_ok());
/// ```
#[derive(Clone, Copy, Debug, Default, PartialEq, Eq, Hash)]
#[repr(C)]
pub struct Pair {
    /// At most 10 for 32-bit values, 18 for 64-bit ones.
    pub exponent: u8,
    /// At most the exponent.
    pub factor: u8,
}

/// Turns an answer into what a Rust program expects: done's place, or the refusal.
fn outcome(answer: foreign::Answer) -> Result<usize, Refusal> {
    let foreign::Answer { number, vector, place } = answer;
    if number == 0 {
        return Ok(place as usize);
    }
    match Row::from_number(number) {
        Some(row) => Err(Refusal { row, vector, place }),
        None => panic!("strahnuk: the archive answered {}, which is not in the table: it is not of this crate's version", number),
    }
}

/// How many values to lend the reader for these bytes, which may be anyone's. The count stands in bytes 4 to 8, and a hostile one must not
/// size an allocation: a page with more than 16,384 values is refused for that before its output is looked at (row 6 comes before 15), so
/// no more than 16,384 need to be lent. With fewer than 8 bytes nothing need be. Either way the answer is the archive's.
fn values_to_lend(page: &[u8]) -> usize {
    match page.get(4..8) {
        Some(count) => {
            let count = u32::from_le_bytes([count[0], count[1], count[2], count[3]]);
            MOST_VALUES.min(count as usize)
        }
        None => 0,
    }
}

/// The values that `read` writes to an output of so many.
fn values_read<B: Clone + Default>(
    lent: usize,
    read: impl FnOnce(&mut [B]) -> Result<usize, Refusal>,
) -> Result<Vec<B>, Refusal> {
    let mut values = vec![B::default(); lent];
    let count = read(&mut values)?;
    values.truncate(count);
    Ok(values)
}

/// The bit patterns of floats.
fn bits_of<F: Copy, B>(values: &[F], to_bits: fn(F) -> B) -> Vec<B> {
    values.iter().map(|&value| to_bits(value)).collect()
}

/// The public calls of one kind. The two kinds differ in names and widths alone, so they are written once; `$n` is the kind's 32 or 64, for
/// the names in the documentation and its examples.
macro_rules! kind {
    (
        $n:literal $bits:ident $float:ident:
        $measure:ident $write:ident $write_into:ident $read:ident $read_into:ident $read_vector:ident $read_vector_into:ident
        $examine:ident $choose:ident $choose_pairs:ident
        $write_floats:ident $read_floats:ident $read_vector_floats:ident $choose_pairs_floats:ident
    ) => {
        #[doc = concat!("The exact length in bytes of the page that [`write", $n, "`] gives: the least room for [`write_into", $n, "`].")]
        ///
        /// Every value is looked at, so it costs as much as the first of the passes that writing makes over the values.
        ///
        /// Rows in order: 5, 6, 16, then 9 and 10 vector by vector.
        ///
        /// ```
        #[doc = concat!("use strahnuk::{measure", $n, ", write", $n, ", Pair};")]
        /// # fn main() -> Result<(), strahnuk::Refusal> {
        #[doc = concat!("let column = [1.5_f", $n, ".to_bits(), 2.5_f", $n, ".to_bits()];")]
        /// let pairs = [Pair { exponent: 1, factor: 0 }];
        #[doc = concat!("let length = measure", $n, "(&column, 10, &pairs)?;")]
        #[doc = concat!("assert_eq!(write", $n, "(&column, 10, &pairs)?.len(), length);")]
        /// # Ok(())
        /// # }
        /// ```
        pub fn $measure(values: &[$bits], s: u8, pairs: &[Pair]) -> Result<usize, Refusal> {
            outcome(foreign::$measure(values, s, pairs))
        }

        /// The page of these bit patterns, in vectors of 2^`s` values with one pair each.
        ///
        /// Rows in order: 5, 6, 16, then 9 and 10 vector by vector.
        ///
        /// ```
        #[doc = concat!("use strahnuk::{write", $n, ", Pair, Row};")]
        /// # fn main() -> Result<(), strahnuk::Refusal> {
        #[doc = concat!("let column = [7.0_f", $n, ".to_bits(); 9];")]
        /// let pairs = [Pair::default(), Pair::default()];
        #[doc = concat!("let page = write", $n, "(&column, 3, &pairs)?;")]
        /// assert_eq!(page[..8], [1, 0, 0, 3, 9, 0, 0, 0]);
        ///
        /// // Nine values in vectors of eight are two vectors: one pair is not enough.
        #[doc = concat!("let refusal = write", $n, "(&column, 3, &pairs[..1]).unwrap_err();")]
        /// assert_eq!(refusal.row, Row::Pairs);
        /// # Ok(())
        /// # }
        /// ```
        pub fn $write(values: &[$bits], s: u8, pairs: &[Pair]) -> Result<Vec<u8>, Refusal> {
            let mut page = vec![0; $measure(values, s, pairs)?];
            let length = $write_into(values, s, pairs, &mut page)?;
            // An archive from before measuring was exact would leave zeros behind the page, which are no part of it.
            assert_eq!(length, page.len(), "strahnuk: the archive measured another length: it is not of this crate's version");
            Ok(page)
        }

        #[doc = concat!("Writes the page of these bit patterns into `out`, as [`write", $n, "`] does, and gives its length.")]
        ///
        #[doc = concat!("Rows in order: those of [`measure", $n, "`], then 15 if `out` is shorter than the page. No byte is written before that is")]
        /// known. No page is longer than 8 + vectors x (4 + metadata) + values x (2 x value size + 2) bytes, where metadata is 9 bytes
        /// (32-bit) or 13 (64-bit): an `out` of that length needs no measuring.
        ///
        /// ```
        #[doc = concat!("use strahnuk::{write_into", $n, ", Pair, Row};")]
        /// # fn main() -> Result<(), strahnuk::Refusal> {
        #[doc = concat!("let column = [7.0_f", $n, ".to_bits(); 2];")]
        /// let mut out = [0xA5; 100];
        #[doc = concat!("let length = write_into", $n, "(&column, 10, &[Pair::default()], &mut out)?;")]
        /// assert_eq!(out[..8], [1, 0, 0, 10, 2, 0, 0, 0]);
        /// assert!(out[length..].iter().all(|&byte| byte == 0xA5));
        ///
        #[doc = concat!("let short = write_into", $n, "(&column, 10, &[Pair::default()], &mut out[..length - 1]);")]
        /// assert_eq!(short.unwrap_err().row, Row::OutputTooShort);
        /// # Ok(())
        /// # }
        /// ```
        pub fn $write_into(values: &[$bits], s: u8, pairs: &[Pair], out: &mut [u8]) -> Result<usize, Refusal> {
            outcome(foreign::$write(values, s, pairs, out))
        }

        /// The bit patterns of a page. The kind does not stand in the page: it is the caller's to know. Any bytes will do: no more than
        /// 16,384 values are ever allocated.
        ///
        /// Rows in order: 1 to 6; 7 for the offsets; then each vector in turn 8, 7 for its metadata, 9 to 12, 7 for its data, 13, 17; then
        /// 14. Of pages that no writer gave, forged or damaged ones, some that read before T-06 are refused now, by 17:
        /// docs/OLDER-PAGES.md.
        ///
        /// ```
        #[doc = concat!("use strahnuk::{read", $n, ", write", $n, ", Pair, Row};")]
        /// # fn main() -> Result<(), strahnuk::Refusal> {
        #[doc = concat!("let column = [(-0.0_f", $n, ").to_bits(), 1.5_f", $n, ".to_bits()];")]
        #[doc = concat!("let page = write", $n, "(&column, 10, &[Pair { exponent: 1, factor: 0 }])?;")]
        #[doc = concat!("assert_eq!(read", $n, "(&page)?, column);")]
        #[doc = concat!("assert_eq!(read", $n, "(&page[..7]).unwrap_err().row, Row::FewBytes);")]
        /// # Ok(())
        /// # }
        /// ```
        pub fn $read(page: &[u8]) -> Result<Vec<$bits>, Refusal> {
            values_read(values_to_lend(page), |out| $read_into(page, out))
        }

        #[doc = concat!("Reads the bit patterns of a page into `out`, as [`read", $n, "`] does, and gives their count.")]
        ///
        #[doc = concat!("Rows in order: those of [`read", $n, "`], then 15 if `out` is shorter than the count of values.")]
        ///
        /// ```
        #[doc = concat!("use strahnuk::{read_into", $n, ", write", $n, ", Pair, Row};")]
        /// # fn main() -> Result<(), strahnuk::Refusal> {
        #[doc = concat!("let column = [7.0_f", $n, ".to_bits(); 2];")]
        #[doc = concat!("let page = write", $n, "(&column, 10, &[Pair::default()])?;")]
        /// let mut out = [0; 3];
        #[doc = concat!("assert_eq!(read_into", $n, "(&page, &mut out)?, 2);")]
        /// assert_eq!(out, [column[0], column[1], 0]);
        #[doc = concat!("assert_eq!(read_into", $n, "(&page, &mut out[..1]).unwrap_err().row, Row::OutputTooShort);")]
        /// # Ok(())
        /// # }
        /// ```
        pub fn $read_into(page: &[u8], out: &mut [$bits]) -> Result<usize, Refusal> {
            outcome(foreign::$read(page, out))
        }

        /// The bit patterns of one vector of a page, by its number, counted from 0. Where
        #[doc = concat!("[`read", $n, "`] accepts the page, they are the stretch of its values that begins at `number` times 2^s.")]
        ///
        /// Only the header, the vector's own offset, the next one and the vector itself are looked at: that is the whole cost, and a fault
        /// anywhere else is not seen. No more than 1,024 values are ever allocated.
        ///
        /// Rows in order: 1 to 6; 30 if `number` is not below the count of vectors, so always on a page of no values; 7 for the offsets;
        /// 8 if the vector starts before their end; 7 for its metadata, also if it starts past the page's end; 9 to 12; 7 for its data; 8
        /// if it does not end where the next offset says, or the last vector at the page's end; 13; 17.
        ///
        /// ```
        #[doc = concat!("use strahnuk::{read_vector", $n, ", write", $n, ", Pair, Row};")]
        /// # fn main() -> Result<(), strahnuk::Refusal> {
        /// // Nine values in vectors of eight: vector 1 holds the ninth.
        #[doc = concat!("let mut column = [7.0_f", $n, ".to_bits(); 9];")]
        #[doc = concat!("column[8] = (-0.0_f", $n, ").to_bits();")]
        #[doc = concat!("let page = write", $n, "(&column, 3, &[Pair::default(); 2])?;")]
        #[doc = concat!("assert_eq!(read_vector", $n, "(&page, 0)?, column[..8]);")]
        #[doc = concat!("assert_eq!(read_vector", $n, "(&page, 1)?, column[8..]);")]
        #[doc = concat!("assert_eq!(read_vector", $n, "(&page, 2).unwrap_err().row, Row::NoSuchVector);")]
        /// # Ok(())
        /// # }
        /// ```
        pub fn $read_vector(page: &[u8], number: usize) -> Result<Vec<$bits>, Refusal> {
            // A vector holds no more than its page does, nor more than 1,024: a header that claims more is refused before row 15.
            values_read(MOST_IN_VECTOR.min(values_to_lend(page)), |out| $read_vector_into(page, number, out))
        }

        #[doc = concat!("Reads the bit patterns of one vector into `out`, as [`read_vector", $n, "`] does, and gives their count.")]
        ///
        #[doc = concat!("Rows in order: those of [`read_vector", $n, "`], then 15 if `out` is shorter than the vector's count of values,")]
        /// which is at most [`MOST_IN_VECTOR`].
        ///
        /// ```
        #[doc = concat!("use strahnuk::{read_vector_into", $n, ", write", $n, ", Pair, Row};")]
        /// # fn main() -> Result<(), strahnuk::Refusal> {
        #[doc = concat!("let column = [7.0_f", $n, ".to_bits(); 10];")]
        #[doc = concat!("let page = write", $n, "(&column, 3, &[Pair::default(); 2])?;")]
        /// let mut out = [0; 3];
        #[doc = concat!("assert_eq!(read_vector_into", $n, "(&page, 1, &mut out)?, 2);")]
        /// assert_eq!(out, [column[8], column[9], 0]);
        #[doc = concat!("assert_eq!(read_vector_into", $n, "(&page, 0, &mut out).unwrap_err().row, Row::OutputTooShort);")]
        /// # Ok(())
        /// # }
        /// ```
        pub fn $read_vector_into(page: &[u8], number: usize, out: &mut [$bits]) -> Result<usize, Refusal> {
            outcome(foreign::$read_vector(page, number, out))
        }

        #[doc = concat!("Whether these bytes are a page that [`write", $n, "`] gives for some values and settings; if so, the count")]
        /// of values.
        ///
        #[doc = concat!("Rows in order: those of [`read", $n, "`], then 20 to 24 of the first vector at fault, in it the lowest row,")]
        /// in that the first position. Of pages written before the fast rounding of T-05, which all read as ever, some are refused now,
        /// by 21 or 22: docs/OLDER-PAGES.md says which.
        ///
        /// ```
        #[doc = concat!("use strahnuk::{examine", $n, ", write", $n, ", Pair, Row};")]
        /// # fn main() -> Result<(), strahnuk::Refusal> {
        #[doc = concat!("let column = [(-1.0_f", $n, ").to_bits(), 1.0_f", $n, ".to_bits()];")]
        #[doc = concat!("let mut page = write", $n, "(&column, 10, &[Pair::default()])?;")]
        #[doc = concat!("assert_eq!(examine", $n, "(&page)?, 2);")]
        ///
        /// // Two fields of two bits: the upper half of the last byte is unused, and a bit set there changes no value.
        /// *page.last_mut().unwrap() |= 0x10;
        #[doc = concat!("assert_eq!(examine", $n, "(&page).unwrap_err().row, Row::UnusedBit);")]
        /// # Ok(())
        /// # }
        /// ```
        pub fn $examine(page: &[u8]) -> Result<usize, Refusal> {
            outcome(foreign::$examine(page))
        }

        /// The pair that gives one vector of these bit patterns the fewest bytes; of several such pairs the first, exponent rising, then
        /// factor rising.
        ///
        /// Every pair is tried, 66 (32-bit) or 190 (64-bit), and left as soon as it can't be better.
        ///
        /// Row: 31 if there are no values, or more than [`MOST_IN_VECTOR`].
        ///
        /// ```
        #[doc = concat!("use strahnuk::{choose", $n, ", Pair, Row};")]
        /// # fn main() -> Result<(), strahnuk::Refusal> {
        #[doc = concat!("let column = [1.5_f", $n, ".to_bits(), 2.5_f", $n, ".to_bits()];")]
        #[doc = concat!("assert_eq!(choose", $n, "(&column)?, Pair { exponent: 1, factor: 0 });")]
        #[doc = concat!("assert_eq!(choose", $n, "(&[]).unwrap_err().row, Row::NotOneVector);")]
        /// # Ok(())
        /// # }
        /// ```
        pub fn $choose(values: &[$bits]) -> Result<Pair, Refusal> {
            let foreign::Choice { answer, exponent, factor } = foreign::$choose(values);
            outcome(answer).map(|_| Pair { exponent, factor })
        }

        #[doc = concat!("The pairs of a whole column in vectors of 2^`s` values, as [`choose", $n, "`] gives them one by one: with them")]
        #[doc = concat!("[`write", $n, "`] gives its shortest page of that `s`.")]
        ///
        #[doc = concat!("Rows in order: 5, 6, as for [`write", $n, "`].")]
        ///
        /// ```
        #[doc = concat!("use strahnuk::{choose_pairs", $n, ", read", $n, ", write", $n, ", Pair};")]
        /// # fn main() -> Result<(), strahnuk::Refusal> {
        /// // Nine values in vectors of eight: halves in the first, a whole number in the second.
        #[doc = concat!("let mut column = [1.5_f", $n, ".to_bits(); 9];")]
        #[doc = concat!("column[8] = 7.0_f", $n, ".to_bits();")]
        #[doc = concat!("let pairs = choose_pairs", $n, "(&column, 3)?;")]
        /// assert_eq!(pairs, [Pair { exponent: 1, factor: 0 }, Pair { exponent: 0, factor: 0 }]);
        #[doc = concat!("assert_eq!(read", $n, "(&write", $n, "(&column, 3, &pairs)?)?, column);")]
        /// # Ok(())
        /// # }
        /// ```
        pub fn $choose_pairs(values: &[$bits], s: u8) -> Result<Vec<Pair>, Refusal> {
            // Whatever the pairs, the writer would refuse such a column for these two rows first.
            match $measure(values, s, &[]) {
                Err(refusal) if matches!(refusal.row, Row::VectorSize | Row::TooManyValues) => Err(refusal),
                _ => values.chunks(1 << s).map($choose).collect(),
            }
        }

        #[doc = concat!("[`write", $n, "`] for floats: their bits are written as they are.")]
        ///
        /// ```
        #[doc = concat!("use strahnuk::{read_f", $n, ", write_f", $n, ", Pair};")]
        /// # fn main() -> Result<(), strahnuk::Refusal> {
        #[doc = concat!("let page = write_f", $n, "(&[1.5, -0.0], 10, &[Pair { exponent: 1, factor: 0 }])?;")]
        #[doc = concat!("let back = read_f", $n, "(&page)?;")]
        /// assert_eq!(back, [1.5, 0.0]);
        /// assert!(back[1].is_sign_negative());
        /// # Ok(())
        /// # }
        /// ```
        pub fn $write_floats(values: &[$float], s: u8, pairs: &[Pair]) -> Result<Vec<u8>, Refusal> {
            $write(&bits_of(values, $float::to_bits), s, pairs)
        }

        #[doc = concat!("[`read", $n, "`] for floats: their bits are those of the page.")]
        ///
        /// ```
        #[doc = concat!("use strahnuk::{read_f", $n, ", write_f", $n, ", Pair};")]
        /// # fn main() -> Result<(), strahnuk::Refusal> {
        #[doc = concat!("let page = write_f", $n, "(&[0.1, 0.2], 10, &[Pair { exponent: 1, factor: 0 }])?;")]
        #[doc = concat!("assert_eq!(read_f", $n, "(&page)?, [0.1, 0.2]);")]
        /// # Ok(())
        /// # }
        /// ```
        pub fn $read_floats(page: &[u8]) -> Result<Vec<$float>, Refusal> {
            Ok($read(page)?.into_iter().map($float::from_bits).collect())
        }

        #[doc = concat!("[`read_vector", $n, "`] for floats: their bits are those of the page.")]
        ///
        /// ```
        #[doc = concat!("use strahnuk::{read_vector_f", $n, ", write_f", $n, ", Pair};")]
        /// # fn main() -> Result<(), strahnuk::Refusal> {
        #[doc = concat!("let page = write_f", $n, "(&[0.1; 9], 3, &[Pair { exponent: 1, factor: 0 }; 2])?;")]
        #[doc = concat!("assert_eq!(read_vector_f", $n, "(&page, 1)?, [0.1]);")]
        /// # Ok(())
        /// # }
        /// ```
        pub fn $read_vector_floats(page: &[u8], number: usize) -> Result<Vec<$float>, Refusal> {
            Ok($read_vector(page, number)?.into_iter().map($float::from_bits).collect())
        }

        #[doc = concat!("[`choose_pairs", $n, "`] for floats: the pairs for [`write_f", $n, "`].")]
        ///
        /// ```
        #[doc = concat!("use strahnuk::{choose_pairs_f", $n, ", Pair};")]
        /// # fn main() -> Result<(), strahnuk::Refusal> {
        #[doc = concat!("assert_eq!(choose_pairs_f", $n, "(&[1.5, 2.5], 10)?, [Pair { exponent: 1, factor: 0 }]);")]
        /// # Ok(())
        /// # }
        /// ```
        pub fn $choose_pairs_floats(values: &[$float], s: u8) -> Result<Vec<Pair>, Refusal> {
            $choose_pairs(&bits_of(values, $float::to_bits), s)
        }
    };
}

kind!("32" u32 f32:
    measure32 write32 write_into32 read32 read_into32 read_vector32 read_vector_into32
    examine32 choose32 choose_pairs32
    write_f32 read_f32 read_vector_f32 choose_pairs_f32);
kind!("64" u64 f64:
    measure64 write64 write_into64 read64 read_into64 read_vector64 read_vector_into64
    examine64 choose64 choose_pairs64
    write_f64 read_f64 read_vector_f64 choose_pairs_f64);

#[cfg(test)]
mod tests {
    use super::*;

    #[test]
    #[should_panic(expected = "the archive answered 255, which is not in the table")]
    fn a_number_outside_the_table_panics() {
        let _ = outcome(foreign::Answer { number: 255, vector: 0, place: 0 });
    }

    #[test]
    fn what_is_lent_for_any_bytes() {
        let page = |count: u32| [&[1, 0, 0, 10], &count.to_le_bytes()[..], &[0]].concat();
        assert_eq!(values_to_lend(&[]), 0);
        assert_eq!(values_to_lend(&page(5)[..7]), 0);
        assert_eq!(values_to_lend(&page(5)[..8]), 5);
        assert_eq!(values_to_lend(&page(16_384)), 16_384);
        assert_eq!(values_to_lend(&page(16_385)), 16_384);
        assert_eq!(values_to_lend(&page(u32::MAX)), 16_384);
    }
}
