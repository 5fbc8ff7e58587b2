//! An independent second program for ALP pages, written from document 01
//! (the specification of the build) and source document 004 alone; and, for
//! `read_vector`, the sizes in `write`, `choose`, the fast rounding in `floats`
//! and row 17, from T-01, T-03, T-04, T-05 and T-06 of document 02 (the changes
//! requested).
//!
//! It is meant to be read next to document 01: every rule stands in one place
//! and nothing is optimised. The parts:
//!
//! - `answer`: the table of refusals;
//! - `floats`: the two kinds and the way between a value and a whole number;
//! - `layout`: counts, sizes and bit packing of a page;
//! - `write`, `read`, `examine`, `read_vector`, `choose`: the calls;
//! - `frames`: requests and answers as bytes, and the serving side;
//! - `driver`: runs another program and talks to it in frames;
//! - `random`, `columns`, `rooms`, `draft`, `overrun`, `forge`, `widths`, `ask`,
//!   `choices`, `older`: what the programs are compared on;
//! - `edges`: which mistakes in the way to a whole number a value would show;
//! - `sums`: which cases of row 17 and mistakes in it a request would show;
//! - `tally`: which refusals, cases of row 17, widths, rooms, choices, edges and
//!   older pages were met, and which are missing;
//! - `compare`: the comparison itself.

pub mod answer;
pub mod ask;
pub mod choices;
pub mod choose;
pub mod columns;
pub mod compare;
pub mod draft;
pub mod driver;
pub mod edges;
pub mod examine;
pub mod floats;
pub mod forge;
pub mod frames;
pub mod layout;
pub mod older;
pub mod overrun;
pub mod random;
pub mod read;
pub mod read_vector;
pub mod rooms;
pub mod sums;
pub mod tally;
pub mod widths;
pub mod write;
