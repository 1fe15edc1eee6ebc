//! Kaldvemir's census module for callers in Rust: rooted trivalent diagrams, their words, positions and runs, and the share book.
//!
//! Every operation is a thin wrapper of a function that is proved to do what 01, the scope document, says of it; [`Refusal`] has 01's numbers.
//! A refused call leaves every list, run and book that it was lent as it was.
//!
//! A diagram is lent as `s0`, `s1` and `root`: entry `i - 1` of `s0` (of `s1`) is the next edge round the black (white) vertex of edge `i`. A
//! diagram that is written has root 1 and fills the first places of its lists; the rest is untouched.
//!
//! ```
//! let (mut s0, mut s1, mut word) = ([0; 4], [0; 4], [0; 5]);
//! let length = kaldvemir::relabel(&[1, 3, 4, 2], &[2, 1, 3, 4], 3, &mut s0, &mut s1, &mut word).unwrap();
//! assert_eq!((s0, s1, &word[..length]), ([2, 3, 1, 4], [1, 2, 4, 3], &[1, 2, 0, 0][..]));
//! assert_eq!(kaldvemir::check(&[1, 2], &[1, 2], 1), Err(kaldvemir::Refusal::NotConnected));
//! ```
#![deny(missing_docs)]
#![deny(unsafe_code)]

mod answers;
mod books;
mod diagrams;
mod given;
mod listed;
#[allow(unsafe_code)]
mod raw;
mod refusals;
mod runs;
mod sheets;
mod upto;
mod words;

pub use books::{Book, Report, Taken};
pub use diagrams::{Diagrams, Listed, UptoListed};
pub use given::{all_reached, check, compare_rooted, compare_unrooted, invariants, kept, relabel, symmetries, Invariants};
pub use listed::{count, diagram_at, kept_count, plain_walk, position};
pub use refusals::{Refusal, Side, Sided};
pub use runs::{row_bytes, Rows, Run};
pub use sheets::{cell, sheet_positions, CELL};
pub use upto::{Stepped, UptoRun};
pub use words::{lesser, letters, read_word};
