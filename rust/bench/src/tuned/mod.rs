//! The same jobs in plain safe Rust, written for speed with methods of its own: the same conditions in the same order, the same writes,
//! nothing written by a refused call. Scratch lists are small arrays on the stack; diagrams of at most 64 edges get scratch of that size and
//! a bit set for the marks; a diagram is found connected where its labelling reaches every edge; the shares of a book take one division.
pub mod book;
pub mod check;
pub mod invariants;
pub mod labelling;
pub mod pending;
pub mod positions;
pub mod reading;
pub mod run;
pub mod spelling;
pub mod upto;

/// Diagrams up to this size get scratch lists of this size.
pub const SMALL: usize = 64;
