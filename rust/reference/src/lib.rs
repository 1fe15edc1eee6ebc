//! The operations of 01, the scope document, in plain Rust: written from its text and apart from the proved library, naive where that is
//! clearer, and by other algorithms where there is a choice. Refusals are 01's numbers.
//!
//! Nothing here writes into lent lists. An operation that writes lists is told their lengths, the rooms, and returns what it would write into
//! their first places.
#![deny(missing_docs)]
#![forbid(unsafe_code)]

mod books;
mod classes;
mod diagrams;
mod isomorphism;
mod labelling;
mod listing;
mod rows;
mod runs;
mod sheets;
mod upto;
mod words;

pub use books::{Book, Report, Taken};
pub use classes::kept_count;
pub use diagrams::{all_reached, check, invariants, Invariants};
pub use isomorphism::{compare_rooted, compare_unrooted, Lent};
pub use labelling::{kept, relabel, symmetries};
pub use listing::{all_words, count, diagram_at, plain_walk, position};
pub use rows::Rows;
pub use runs::{Block, BlockRooms, Run};
pub use sheets::{cell_position, sheet_positions, CellAnswers};
pub use upto::{list_upto, UptoRun};
pub use words::{letters, read_word, second_is_less};

/// A diagram as it is written, with root 1, and its word.
#[derive(Clone, Debug, PartialEq, Eq)]
pub struct Written {
    /// The black list.
    pub s0: Vec<u16>,
    /// The white list.
    pub s1: Vec<u16>,
    /// The word.
    pub word: Vec<u16>,
}

/// The lengths of the lists lent for s0, s1 and the word.
pub type Rooms = [usize; 3];

/// Whether the rooms are short for a diagram of size n: they want n, n and n + 1 places.
fn short(n: usize, rooms: Rooms) -> bool {
    rooms[0] < n || rooms[1] < n || rooms[2] < n + 1
}
