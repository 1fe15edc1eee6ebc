//! Listed diagrams, 1 to 50 edges: counts, positions and the plain walk.
use crate::answers::{given, length};
use crate::raw;
use crate::Refusal;

/// Count: how many words spell a diagram of that size. Refuses 31.
#[inline]
pub fn count(size: u64) -> Result<u64, Refusal> {
    given(|count| raw::count(size, count))
}

/// Kept count: how many diagrams of that size are kept, and so how many classes there are without a root. Refuses 31. It counts by listing: its time
/// grows with the list, which on average doubles from a size to the next, well under a second at size 24 and years at size 50, where [`count`]
/// answers at once.
///
/// Both together make a summary of any sizes:
///
/// ```
/// use kaldvemir::{count, kept_count, Refusal};
/// let line = |size| Ok(format!("{size} {} {}\n", count(size)?, kept_count(size)?));
/// let summary = (3..=6).map(line).collect::<Result<String, Refusal>>()?;
/// assert_eq!(summary, "3 4 2\n4 8 2\n5 5 1\n6 22 8\n");
/// assert_eq!(kept_count(51), Err(Refusal::ListedSizeOutside));
/// # Ok::<(), Refusal>(())
/// ```
#[inline]
pub fn kept_count(size: u64) -> Result<u64, Refusal> {
    given(|kept| raw::kept_count(size, kept))
}

/// Diagram at a position of a size, from 1: writes it with its word and returns the word's length. Refuses 31; 32; 9 where an output list has
/// fewer than n, n and n + 1 places.
#[inline]
pub fn diagram_at(size: u64, position: u64, s0: &mut [u16], s1: &mut [u16], word: &mut [u16]) -> Result<usize, Refusal> {
    length(|length| raw::diagram_at(size, position, s0, s1, word, length))
}

/// Position of a diagram among those of its size, from 1. Refuses 1 to 8; 31.
#[inline]
pub fn position(s0: &[u16], s1: &[u16], root: u64) -> Result<u64, Refusal> {
    given(|position| raw::position(s0, s1, root, position))
}

/// Plain walk: writes all words of a size one after another and returns how many numbers that is. Refuses 35; 9 where `words` has fewer than
/// 1,024 places.
#[inline]
pub fn plain_walk(size: u64, words: &mut [u16]) -> Result<usize, Refusal> {
    length(|count| raw::plain_walk(size, words, count))
}
