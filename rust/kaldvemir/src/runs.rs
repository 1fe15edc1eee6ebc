//! The run: the diagrams of a size one after another, by single steps, in blocks, or as the rows of the census.
use crate::answers::{begun, given, length, numbers, places, UNWRITTEN};
use crate::raw;
use crate::Refusal;

/// A run through the diagrams of a size. Its fields are open, so that it can be kept and taken up again; a step refuses one that is not valid.
#[repr(C)]
#[derive(Clone, Debug, PartialEq, Eq, Hash)]
pub struct Run {
    /// The size of its diagrams.
    pub size: u16,
    /// 0 fresh, 1 at a diagram, 2 finished.
    pub stage: u16,
    /// How many items the word has that it is at; 0 unless it is at a diagram.
    pub length: u16,
    /// The items of that word; unused ones are 0.
    pub items: [u16; 51],
}

/// What [`rows`](Run::rows) gives beside the text.
#[derive(Clone, Copy, Debug, PartialEq, Eq, Hash)]
pub struct Rows {
    /// How many rows were written.
    pub rows: u64,
    /// How many bytes they have.
    pub bytes: usize,
    /// How many of their diagrams are kept.
    pub kept: u64,
}

/// Bytes enough for a row of size n, as [`rows`](Run::rows) writes it.
pub const fn row_bytes(n: usize) -> usize {
    9 * n + 40
}

impl Run {
    /// Beginning: a fresh run. Refuses 31.
    #[inline]
    pub fn begin(size: u64) -> Result<Run, Refusal> {
        begun(Run::unwritten(), |run| raw::begin(size, run))
    }

    /// Beginning at a position: the run that has given so many diagrams, without walking to it; its next step gives the diagram at the position
    /// after. At position 0 it is fresh. Refuses 31; 32 where the position is above the count.
    #[inline]
    pub fn begin_at(size: u64, position: u64) -> Result<Run, Refusal> {
        begun(Run::unwritten(), |run| raw::begin_at(size, position, run))
    }

    /// Step: writes the next diagram with its word and returns the word's length, or `None` at the end. Refuses 34; a finished run then answers
    /// `None`; 9 where an output list has fewer than n, n and n + 1 places.
    #[inline]
    pub fn step(&mut self, s0: &mut [u16], s1: &mut [u16], word: &mut [u16]) -> Result<Option<usize>, Refusal> {
        let length = length(|length| raw::step(self, s0, s1, word, length))?;
        Ok(if length == 0 { None } else { Some(length) })
    }

    /// Listing in blocks: as so many steps would, writes the next diagrams one after another, at most `rows` of them, and returns how many
    /// there are. `s0` and `s1` hold n entries for each, `words` their words and `lengths` the words' lengths. Fewer than `rows`: the list has
    /// ended, and the run is finished. Refuses 34; a finished run then answers 0; 9 where an output list has fewer than `rows` times n, n,
    /// n + 1 and 1 places.
    #[inline]
    pub fn list(&mut self, rows: u64, s0: &mut [u16], s1: &mut [u16], words: &mut [u16], lengths: &mut [u16]) -> Result<u64, Refusal> {
        given(|given| raw::list(self, rows, [s0, s1, words, lengths], given))
    }

    /// The same with the keep mark of each diagram, 1 where it is kept and otherwise 0. Refuses 9 also where there are fewer than `rows` marks.
    #[inline]
    pub fn list_marked(
        &mut self, rows: u64, s0: &mut [u16], s1: &mut [u16], words: &mut [u16], lengths: &mut [u16], marks: &mut [u8],
    ) -> Result<u64, Refusal> {
        given(|given| raw::list_marked(self, rows, [s0, s1, words, lengths], marks, given))
    }

    /// Rows as text: writes the rows of the next diagrams, at most `rows` of them, over the beginning of `bytes`, as the census prints them:
    /// position, word in letters, s0, s1, e2, e3, c, t, level, K or a hyphen, newline. The run is left as that many steps would leave it: where
    /// all are given that were left, at its last diagram and not finished. Refuses 34; a finished run then gives none; 9 where there are fewer
    /// than `rows` times [`row_bytes`]`(n)` bytes.
    ///
    /// ```
    /// use kaldvemir::{row_bytes, Rows, Run};
    /// let mut run = Run::begin(3).unwrap();
    /// let mut bytes = [0; 2 * row_bytes(3)];
    /// let given = run.rows(2, &mut bytes).unwrap();
    /// assert_eq!(given, Rows { rows: 2, bytes: 62, kept: 2 });
    /// assert_eq!(&bytes[..given.bytes], b"1 TWWW 2,3,1 1,2,3 3 0 1 0 3 K\n2 TWJ0 2,3,1 2,1,3 1 0 2 0 2 K\n");
    /// ```
    #[inline]
    pub fn rows(&mut self, rows: u64, bytes: &mut [u8]) -> Result<Rows, Refusal> {
        let [rows, bytes, kept] = numbers(|values| raw::rows(self, rows, bytes, values))?;
        Ok(Rows { rows, bytes: places(bytes), kept })
    }

    /// What a beginning writes over.
    fn unwritten() -> Run {
        let unwritten = UNWRITTEN as u16;
        Run { size: unwritten, stage: unwritten, length: unwritten, items: [unwritten; 51] }
    }
}
