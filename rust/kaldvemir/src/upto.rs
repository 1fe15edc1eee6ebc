//! The run through all sizes up to a bound: one list in dictionary order of words, with the branch visits so far.
use crate::answers::{begun, numbers, places, UNWRITTEN};
use crate::raw;
use crate::Refusal;

/// A run through the diagrams of all sizes from 1 to a bound, in a single list in dictionary order of words. Its fields are open, so that it can be
/// kept and taken up again; a step refuses one that is not valid.
///
/// Branch visits are how many different lists are a beginning, non-empty and shorter than the word that it begins, of a word given so far.
#[repr(C)]
#[derive(Clone, Debug, PartialEq, Eq, Hash)]
pub struct UptoRun {
    /// The largest size of its diagrams.
    pub bound: u16,
    /// 0 fresh, 1 at a diagram, 2 finished.
    pub stage: u16,
    /// How many items the word has that it is at; 0 unless it is at a diagram.
    pub length: u16,
    /// The items of that word; unused ones are 0.
    pub items: [u16; 51],
    /// The branch visits so far: 0 while it is fresh, the last diagram's once it is finished.
    pub visits: u64,
}

/// What a [`step`](UptoRun::step) gives beside the diagram.
#[derive(Clone, Copy, Debug, PartialEq, Eq, Hash)]
pub struct Stepped {
    /// The diagram's size.
    pub size: usize,
    /// The length of its word.
    pub length: usize,
    /// The branch visits so far.
    pub visits: u64,
}

impl UptoRun {
    /// Beginning: a fresh run. Refuses 31.
    #[inline]
    pub fn begin(bound: u64) -> Result<UptoRun, Refusal> {
        begun(UptoRun::unwritten(), |run| raw::upto_begin(bound, run))
    }

    /// Step: writes the next diagram with its word and returns its size, the word's length and the branch visits so far, or `None` at the end, where
    /// the run is left finished and no list is asked for room. Refuses 34, also where the visits are not those of the run's diagram; 9 where an output
    /// list has fewer than n, n and n + 1 places, n being the size of the diagram that comes.
    ///
    /// ```
    /// use kaldvemir::{Stepped, UptoRun};
    /// let mut run = UptoRun::begin(2).unwrap();
    /// let (mut s0, mut s1, mut word) = ([0; 2], [0; 2], [0; 3]);
    /// assert_eq!(run.step(&mut s0, &mut s1, &mut word), Ok(Some(Stepped { size: 1, length: 2, visits: 1 })));
    /// assert_eq!(run.step(&mut s0, &mut s1, &mut word), Ok(Some(Stepped { size: 2, length: 2, visits: 1 })));
    /// assert_eq!((s0, s1, &word[..2]), ([1, 2], [2, 1], &[0, 2][..]));
    /// assert_eq!((run.step(&mut [], &mut [], &mut []), run.stage), (Ok(None), 2));
    /// ```
    #[inline]
    pub fn step(&mut self, s0: &mut [u16], s1: &mut [u16], word: &mut [u16]) -> Result<Option<Stepped>, Refusal> {
        let [size, length] = numbers(|values| raw::upto_step(self, s0, s1, word, values))?;
        Ok(if length == 0 { None } else { Some(Stepped { size: places(size), length: places(length), visits: self.visits }) })
    }

    /// What a beginning writes over.
    fn unwritten() -> UptoRun {
        let unwritten = UNWRITTEN as u16;
        UptoRun { bound: unwritten, stage: unwritten, length: unwritten, items: [unwritten; 51], visits: UNWRITTEN }
    }
}
