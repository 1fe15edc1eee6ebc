//! Whole lists. The library lists in blocks; its baselines copy each diagram out as the library writes it. By single steps, which test the run anew
//! each time, for information.
use crate::blocks;
use crate::generator::{generate, kept_known, kept_tested};
use crate::same::labelling::{Tracer, SMALL_PLACES};
use crate::table::count_of;
use crate::timing::{Column, Row};
use crate::{library, same, tuned};
use kaldvemir::Run;
use std::hint::black_box;

/// Lists a size and returns a sum over its diagrams: `seen` of each in a plain list, and the number of those kept in a marked one.
type Lister = fn(usize) -> u64;

pub type Step = fn(&mut Run, &mut [u16], &mut [u16], &mut [u16]) -> Result<usize, u16>;
pub type Kept = fn(&[u16], &[u16], u64) -> Result<bool, u16>;

/// What a plain list sums: that every list was written.
#[inline(always)]
fn seen(s0: &[u16], s1: &[u16], word: &[u16]) -> u64 {
    black_box(word).len() as u64 + black_box(s1)[s1.len() / 2] as u64 + black_box(s0)[0] as u64
}

/// The lists that a diagram is written into.
struct Outputs {
    s0: Vec<u16>,
    s1: Vec<u16>,
    word: Vec<u16>,
}

impl Outputs {
    fn new(size: usize) -> Self {
        Outputs { s0: vec![0; size], s1: vec![0; size], word: vec![0; size + 1] }
    }

    /// Writes a diagram and returns what a plain list sums of it.
    #[inline(always)]
    fn copy(&mut self, s0: &[u16], s1: &[u16], word: &[u16]) -> u64 {
        self.s0.copy_from_slice(s0);
        self.s1.copy_from_slice(s1);
        self.word[..word.len()].copy_from_slice(word);
        seen(&self.s0, &self.s1, &self.word[..word.len()])
    }
}

pub fn by_blocks(size: usize) -> u64 {
    let mut sum = 0;
    blocks::list(size, library::list, |block, given| block.each(given, |s0, s1, word, _| sum += seen(s0, s1, word)));
    sum
}

pub fn by_lister(size: usize) -> u64 {
    let (mut out, mut sum) = (Outputs::new(size), 0);
    same::lister::list(size, |s0, s1, word| sum += out.copy(s0, s1, word));
    sum
}

pub fn by_generator(size: usize) -> u64 {
    let (mut out, mut sum) = (Outputs::new(size), 0);
    generate(size, |s0, s1, word| sum += out.copy(s0, s1, word));
    sum
}

pub fn marked_by_blocks(size: usize) -> u64 {
    let mut kept = 0;
    blocks::list(size, library::list_marked, |block, given| kept += block.marks[..given].iter().map(|&mark| mark as u64).sum::<u64>());
    kept
}

pub fn marked_by_lister(size: usize) -> u64 {
    let (mut out, mut kept) = (Outputs::new(size), 0);
    let mut tracer = Tracer::<SMALL_PLACES>::new();
    same::lister::list(size, |s0, s1, word| {
        out.copy(s0, s1, word);
        kept += tracer.least(s0, s1, 1, word) as u64;
    });
    kept
}

pub fn marked_by_generator(size: usize, mark: impl Fn(&[u16], &[u16], &[u16]) -> bool) -> u64 {
    let (mut out, mut kept) = (Outputs::new(size), 0);
    generate(size, |s0, s1, word| {
        out.copy(s0, s1, word);
        kept += mark(s0, s1, word) as u64;
    });
    kept
}

pub fn by_steps(step: Step, size: usize) -> u64 {
    let mut run = library::begin(size as u64).unwrap();
    let mut out = Outputs::new(size);
    let mut sum = 0;
    loop {
        let length = step(&mut run, &mut out.s0, &mut out.s1, &mut out.word).unwrap();
        if length == 0 {
            return sum;
        }
        sum += seen(&out.s0, &out.s1, &out.word[..length]);
    }
}

pub fn marked_by_steps_of(step: Step, mark: Kept, size: usize) -> u64 {
    let mut run = library::begin(size as u64).unwrap();
    let mut out = Outputs::new(size);
    let mut kept = 0;
    while step(&mut run, &mut out.s0, &mut out.s1, &mut out.word).unwrap() != 0 {
        kept += mark(&out.s0, &out.s1, 1).unwrap() as u64;
    }
    kept
}

fn row(size: usize, library: Lister, same: Lister, tuned: Option<Lister>, generator: Lister) -> Row {
    let row = Row::new(count_of(size), move || library(size)).beside(Column::Same, move || same(size));
    let row = match tuned {
        Some(tuned) => row.beside(Column::Tuned, move || tuned(size)),
        None => row,
    };
    row.beside(Column::Other, move || generator(size))
}

/// No tuned list is known that is faster than the generator's.
pub fn list(size: usize) -> Row {
    row(size, by_blocks, by_lister, None, by_generator)
}

pub fn marked(size: usize) -> Row {
    let (known, tested): (Lister, Lister) = (|size| marked_by_generator(size, kept_known), |size| marked_by_generator(size, kept_tested));
    row(size, marked_by_blocks, marked_by_lister, Some(tested), known)
}

pub fn list_by_steps(size: usize) -> Row {
    let tuned: Lister = |size| by_steps(tuned::run::step, size);
    row(size, |size| by_steps(library::step, size), |size| by_steps(same::run::step, size), Some(tuned), by_generator)
}

pub fn marked_by_steps(size: usize) -> Row {
    let tuned: Lister = |size| marked_by_steps_of(tuned::run::step, tuned::labelling::kept, size);
    row(
        size, |size| marked_by_steps_of(library::step, library::kept, size),
        |size| marked_by_steps_of(same::run::step, same::labelling::kept, size), Some(tuned), |size| marked_by_generator(size, kept_known),
    )
}
