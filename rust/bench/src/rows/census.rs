//! The census. The letters, the invariants and the keep mark of a line are each side's own; the rest of the line is written by the code that
//! all sides share. The library lists in blocks with keep marks; in the row by steps every side goes by single steps and asks whether each diagram is
//! kept. In the row of whole rows the library writes all of the text.
use super::whole::{Kept, Step};
use crate::blocks;
use crate::generator::{generate, kept_known, kept_tested};
use crate::lines::Page;
use crate::same::labelling::{Tracer, SMALL_PLACES};
use crate::table::count_of;
use crate::timing::{Column, Row};
use crate::{letters, library, same, tuned};
use kaldvemir::{Invariants, Run};

type Letters = fn(&[u16], &mut [u8]) -> Result<usize, u16>;
type Measure = fn(&[u16], &[u16], u64) -> Result<Invariants, u16>;

/// What a census by steps is made of.
pub struct Parts {
    step: Step,
    letters: Letters,
    invariants: Measure,
    kept: Kept,
}

pub const LIBRARY: Parts =
    Parts { step: library::step, letters: library::letters, invariants: library::invariants, kept: library::kept };
pub const SAME: Parts =
    Parts { step: same::run::step, letters: letters::letters, invariants: same::invariants::invariants, kept: same::labelling::kept };
pub const TUNED: Parts =
    Parts { step: tuned::run::step, letters: letters::letters, invariants: tuned::invariants::invariants, kept: tuned::labelling::kept };

/// The lines written so far on a page, of which some are of kept diagrams.
struct Lines<'a> {
    page: &'a mut Page,
    listed: u64,
    kept: u64,
}

impl<'a> Lines<'a> {
    fn on(page: &'a mut Page) -> Self {
        Lines { page, listed: 0, kept: 0 }
    }

    #[inline(always)]
    fn add(&mut self, s0: &[u16], s1: &[u16], word: &[u16], letters: Letters, numbers: &Invariants, keep: bool) {
        self.listed += 1;
        self.kept += keep as u64;
        self.page.number(self.listed);
        self.page.byte(b' ');
        self.page.at += letters(word, &mut self.page.bytes[self.page.at..]).unwrap();
        self.page.rest(s0, s1, numbers, keep);
        self.page.turn();
    }

    /// Returns how many diagrams are kept.
    fn finish(self) -> u64 {
        self.page.flush();
        self.kept
    }
}

pub fn by_blocks(size: usize, page: &mut Page) -> u64 {
    let mut lines = Lines::on(page);
    blocks::list(size, library::list_marked, |block, given| {
        block.each(given, |s0, s1, word, keep| {
            let numbers = library::invariants(s0, s1, 1).unwrap();
            lines.add(s0, s1, word, library::letters, &numbers, keep);
        })
    });
    lines.finish()
}

/// The same by the library's methods.
pub fn by_lister(size: usize, page: &mut Page) -> u64 {
    let mut lines = Lines::on(page);
    let mut tracer = Tracer::<SMALL_PLACES>::new();
    same::lister::list(size, |s0, s1, word| {
        let numbers = same::invariants::invariants(s0, s1, 1).unwrap();
        lines.add(s0, s1, word, letters::letters, &numbers, tracer.least(s0, s1, 1, word));
    });
    lines.finish()
}

/// The same from the lists that the generator writes. What it generated it does not check again.
pub fn by_generator(size: usize, page: &mut Page, mark: impl Fn(&[u16], &[u16], &[u16]) -> bool) -> u64 {
    let mut lines = Lines::on(page);
    generate(size, |s0, s1, word| {
        let numbers = tuned::invariants::measure(s0, s1);
        lines.add(s0, s1, word, letters::letters, &numbers, mark(s0, s1, word));
    });
    lines.finish()
}

/// The same by single steps.
pub fn by_steps(parts: &Parts, size: usize, page: &mut Page) -> u64 {
    let mut run = Run { size: size as u16, stage: 0, length: 0, items: [0; 51] };
    let (mut s0, mut s1, mut word) = (vec![0; size], vec![0; size], vec![0; size + 1]);
    let mut lines = Lines::on(page);
    loop {
        let length = (parts.step)(&mut run, &mut s0, &mut s1, &mut word).unwrap();
        if length == 0 {
            return lines.finish();
        }
        let numbers = (parts.invariants)(&s0, &s1, 1).unwrap();
        let keep = (parts.kept)(&s0, &s1, 1).unwrap();
        lines.add(&s0, &s1, &word[..length], parts.letters, &numbers, keep);
    }
}

/// How many rows the library is asked for at a time.
const ROWS: u64 = 128;

/// The same, all of the text by the library. The rows of a call lie in one page.
pub fn by_rows(size: usize, page: &mut Page) -> u64 {
    let mut run = library::begin(size as u64).unwrap();
    let mut kept = 0;
    loop {
        let given = library::rows(&mut run, ROWS, &mut page.bytes).unwrap();
        kept += given.kept;
        page.at = given.bytes;
        page.flush();
        if given.rows < ROWS {
            return kept;
        }
    }
}

/// A side that writes on a page of its own.
fn on_page(write: impl Fn(&mut Page) -> u64) -> impl FnMut() -> u64 {
    let mut page = Page::new(None);
    move || write(&mut page)
}

/// Something of the library beside the lines of the list by its methods, and those of the generator with the early test and without.
fn beside_lists(size: usize, library: fn(usize, &mut Page) -> u64) -> Row {
    Row::new(count_of(size), on_page(move |page| library(size, page)))
        .beside(Column::Same, on_page(move |page| by_lister(size, page)))
        .beside(Column::Tuned, on_page(move |page| by_generator(size, page, kept_tested)))
        .beside(Column::Other, on_page(move |page| by_generator(size, page, kept_known)))
}

pub fn lines(size: usize) -> Row {
    beside_lists(size, by_blocks)
}

/// The text of a whole list.
pub fn text(size: usize) -> Row {
    beside_lists(size, by_rows)
}

pub fn lines_by_steps(size: usize) -> Row {
    let by = |parts: &'static Parts| on_page(move |page| by_steps(parts, size, page));
    super::row(count_of(size), by(&LIBRARY), by(&SAME), by(&TUNED))
        .beside(Column::Other, on_page(move |page| by_generator(size, page, kept_known)))
}
