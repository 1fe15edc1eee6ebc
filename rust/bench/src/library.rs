//! The library as callers in Rust have it, with the signatures of the baselines: an answer, or the number of the refusal.
use crate::blocks::Block;
use kaldvemir::{Book, Invariants, Refusal, Rows, Run, Stepped, Taken, UptoRun};

pub fn check(s0: &[u16], s1: &[u16], root: u64) -> Result<(), u16> {
    kaldvemir::check(s0, s1, root).map_err(Refusal::number)
}

pub fn relabel(s0: &[u16], s1: &[u16], root: u64, t0: &mut [u16], t1: &mut [u16], word: &mut [u16]) -> Result<usize, u16> {
    kaldvemir::relabel(s0, s1, root, t0, t1, word).map_err(Refusal::number)
}

pub fn kept(s0: &[u16], s1: &[u16], root: u64) -> Result<bool, u16> {
    kaldvemir::kept(s0, s1, root).map_err(Refusal::number)
}

pub fn invariants(s0: &[u16], s1: &[u16], root: u64) -> Result<Invariants, u16> {
    kaldvemir::invariants(s0, s1, root).map_err(Refusal::number)
}

pub fn read_word(word: &[u16], s0: &mut [u16], s1: &mut [u16]) -> Result<usize, u16> {
    kaldvemir::read_word(word, s0, s1).map_err(Refusal::number)
}

pub fn letters(word: &[u16], out: &mut [u8]) -> Result<usize, u16> {
    kaldvemir::letters(word, out).map_err(Refusal::number)
}

pub fn diagram_at(size: u64, position: u64, s0: &mut [u16], s1: &mut [u16], word: &mut [u16]) -> Result<usize, u16> {
    kaldvemir::diagram_at(size, position, s0, s1, word).map_err(Refusal::number)
}

pub fn position(s0: &[u16], s1: &[u16], root: u64) -> Result<u64, u16> {
    kaldvemir::position(s0, s1, root).map_err(Refusal::number)
}

pub fn begin(size: u64) -> Result<Run, u16> {
    Run::begin(size).map_err(Refusal::number)
}

/// The length of the word written, 0 at the end.
pub fn step(run: &mut Run, s0: &mut [u16], s1: &mut [u16], word: &mut [u16]) -> Result<usize, u16> {
    run.step(s0, s1, word).map(|length| length.unwrap_or(0)).map_err(Refusal::number)
}

pub fn upto_begin(bound: u64) -> Result<UptoRun, u16> {
    UptoRun::begin(bound).map_err(Refusal::number)
}

pub fn upto_step(run: &mut UptoRun, s0: &mut [u16], s1: &mut [u16], word: &mut [u16]) -> Result<Option<Stepped>, u16> {
    run.step(s0, s1, word).map_err(Refusal::number)
}

pub fn sheet_positions(sheet: &[u16], refusals: &mut [u16], positions: &mut [u64]) -> Result<(), u16> {
    kaldvemir::sheet_positions(sheet, refusals, positions).map_err(Refusal::number)
}

/// How many diagrams were written.
pub fn list(run: &mut Run, rows: u64, Block { s0, s1, words, lengths, .. }: &mut Block) -> Result<u64, u16> {
    run.list(rows, s0, s1, words, lengths).map_err(Refusal::number)
}

pub fn list_marked(run: &mut Run, rows: u64, Block { s0, s1, words, lengths, marks, .. }: &mut Block) -> Result<u64, u16> {
    run.list_marked(rows, s0, s1, words, lengths, marks).map_err(Refusal::number)
}

/// How many rows and bytes were written, and how many diagrams are kept.
pub fn rows(run: &mut Run, rows: u64, bytes: &mut [u8]) -> Result<Rows, u16> {
    run.rows(rows, bytes).map_err(Refusal::number)
}

pub fn open(book: &mut Book, size: u64, shares: u64) -> Result<(), u16> {
    book.open(size, shares).map_err(Refusal::number)
}

pub fn claim(book: &mut Book, tick: u64, share: u64, length: u64) -> Result<u64, u16> {
    book.claim(tick, share, length).map_err(Refusal::number)
}

pub fn take(book: &mut Book, tick: u64, ticket: u64, s0: &mut [u16], s1: &mut [u16], word: &mut [u16]) -> Result<Taken, u16> {
    book.take(tick, ticket, s0, s1, word).map_err(Refusal::number)
}

pub fn commit(book: &mut Book, tick: u64, ticket: u64, position: u64) -> Result<(), u16> {
    book.commit(tick, ticket, position).map_err(Refusal::number)
}

pub fn commit_range(book: &mut Book, tick: u64, ticket: u64, first: u64, last: u64) -> Result<(), u16> {
    book.commit_range(tick, ticket, first, last).map_err(Refusal::number)
}
