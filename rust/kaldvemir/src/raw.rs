//! The boundary: the declarations of c/kaldvemir.h and, for each, a safe function that lends slices as pointer and length. The only unsafe code.
//!
//! Every call here is sound for one reason: a slice or reference of Rust is not null and aligned, also an empty one, what is lent by `&mut`
//! overlaps nothing else that is lent, the library writes within the lengths it is told, and it keeps nothing after the return.
use crate::{Book, Invariants, Run, UptoRun};
use std::mem::{offset_of, size_of};

extern "C" {
    fn kaldvemir_check(s0: *const u16, s0_len: usize, s1: *const u16, s1_len: usize, root: u64) -> u16;
    fn kaldvemir_all_reached(marks: *const u8, marks_len: usize) -> bool;
    fn kaldvemir_relabel(
        s0: *const u16, s0_len: usize, s1: *const u16, s1_len: usize, root: u64,
        t0: *mut u16, t0_len: usize, t1: *mut u16, t1_len: usize, word: *mut u16, word_len: usize, length: *mut u64,
    ) -> u16;
    fn kaldvemir_compare_rooted(
        s0: *const u16, s0_len: usize, s1: *const u16, s1_len: usize, s_root: u64,
        t0: *const u16, t0_len: usize, t1: *const u16, t1_len: usize, t_root: u64, same: *mut u64, side: *mut u64,
    ) -> u16;
    fn kaldvemir_compare_unrooted(
        s0: *const u16, s0_len: usize, s1: *const u16, s1_len: usize, s_root: u64,
        t0: *const u16, t0_len: usize, t1: *const u16, t1_len: usize, t_root: u64, same: *mut u64, side: *mut u64,
    ) -> u16;
    fn kaldvemir_symmetries(s0: *const u16, s0_len: usize, s1: *const u16, s1_len: usize, root: u64, count: *mut u64) -> u16;
    fn kaldvemir_kept(s0: *const u16, s0_len: usize, s1: *const u16, s1_len: usize, root: u64, kept: *mut u64) -> u16;
    fn kaldvemir_invariants(
        s0: *const u16, s0_len: usize, s1: *const u16, s1_len: usize, root: u64,
        e2: *mut u16, e3: *mut u16, c: *mut u16, t: *mut i32, level: *mut u64,
    ) -> u16;
    fn kaldvemir_read_word(
        word: *const u16, word_len: usize, s0: *mut u16, s0_len: usize, s1: *mut u16, s1_len: usize, size: *mut u64,
    ) -> u16;
    fn kaldvemir_lesser(first: *const u16, first_len: usize, second: *const u16, second_len: usize) -> u16;
    fn kaldvemir_letters(word: *const u16, word_len: usize, letters: *mut u8, letters_len: usize, length: *mut u64) -> u16;
    fn kaldvemir_count(size: u64, count: *mut u64) -> u16;
    fn kaldvemir_kept_count(size: u64, kept: *mut u64) -> u16;
    fn kaldvemir_diagram_at(
        size: u64, position: u64, s0: *mut u16, s0_len: usize, s1: *mut u16, s1_len: usize,
        word: *mut u16, word_len: usize, length: *mut u64,
    ) -> u16;
    fn kaldvemir_position(s0: *const u16, s0_len: usize, s1: *const u16, s1_len: usize, root: u64, position: *mut u64) -> u16;
    fn kaldvemir_plain_walk(size: u64, words: *mut u16, words_len: usize, count: *mut u64) -> u16;
    fn kaldvemir_begin(size: u64, run: *mut Run) -> u16;
    fn kaldvemir_begin_at(size: u64, position: u64, run: *mut Run) -> u16;
    fn kaldvemir_step(
        run: *mut Run, s0: *mut u16, s0_len: usize, s1: *mut u16, s1_len: usize, word: *mut u16, word_len: usize, length: *mut u64,
    ) -> u16;
    fn kaldvemir_list(
        run: *mut Run, rows: u64, s0: *mut u16, s0_len: usize, s1: *mut u16, s1_len: usize,
        words: *mut u16, words_len: usize, lengths: *mut u16, lengths_len: usize, given: *mut u64,
    ) -> u16;
    fn kaldvemir_list_marked(
        run: *mut Run, rows: u64, s0: *mut u16, s0_len: usize, s1: *mut u16, s1_len: usize,
        words: *mut u16, words_len: usize, lengths: *mut u16, lengths_len: usize, marks: *mut u8, marks_len: usize, given: *mut u64,
    ) -> u16;
    fn kaldvemir_rows(
        run: *mut Run, rows: u64, bytes: *mut u8, bytes_len: usize, given: *mut u64, written: *mut u64, kept: *mut u64,
    ) -> u16;
    fn kaldvemir_upto_begin(bound: u64, run: *mut Run, visits: *mut u64) -> u16;
    fn kaldvemir_upto_step(
        run: *mut Run, visits: *mut u64, s0: *mut u16, s0_len: usize, s1: *mut u16, s1_len: usize, word: *mut u16, word_len: usize,
        size: *mut u64, length: *mut u64,
    ) -> u16;
    fn kaldvemir_sheet_positions(
        sheet: *const u16, sheet_len: usize, refusals: *mut u16, refusals_len: usize, positions: *mut u64, positions_len: usize,
    ) -> u16;
    fn kaldvemir_open(book: *mut Book, size: u64, shares: u64) -> u16;
    fn kaldvemir_claim(book: *mut Book, tick: u64, share: u64, length: u64, ticket: *mut u64) -> u16;
    fn kaldvemir_take(
        book: *mut Book, tick: u64, ticket: u64, s0: *mut u16, s0_len: usize, s1: *mut u16, s1_len: usize,
        word: *mut u16, word_len: usize, share: *mut u64, position: *mut u64, length: *mut u64,
    ) -> u16;
    fn kaldvemir_commit(book: *mut Book, tick: u64, ticket: u64, position: u64) -> u16;
    fn kaldvemir_commit_range(book: *mut Book, tick: u64, ticket: u64, first: u64, last: u64) -> u16;
    fn kaldvemir_release(book: *mut Book, tick: u64, ticket: u64) -> u16;
    fn kaldvemir_report(book: *const Book, committed: *mut u64, complete: *mut u64) -> u16;
}

/// A lent diagram: s0, s1 and root.
pub(crate) type Lent<'a> = (&'a [u16], &'a [u16], u64);

#[inline]
pub(crate) fn check(s0: &[u16], s1: &[u16], root: u64) -> u16 {
    unsafe { kaldvemir_check(s0.as_ptr(), s0.len(), s1.as_ptr(), s1.len(), root) }
}

#[inline]
pub(crate) fn all_reached(marks: &[u8]) -> bool {
    unsafe { kaldvemir_all_reached(marks.as_ptr(), marks.len()) }
}

#[inline]
pub(crate) fn relabel(s0: &[u16], s1: &[u16], root: u64, t0: &mut [u16], t1: &mut [u16], word: &mut [u16], length: &mut u64) -> u16 {
    unsafe {
        kaldvemir_relabel(
            s0.as_ptr(), s0.len(), s1.as_ptr(), s1.len(), root,
            t0.as_mut_ptr(), t0.len(), t1.as_mut_ptr(), t1.len(), word.as_mut_ptr(), word.len(), length,
        )
    }
}

#[inline]
pub(crate) fn compare_rooted((s0, s1, s_root): Lent, (t0, t1, t_root): Lent, same: &mut u64, side: &mut u64) -> u16 {
    unsafe {
        kaldvemir_compare_rooted(
            s0.as_ptr(), s0.len(), s1.as_ptr(), s1.len(), s_root,
            t0.as_ptr(), t0.len(), t1.as_ptr(), t1.len(), t_root, same, side,
        )
    }
}

#[inline]
pub(crate) fn compare_unrooted((s0, s1, s_root): Lent, (t0, t1, t_root): Lent, same: &mut u64, side: &mut u64) -> u16 {
    unsafe {
        kaldvemir_compare_unrooted(
            s0.as_ptr(), s0.len(), s1.as_ptr(), s1.len(), s_root,
            t0.as_ptr(), t0.len(), t1.as_ptr(), t1.len(), t_root, same, side,
        )
    }
}

#[inline]
pub(crate) fn symmetries(s0: &[u16], s1: &[u16], root: u64, count: &mut u64) -> u16 {
    unsafe { kaldvemir_symmetries(s0.as_ptr(), s0.len(), s1.as_ptr(), s1.len(), root, count) }
}

#[inline]
pub(crate) fn kept(s0: &[u16], s1: &[u16], root: u64, kept: &mut u64) -> u16 {
    unsafe { kaldvemir_kept(s0.as_ptr(), s0.len(), s1.as_ptr(), s1.len(), root, kept) }
}

#[inline]
pub(crate) fn invariants(s0: &[u16], s1: &[u16], root: u64, out: &mut Invariants) -> u16 {
    unsafe {
        kaldvemir_invariants(
            s0.as_ptr(), s0.len(), s1.as_ptr(), s1.len(), root,
            &mut out.e2, &mut out.e3, &mut out.c, &mut out.t, &mut out.level,
        )
    }
}

#[inline]
pub(crate) fn read_word(word: &[u16], s0: &mut [u16], s1: &mut [u16], size: &mut u64) -> u16 {
    unsafe { kaldvemir_read_word(word.as_ptr(), word.len(), s0.as_mut_ptr(), s0.len(), s1.as_mut_ptr(), s1.len(), size) }
}

#[inline]
pub(crate) fn lesser(first: &[u16], second: &[u16]) -> u16 {
    unsafe { kaldvemir_lesser(first.as_ptr(), first.len(), second.as_ptr(), second.len()) }
}

#[inline]
pub(crate) fn letters(word: &[u16], letters: &mut [u8], length: &mut u64) -> u16 {
    unsafe { kaldvemir_letters(word.as_ptr(), word.len(), letters.as_mut_ptr(), letters.len(), length) }
}

#[inline]
pub(crate) fn count(size: u64, count: &mut u64) -> u16 {
    unsafe { kaldvemir_count(size, count) }
}

#[inline]
pub(crate) fn kept_count(size: u64, kept: &mut u64) -> u16 {
    unsafe { kaldvemir_kept_count(size, kept) }
}

#[inline]
pub(crate) fn diagram_at(size: u64, position: u64, s0: &mut [u16], s1: &mut [u16], word: &mut [u16], length: &mut u64) -> u16 {
    unsafe {
        kaldvemir_diagram_at(
            size, position, s0.as_mut_ptr(), s0.len(), s1.as_mut_ptr(), s1.len(), word.as_mut_ptr(), word.len(), length,
        )
    }
}

#[inline]
pub(crate) fn position(s0: &[u16], s1: &[u16], root: u64, position: &mut u64) -> u16 {
    unsafe { kaldvemir_position(s0.as_ptr(), s0.len(), s1.as_ptr(), s1.len(), root, position) }
}

#[inline]
pub(crate) fn plain_walk(size: u64, words: &mut [u16], count: &mut u64) -> u16 {
    unsafe { kaldvemir_plain_walk(size, words.as_mut_ptr(), words.len(), count) }
}

#[inline]
pub(crate) fn begin(size: u64, run: &mut Run) -> u16 {
    unsafe { kaldvemir_begin(size, run) }
}

#[inline]
pub(crate) fn begin_at(size: u64, position: u64, run: &mut Run) -> u16 {
    unsafe { kaldvemir_begin_at(size, position, run) }
}

#[inline]
pub(crate) fn step(run: &mut Run, s0: &mut [u16], s1: &mut [u16], word: &mut [u16], length: &mut u64) -> u16 {
    unsafe { kaldvemir_step(run, s0.as_mut_ptr(), s0.len(), s1.as_mut_ptr(), s1.len(), word.as_mut_ptr(), word.len(), length) }
}

/// The four lists are s0, s1, the words and their lengths.
#[inline]
pub(crate) fn list(run: &mut Run, rows: u64, [s0, s1, words, lengths]: [&mut [u16]; 4], given: &mut u64) -> u16 {
    unsafe {
        kaldvemir_list(
            run, rows, s0.as_mut_ptr(), s0.len(), s1.as_mut_ptr(), s1.len(),
            words.as_mut_ptr(), words.len(), lengths.as_mut_ptr(), lengths.len(), given,
        )
    }
}

#[inline]
pub(crate) fn list_marked(
    run: &mut Run, rows: u64, [s0, s1, words, lengths]: [&mut [u16]; 4], marks: &mut [u8], given: &mut u64,
) -> u16 {
    unsafe {
        kaldvemir_list_marked(
            run, rows, s0.as_mut_ptr(), s0.len(), s1.as_mut_ptr(), s1.len(),
            words.as_mut_ptr(), words.len(), lengths.as_mut_ptr(), lengths.len(), marks.as_mut_ptr(), marks.len(), given,
        )
    }
}

/// The three values are how many rows, how many bytes, and how many diagrams are kept.
#[inline]
pub(crate) fn rows(run: &mut Run, rows: u64, bytes: &mut [u8], [given, written, kept]: &mut [u64; 3]) -> u16 {
    unsafe { kaldvemir_rows(run, rows, bytes.as_mut_ptr(), bytes.len(), given, written, kept) }
}

/// The boundary's run, the 54 numbers of 16 bits that an [`UptoRun`] begins with, and its visits, which lie behind them.
#[inline]
fn run_and_visits(run: &mut UptoRun) -> (*mut Run, *mut u64) {
    const { assert!(offset_of!(UptoRun, items) == offset_of!(Run, items) && size_of::<Run>() <= offset_of!(UptoRun, visits)) };
    let run: *mut UptoRun = run;
    (run.cast(), unsafe { &raw mut (*run).visits })
}

#[inline]
pub(crate) fn upto_begin(bound: u64, run: &mut UptoRun) -> u16 {
    let (run, visits) = run_and_visits(run);
    unsafe { kaldvemir_upto_begin(bound, run, visits) }
}

/// The two values are size and length.
#[inline]
pub(crate) fn upto_step(run: &mut UptoRun, s0: &mut [u16], s1: &mut [u16], word: &mut [u16], [size, length]: &mut [u64; 2]) -> u16 {
    let (run, visits) = run_and_visits(run);
    unsafe {
        kaldvemir_upto_step(
            run, visits, s0.as_mut_ptr(), s0.len(), s1.as_mut_ptr(), s1.len(), word.as_mut_ptr(), word.len(), size, length,
        )
    }
}

#[inline]
pub(crate) fn sheet_positions(sheet: &[u16], refusals: &mut [u16], positions: &mut [u64]) -> u16 {
    unsafe {
        kaldvemir_sheet_positions(
            sheet.as_ptr(), sheet.len(), refusals.as_mut_ptr(), refusals.len(), positions.as_mut_ptr(), positions.len(),
        )
    }
}

#[inline]
pub(crate) fn open(book: &mut Book, size: u64, shares: u64) -> u16 {
    unsafe { kaldvemir_open(book, size, shares) }
}

#[inline]
pub(crate) fn claim(book: &mut Book, tick: u64, share: u64, length: u64, ticket: &mut u64) -> u16 {
    unsafe { kaldvemir_claim(book, tick, share, length, ticket) }
}

/// The three values are share, position and length.
#[inline]
pub(crate) fn take(
    book: &mut Book, tick: u64, ticket: u64, s0: &mut [u16], s1: &mut [u16], word: &mut [u16], [share, position, length]: &mut [u64; 3],
) -> u16 {
    unsafe {
        kaldvemir_take(
            book, tick, ticket, s0.as_mut_ptr(), s0.len(), s1.as_mut_ptr(), s1.len(), word.as_mut_ptr(), word.len(),
            share, position, length,
        )
    }
}

#[inline]
pub(crate) fn commit(book: &mut Book, tick: u64, ticket: u64, position: u64) -> u16 {
    unsafe { kaldvemir_commit(book, tick, ticket, position) }
}

#[inline]
pub(crate) fn commit_range(book: &mut Book, tick: u64, ticket: u64, first: u64, last: u64) -> u16 {
    unsafe { kaldvemir_commit_range(book, tick, ticket, first, last) }
}

#[inline]
pub(crate) fn release(book: &mut Book, tick: u64, ticket: u64) -> u16 {
    unsafe { kaldvemir_release(book, tick, ticket) }
}

#[inline]
pub(crate) fn report(book: &Book, committed: &mut u64, complete: &mut u64) -> u16 {
    unsafe { kaldvemir_report(book, committed, complete) }
}

#[cfg(test)]
mod tests;
