//! The share book of size 24. In each row a ticket stands at every share, so that the test for equal tickets has all its work.
use super::row;
use kaldvemir::Taken;
use kaldvemir::Book;
use crate::timing::Row;
use crate::{library, same, tuned};
use std::hint::black_box;

const CALLS: u64 = 30_000;

type Claim = fn(&mut Book, u64, u64, u64) -> Result<u64, u16>;
type Take = fn(&mut Book, u64, u64, &mut [u16], &mut [u16], &mut [u16]) -> Result<Taken, u16>;
type Commit = fn(&mut Book, u64, u64, u64) -> Result<(), u16>;
type CommitRange = fn(&mut Book, u64, u64, u64, u64) -> Result<(), u16>;

/// How many positions a range commits, and how many ranges a piece of work has.
const POSITIONS: u64 = 1_000;
const RANGES: u64 = 100;

pub fn opened(size: u64, shares: u64) -> Book {
    let mut book = Book::blank();
    library::open(&mut book, size, shares).unwrap();
    book
}

/// A book whose shares 1, 2, .. have the tickets 1, 2, ..
pub fn claimed(shares: u64) -> Book {
    let mut book = opened(24, shares);
    for share in 1..=shares {
        library::claim(&mut book, 1, share, 60_000).unwrap();
    }
    book
}

/// A book of 32 shares whose tickets differ and are all equal modulo 128, as old tickets that still stand may be.
pub fn clashing() -> Book {
    let mut book = claimed(32);
    for (i, ticket) in (0..).zip(&mut book.ticket) {
        *ticket = 1 + 128 * i;
    }
    book.issued = book.ticket[31];
    book
}

/// Claims of the shares up to some number in turn, each at the tick at which its ticket has just lapsed.
fn claims(start: Book, shares: u64) -> Row {
    let work = |f: Claim| {
        let start = start.clone();
        move || {
            let mut book = start.clone();
            let first = book.latest;
            for i in 0..CALLS {
                black_box(f(black_box(&mut book), first + i, i % shares + 1, shares).unwrap());
            }
            book.issued + book.expiry[0]
        }
    };
    row(CALLS, work(library::claim), work(same::book::claim), work(tuned::book::claim))
}

pub fn claim(shares: u64) -> Row {
    claims(opened(24, shares), shares)
}

/// Share 1 is claimed again and again, while the tickets of the others clash.
pub fn claim_clashing() -> Row {
    let mut book = clashing();
    (book.ticket[0], book.expiry[0]) = (0, 0);
    claims(book, 1)
}

pub fn take(start: Book) -> Row {
    let work = |f: Take| {
        let start = start.clone();
        let (mut s0, mut s1, mut word) = ([0; 24], [0; 24], [0; 25]);
        move || {
            let mut book = start.clone();
            let mut sum = 0;
            for i in 0..CALLS {
                let ticket = book.ticket[(i % book.shares) as usize];
                let taken = f(black_box(&mut book), 2 + i, ticket, &mut s0, &mut s1, &mut word).unwrap();
                sum += taken.share + taken.position + taken.length as u64 + black_box(&s1)[12] as u64;
            }
            sum
        }
    };
    row(CALLS, work(library::take), work(same::book::take), work(tuned::book::take))
}

pub fn commit(start: Book) -> Row {
    let work = |f: Commit| {
        let start = start.clone();
        move || {
            let mut book = start.clone();
            for i in 0..CALLS {
                let at = (i % book.shares) as usize;
                let (ticket, position) = (book.ticket[at], book.next[at]);
                f(black_box(&mut book), 2 + i, ticket, position).unwrap();
            }
            book.next.iter().sum::<u64>() + book.latest
        }
    };
    row(CALLS, work(library::commit), work(same::book::commit), work(tuned::book::commit))
}

/// A thousand positions of a share, of each share in turn, by what commits the positions first to last.
fn thousands<F: Fn(&mut Book, u64, u64, u64, u64) + 'static>(each: F) -> impl FnMut() -> u64 + 'static {
    let start = claimed(4);
    move || {
        let mut book = start.clone();
        for i in 0..RANGES {
            let at = (i % 4) as usize;
            let first = book.next[at];
            each(black_box(&mut book), 2 + i, at as u64 + 1, first, first + POSITIONS - 1);
        }
        book.next.iter().sum::<u64>() + book.latest
    }
}

/// The time is that of the thousand; the row beside it is the same work by single commits.
pub fn thousand_in_one_call() -> Row {
    let work = |f: CommitRange| thousands(move |book, tick, ticket, first, last| f(book, tick, ticket, first, last).unwrap());
    row(RANGES, work(library::commit_range), work(same::book::commit_range), work(tuned::book::commit_range))
}

pub fn thousand_one_by_one() -> Row {
    let work = |f: Commit| thousands(move |book, tick, ticket, first, last| (first..=last).for_each(|position| f(book, tick, ticket, position).unwrap()));
    row(RANGES, work(library::commit), work(same::book::commit), work(tuned::book::commit))
}
