//! The share book: one list divided among sessions.
use crate::answers::{answered, given, numbers, places, truth};
use crate::raw;
use crate::Refusal;

/// A share book. The caller owns it and lends it to each operation; entry j - 1 of each list is share j's. Every operation but
/// [`open`](Book::open) refuses 50, a book that is not valid; then all but the [`report`](Book::report) refuse 52, a tick below the latest or from
/// 2^48 on.
#[repr(C)]
#[derive(Clone, Debug, PartialEq, Eq, Hash)]
pub struct Book {
    /// The size of the diagrams.
    pub size: u64,
    /// How many shares there are.
    pub shares: u64,
    /// The latest tick of an accepted call.
    pub latest: u64,
    /// How many tickets have been issued.
    pub issued: u64,
    /// Each share's next position.
    pub next: [u64; 32],
    /// The ticket that stands at each share, 0 where none does.
    pub ticket: [u64; 32],
    /// The tick at which that ticket lapses, 0 without a ticket.
    pub expiry: [u64; 32],
}

/// What [`take`](Book::take) gives beside the diagram.
#[derive(Clone, Copy, Debug, PartialEq, Eq, Hash)]
pub struct Taken {
    /// The share where the ticket stands.
    pub share: u64,
    /// That share's next position, which is the diagram's.
    pub position: u64,
    /// The length of the diagram's word.
    pub length: usize,
}

/// What [`report`](Book::report) gives.
#[derive(Clone, Copy, Debug, PartialEq, Eq, Hash)]
pub struct Report {
    /// How many positions have been committed.
    pub committed: u64,
    /// Whether every share is finished.
    pub complete: bool,
}

impl Book {
    /// A book of zeros, to be opened; no other operation takes it.
    pub fn blank() -> Book {
        Book { size: 0, shares: 0, latest: 0, issued: 0, next: [0; 32], ticket: [0; 32], expiry: [0; 32] }
    }

    /// Open: the list of a size in so many shares, with nothing claimed. Refuses 31; 51.
    #[inline]
    pub fn open(&mut self, size: u64, shares: u64) -> Result<(), Refusal> {
        answered(raw::open(self, size, shares))
    }

    /// Claim a share until `tick + length`: returns the ticket. Refuses 50; 52; 53; 54; 55; 56; 57.
    #[inline]
    pub fn claim(&mut self, tick: u64, share: u64, length: u64) -> Result<u64, Refusal> {
        given(|ticket| raw::claim(self, tick, share, length, ticket))
    }

    /// Take: writes the diagram at the next position of the ticket's share. Refuses 50; 52; 58; 59; 9 where an output list has fewer than n, n and
    /// n + 1 places.
    #[inline]
    pub fn take(&mut self, tick: u64, ticket: u64, s0: &mut [u16], s1: &mut [u16], word: &mut [u16]) -> Result<Taken, Refusal> {
        let [share, position, length] = numbers(|values| raw::take(self, tick, ticket, s0, s1, word, values))?;
        Ok(Taken { share, position, length: places(length) })
    }

    /// Commit the next position of the ticket's share. Refuses 50; 52; 58; 59; 60.
    #[inline]
    pub fn commit(&mut self, tick: u64, ticket: u64, position: u64) -> Result<(), Refusal> {
        answered(raw::commit(self, tick, ticket, position))
    }

    /// Commit the positions `first` to `last` of the ticket's share, as that many commits at that tick would, all of them or none; where one of them
    /// would be refused, that refusal. Refuses 50; 52; 58, also where `last` is past the share's last position; 59; 60, also where `first` is above `last`.
    #[inline]
    pub fn commit_range(&mut self, tick: u64, ticket: u64, first: u64, last: u64) -> Result<(), Refusal> {
        answered(raw::commit_range(self, tick, ticket, first, last))
    }

    /// Release: the ticket's share is free. Refuses 50; 52; 58; 59.
    #[inline]
    pub fn release(&mut self, tick: u64, ticket: u64) -> Result<(), Refusal> {
        answered(raw::release(self, tick, ticket))
    }

    /// Report: how many positions have been committed, and whether every share is finished. Refuses 50.
    #[inline]
    pub fn report(&self) -> Result<Report, Refusal> {
        let [committed, complete] = numbers(|[committed, complete]| raw::report(self, committed, complete))?;
        Ok(Report { committed, complete: truth(complete) })
    }
}
