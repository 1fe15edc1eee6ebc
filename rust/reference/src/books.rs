//! The share book, each condition of 01 as a test of its own.
use crate::listing::{count, written, Words};
use crate::{short, Rooms, Written};

/// A share book; entry j - 1 of each list is share j's.
#[derive(Clone, Debug, PartialEq, Eq)]
pub struct Book {
    /// The size of the diagrams.
    pub size: u64,
    /// The number of shares, k.
    pub shares: u64,
    /// The latest tick of an accepted call.
    pub latest: u64,
    /// The number of tickets issued.
    pub issued: u64,
    /// Each share's next position.
    pub next: [u64; 32],
    /// Each share's ticket.
    pub ticket: [u64; 32],
    /// Each share's expiry.
    pub expiry: [u64; 32],
}

/// What take gives.
#[derive(Clone, Debug, PartialEq, Eq)]
pub struct Taken {
    /// The share.
    pub share: u64,
    /// Its next position.
    pub position: u64,
    /// The diagram there.
    pub written: Written,
}

/// What report gives.
#[derive(Clone, Copy, Debug, PartialEq, Eq)]
pub struct Report {
    /// The number of committed positions.
    pub committed: u64,
    /// Whether every share is finished.
    pub complete: bool,
}

/// From this tick on, ticks are turned away.
const TICKS: u64 = 1 << 48;

/// The conditions of 50, of a book whose size and k are in range where the later ones ask for it.
impl Book {
    fn has_size_or_k_out_of_range(&self) -> bool {
        !(1..=50).contains(&self.size) || !(1..=32).contains(&self.shares)
    }

    fn has_a_next_position_outside_its_share_and_the_place_past_it(&self) -> bool {
        self.each().any(|j| self.next[j] < self.first(j) || self.next[j] > self.last(j) + 1)
    }

    fn has_a_finished_share_with_a_ticket(&self) -> bool {
        self.each().any(|j| self.is_finished(j) && self.ticket[j] != 0)
    }

    fn has_equal_tickets(&self) -> bool {
        self.each().any(|j| self.each().any(|i| i != j && self.ticket[i] == self.ticket[j] && self.ticket[j] != 0))
    }

    fn has_a_ticket_above_those_issued(&self) -> bool {
        self.each().any(|j| self.ticket[j] > self.issued)
    }

    fn has_issued_too_many(&self) -> bool {
        self.issued > 65_535
    }

    fn has_too_late_a_latest_tick(&self) -> bool {
        self.latest >= TICKS
    }

    fn has_an_expiry_without_a_ticket(&self) -> bool {
        self.each().any(|j| self.ticket[j] == 0 && self.expiry[j] != 0)
    }

    fn has_an_expiry_too_far_ahead(&self) -> bool {
        self.each().any(|j| u128::from(self.expiry[j]) > u128::from(self.latest) + 65_535)
    }

    fn has_unused_shares_not_all_zero(&self) -> bool {
        (self.shares as usize..32).any(|j| self.next[j] != 0 || self.ticket[j] != 0 || self.expiry[j] != 0)
    }

    /// 50.
    fn valid(&self) -> Result<(), u16> {
        let invalid = self.has_size_or_k_out_of_range()
            || self.has_a_next_position_outside_its_share_and_the_place_past_it()
            || self.has_a_finished_share_with_a_ticket()
            || self.has_equal_tickets()
            || self.has_a_ticket_above_those_issued()
            || self.has_issued_too_many()
            || self.has_too_late_a_latest_tick()
            || self.has_an_expiry_without_a_ticket()
            || self.has_an_expiry_too_far_ahead()
            || self.has_unused_shares_not_all_zero();
        if invalid { Err(50) } else { Ok(()) }
    }

    /// 50; 52.
    fn valid_at(&self, tick: u64) -> Result<(), u16> {
        self.valid()?;
        if tick < self.latest || tick >= TICKS { Err(52) } else { Ok(()) }
    }
}

/// Shares, counted here from 0.
impl Book {
    fn each(&self) -> std::ops::Range<usize> {
        0..self.shares as usize
    }

    /// floor(j·N/k).
    fn border(&self, j: usize) -> u64 {
        let all = count(self.size).expect("a size in range");
        (j as u128 * u128::from(all) / u128::from(self.shares)) as u64
    }

    fn first(&self, j: usize) -> u64 {
        self.border(j) + 1
    }

    fn last(&self, j: usize) -> u64 {
        self.border(j + 1)
    }

    fn is_finished(&self, j: usize) -> bool {
        self.next[j] > self.last(j)
    }

    fn has_lapsed(&self, j: usize, tick: u64) -> bool {
        tick >= self.expiry[j]
    }

    fn end_ticket(&mut self, j: usize) {
        self.ticket[j] = 0;
        self.expiry[j] = 0;
    }

    /// The share where a ticket stands: 58; 59.
    fn held(&self, tick: u64, ticket: u64) -> Result<usize, u16> {
        let j = self.each().find(|j| ticket != 0 && self.ticket[*j] == ticket).ok_or(58_u16)?;
        if self.has_lapsed(j, tick) { Err(59) } else { Ok(j) }
    }
}

impl Book {
    /// A book of zeros.
    pub fn blank() -> Book {
        Book { size: 0, shares: 0, latest: 0, issued: 0, next: [0; 32], ticket: [0; 32], expiry: [0; 32] }
    }

    /// Open: 31; 51.
    pub fn open(&mut self, size: u64, shares: u64) -> Result<(), u16> {
        count(size)?;
        if !(1..=32).contains(&shares) {
            return Err(51);
        }
        *self = Book { size, shares, ..Book::blank() };
        for j in self.each() {
            self.next[j] = self.first(j);
        }
        Ok(())
    }

    /// Claim: 50; 52; 53; 54; 55; 56; 57.
    pub fn claim(&mut self, tick: u64, share: u64, length: u64) -> Result<u64, u16> {
        self.valid_at(tick)?;
        if share < 1 || share > self.shares {
            return Err(53);
        }
        if !(1..=65_535).contains(&length) {
            return Err(54);
        }
        let j = share as usize - 1;
        if self.is_finished(j) {
            return Err(55);
        }
        if self.ticket[j] != 0 && !self.has_lapsed(j, tick) {
            return Err(56);
        }
        if self.issued == 65_535 {
            return Err(57);
        }
        self.issued += 1;
        self.ticket[j] = self.issued;
        self.expiry[j] = tick + length;
        self.latest = tick;
        Ok(self.issued)
    }

    /// Take: 50; 52; 58; 59; 9.
    pub fn take(&mut self, tick: u64, ticket: u64, rooms: Rooms) -> Result<Taken, u16> {
        self.valid_at(tick)?;
        let j = self.held(tick, ticket)?;
        let n = self.size as usize;
        if short(n, rooms) {
            return Err(9);
        }
        self.latest = tick;
        Ok(Taken { share: j as u64 + 1, position: self.next[j], written: written(Words::of_size(n).at(self.next[j])) })
    }

    /// Commit: 50; 52; 58; 59; 60.
    pub fn commit(&mut self, tick: u64, ticket: u64, position: u64) -> Result<(), u16> {
        self.valid_at(tick)?;
        let j = self.held(tick, ticket)?;
        if position != self.next[j] {
            return Err(60);
        }
        self.next[j] += 1;
        if self.is_finished(j) {
            self.end_ticket(j);
        }
        self.latest = tick;
        Ok(())
    }

    /// Commit a range, by its commits one after another on a copy: 50; 52; 58; 59; 60.
    pub fn commit_range(&mut self, tick: u64, ticket: u64, first: u64, last: u64) -> Result<(), u16> {
        let mut copy = self.clone();
        if first > last {
            copy.valid_at(tick)?;
            copy.held(tick, ticket)?;
            return Err(60);
        }
        let mut position = first;
        loop {
            copy.commit(tick, ticket, position)?;
            if position == last {
                break;
            }
            position += 1;
            // Inside a share a commit only moves its next position on: of a long range these are passed over, but for the last few.
            if let Ok(j) = copy.held(tick, ticket) {
                position = position.max(last.min(copy.last(j)).saturating_sub(30));
                copy.next[j] = position;
            }
        }
        *self = copy;
        Ok(())
    }

    /// Release: 50; 52; 58; 59.
    pub fn release(&mut self, tick: u64, ticket: u64) -> Result<(), u16> {
        self.valid_at(tick)?;
        let j = self.held(tick, ticket)?;
        self.end_ticket(j);
        self.latest = tick;
        Ok(())
    }

    /// Report: 50.
    pub fn report(&self) -> Result<Report, u16> {
        self.valid()?;
        let committed = self.each().map(|j| self.next[j] - self.first(j)).sum();
        Ok(Report { committed, complete: self.each().all(|j| self.is_finished(j)) })
    }
}
