//! The share book's claim, take, commit and range of commits, on the book in its place. Condition 50 is tested in one loop over the shares.
use super::positions::diagram_at;
use kaldvemir::Taken;
use kaldvemir::Book;
use crate::table::{count_of, listed};

const MAX_SHARES: u64 = 32;
const MAX_ISSUED: u64 = 65_535;
const MAX_LENGTH: u64 = 65_535;
const TICKS: u64 = 1 << 48;

/// The last position of share j of k, the count being `total`.
#[inline]
fn last_of(total: u64, k: u64, j: u64) -> u64 {
    j * total / k
}

/// Whether the next position of the share at place i is past its last.
fn finished(book: &Book, i: usize) -> bool {
    book.next[i] > last_of(count_of(book.size as usize), book.shares, i as u64 + 1)
}

/// Condition 50.
fn valid(book: &Book) -> bool {
    if !listed(book.size) || !(1..=MAX_SHARES).contains(&book.shares) || book.issued > MAX_ISSUED || book.latest >= TICKS {
        return false;
    }
    let unused = |list: &[u64]| list[book.shares as usize..].iter().fold(0, |any, &x| any | x);
    shares_valid(book) && unused(&book.next) | unused(&book.ticket) | unused(&book.expiry) == 0
}

/// One loop over the shares, each share's last position found from the one before. Tickets other than 0 that differ modulo 128 differ; only where two do
/// not are they compared with one another. A share without a ticket has a mark of its own.
fn shares_valid(book: &Book) -> bool {
    let (k, total) = (book.shares, count_of(book.size as usize));
    let (step, part) = (total / k, total % k);
    let (mut before, mut rest) = (0, 0);
    let (mut seen, mut clash) = ([false; 128 + MAX_SHARES as usize], false);
    for (i, ((&next, &ticket), &expiry)) in book.next.iter().zip(&book.ticket).zip(&book.expiry).take(k as usize).enumerate() {
        rest += part;
        let more = (rest >= k) as u64;
        rest -= more * k;
        let last = before + step + more;
        let placed = before < next && next <= last + 1 && (next <= last || ticket == 0);
        before = last;
        if !(placed && ticket <= book.issued && (ticket != 0 || expiry == 0) && expiry <= book.latest + MAX_LENGTH) {
            return false;
        }
        let seen = &mut seen[if ticket == 0 { 128 + i } else { ticket as usize % 128 }];
        clash |= *seen;
        *seen = true;
    }
    !clash || differ(&book.ticket[..k as usize])
}

/// Whether no two tickets other than 0 are equal.
fn differ(tickets: &[u64]) -> bool {
    tickets.iter().enumerate().all(|(i, &ticket)| ticket == 0 || !tickets[..i].contains(&ticket))
}

/// 50, then 52.
fn admit(book: &Book, tick: u64) -> Result<(), u16> {
    if !valid(book) {
        return Err(50);
    }
    if tick < book.latest || tick >= TICKS {
        return Err(52);
    }
    Ok(())
}

pub fn claim(book: &mut Book, tick: u64, share: u64, length: u64) -> Result<u64, u16> {
    admit(book, tick)?;
    if !(1..=book.shares).contains(&share) {
        return Err(53);
    }
    if !(1..=MAX_LENGTH).contains(&length) {
        return Err(54);
    }
    let i = share as usize - 1;
    if finished(book, i) {
        return Err(55);
    }
    if book.ticket[i] != 0 && tick < book.expiry[i] {
        return Err(56);
    }
    if book.issued == MAX_ISSUED {
        return Err(57);
    }
    book.latest = tick;
    book.issued += 1;
    book.ticket[i] = book.issued;
    book.expiry[i] = tick + length;
    Ok(book.issued)
}

/// The place of the share where the ticket stands and has not lapsed, or 50, 52, 58, 59.
fn standing(book: &Book, tick: u64, ticket: u64) -> Result<usize, u16> {
    admit(book, tick)?;
    if ticket == 0 {
        return Err(58);
    }
    let i = book.ticket[..book.shares as usize].iter().position(|&t| t == ticket).ok_or(58u16)?;
    if book.expiry[i] <= tick {
        return Err(59);
    }
    Ok(i)
}

pub fn take(book: &mut Book, tick: u64, ticket: u64, s0: &mut [u16], s1: &mut [u16], word: &mut [u16]) -> Result<Taken, u16> {
    let i = standing(book, tick, ticket)?;
    let position = book.next[i];
    let length = diagram_at(book.size, position, s0, s1, word)?;
    book.latest = tick;
    Ok(Taken { share: i as u64 + 1, position, length })
}

pub fn commit(book: &mut Book, tick: u64, ticket: u64, position: u64) -> Result<(), u16> {
    let i = standing(book, tick, ticket)?;
    if book.next[i] != position {
        return Err(60);
    }
    book.latest = tick;
    book.next[i] += 1;
    if finished(book, i) {
        book.ticket[i] = 0;
        book.expiry[i] = 0;
    }
    Ok(())
}

pub fn commit_range(book: &mut Book, tick: u64, ticket: u64, first: u64, last: u64) -> Result<(), u16> {
    let i = standing(book, tick, ticket)?;
    if last < first || book.next[i] != first {
        return Err(60);
    }
    if last > last_of(count_of(book.size as usize), book.shares, i as u64 + 1) {
        return Err(58);
    }
    book.latest = tick;
    book.next[i] = last + 1;
    if finished(book, i) {
        book.ticket[i] = 0;
        book.expiry[i] = 0;
    }
    Ok(())
}
