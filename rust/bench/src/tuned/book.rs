//! The share book's claim, take, commit and range of commits, on the book in its place.
use super::positions::diagram_at;
use kaldvemir::Taken;
use kaldvemir::Book;
use crate::table::{count_of, listed};

const MAX_SHARES: usize = 32;
const MAX_ISSUED: u64 = 65_535;
const MAX_LENGTH: u64 = 65_535;
const TICKS: u64 = 1 << 48;

/// The last positions of shares 1, 2, and so on: floor(j N / k), with one division for all of them.
struct Lasts {
    last: u64,
    part: u64,
    step: u64,
    rest: u64,
    shares: u64,
}

impl Lasts {
    #[inline(always)]
    fn new(total: u64, shares: u64) -> Self {
        Lasts { last: 0, part: 0, step: total / shares, rest: total % shares, shares }
    }

    #[inline(always)]
    fn next(&mut self) -> u64 {
        self.last += self.step;
        self.part += self.rest;
        if self.part >= self.shares {
            self.part -= self.shares;
            self.last += 1;
        }
        self.last
    }
}

#[inline(always)]
fn last_of(book: &Book, share: usize) -> u64 {
    share as u64 * count_of(book.size as usize) / book.shares
}

/// Condition 50.
fn valid(book: &Book) -> bool {
    if !listed(book.size) || book.shares.wrapping_sub(1) >= MAX_SHARES as u64 || book.issued > MAX_ISSUED || book.latest >= TICKS {
        return false;
    }
    shares_valid(book) && tickets_differ(book) && rest_unused(book)
}

fn shares_valid(book: &Book) -> bool {
    let k = book.shares as usize;
    let mut lasts = Lasts::new(count_of(book.size as usize), book.shares);
    let bound = book.latest + MAX_LENGTH;
    let mut before = 0;
    let mut good = true;
    for ((&next, &ticket), &expiry) in book.next[..k].iter().zip(&book.ticket[..k]).zip(&book.expiry[..k]) {
        let last = lasts.next();
        good &= (before < next) & (next <= last + 1);
        good &= (next <= last) | (ticket == 0);
        good &= (ticket <= book.issued) & (expiry <= bound) & ((ticket != 0) | (expiry == 0));
        before = last;
    }
    good
}

/// Up to this many shares, comparing each ticket with those before it is the faster way.
const FEW: usize = 8;

/// No two tickets other than 0 are equal.
fn tickets_differ(book: &Book) -> bool {
    let tickets = &book.ticket[..book.shares as usize];
    if tickets.len() > FEW {
        return many_differ(&book.ticket);
    }
    tickets.iter().enumerate().all(|(i, &ticket)| ticket == 0 || !tickets[..i].contains(&ticket))
}

/// The tickets are known to fit 16 bits; each is compared with the 16 after it, in a circle, many at once.
fn many_differ(tickets: &[u64; MAX_SHARES]) -> bool {
    let mut twice = [0u16; 2 * MAX_SHARES];
    for (i, &ticket) in tickets.iter().enumerate() {
        twice[i] = ticket as u16;
        twice[i + MAX_SHARES] = ticket as u16;
    }
    let mut equal = [0u16; MAX_SHARES];
    for far in 1..=MAX_SHARES / 2 {
        for i in 0..MAX_SHARES {
            equal[i] |= (twice[i] == twice[i + far]) as u16;
        }
    }
    (0..MAX_SHARES).fold(true, |good, i| good & (equal[i] == 0 || twice[i] == 0))
}

fn rest_unused(book: &Book) -> bool {
    let k = book.shares as usize;
    let any = |list: &[u64]| list.iter().fold(0, |any, &x| any | x);
    any(&book.next[k..]) | any(&book.ticket[k..]) | any(&book.expiry[k..]) == 0
}

/// 50, then 52.
#[inline(always)]
fn admit(book: &Book, tick: u64) -> Result<(), u16> {
    if !valid(book) {
        return Err(50);
    }
    if tick < book.latest || tick >= TICKS {
        return Err(52);
    }
    Ok(())
}

pub fn claim(book: &mut Book, tick: u64, share: u64, length: u64) -> Result<u64, u16> {
    admit(book, tick)?;
    if share.wrapping_sub(1) >= book.shares {
        return Err(53);
    }
    if length.wrapping_sub(1) >= MAX_LENGTH {
        return Err(54);
    }
    let i = share as usize - 1;
    if book.next[i] > last_of(book, share as usize) {
        return Err(55);
    }
    if book.ticket[i] != 0 && tick < book.expiry[i] {
        return Err(56);
    }
    if book.issued == MAX_ISSUED {
        return Err(57);
    }
    book.latest = tick;
    book.issued += 1;
    book.ticket[i] = book.issued;
    book.expiry[i] = tick + length;
    Ok(book.issued)
}

/// The place of the share where the ticket stands and has not lapsed, or 50, 52, 58, 59.
#[inline(always)]
fn standing(book: &Book, tick: u64, ticket: u64) -> Result<usize, u16> {
    admit(book, tick)?;
    if ticket == 0 {
        return Err(58);
    }
    let i = book.ticket.iter().position(|&t| t == ticket).ok_or(58u16)?;
    if book.expiry[i] <= tick {
        return Err(59);
    }
    Ok(i)
}

pub fn take(book: &mut Book, tick: u64, ticket: u64, s0: &mut [u16], s1: &mut [u16], word: &mut [u16]) -> Result<Taken, u16> {
    let i = standing(book, tick, ticket)?;
    let position = book.next[i];
    let length = diagram_at(book.size, position, s0, s1, word)?;
    book.latest = tick;
    Ok(Taken { share: i as u64 + 1, position, length })
}

pub fn commit(book: &mut Book, tick: u64, ticket: u64, position: u64) -> Result<(), u16> {
    let i = standing(book, tick, ticket)?;
    if book.next[i] != position {
        return Err(60);
    }
    book.latest = tick;
    book.next[i] = position + 1;
    if position + 1 > last_of(book, i + 1) {
        book.ticket[i] = 0;
        book.expiry[i] = 0;
    }
    Ok(())
}

pub fn commit_range(book: &mut Book, tick: u64, ticket: u64, first: u64, last: u64) -> Result<(), u16> {
    let i = standing(book, tick, ticket)?;
    if last < first || book.next[i] != first {
        return Err(60);
    }
    let end = last_of(book, i + 1);
    if last > end {
        return Err(58);
    }
    book.latest = tick;
    book.next[i] = last + 1;
    if last == end {
        book.ticket[i] = 0;
        book.expiry[i] = 0;
    }
    Ok(())
}
