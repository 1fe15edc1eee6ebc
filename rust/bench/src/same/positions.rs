//! Diagram at a position, and position of a diagram, by the table of counts.
use super::check::{check, maps};
use super::drawing::Drawing;
use super::labelling::{Labels, Rooting, SMALL_PLACES};
use super::ring::Ring;
use crate::table::{count_of, listed, Table, MAX_LISTED, WAYS};

pub fn diagram_at(size: u64, position: u64, s0: &mut [u16], s1: &mut [u16], word: &mut [u16]) -> Result<usize, u16> {
    if !listed(size) {
        return Err(31);
    }
    let n = size as usize;
    if position == 0 || position > count_of(n) {
        return Err(32);
    }
    if s0.len() < n || s1.len() < n || word.len() <= n {
        return Err(9);
    }
    Ok(write_at(n, position - 1, s0, s1, word))
}

/// What a table has for going on with F and with B, at h labels below the one that is popped.
#[inline]
fn forks(table: &Table, h: usize, f: usize) -> u64 {
    if f >= 3 { table[h + 2][f - 3] } else { 0 }
}

#[inline]
fn singles(table: &Table, h: usize, f: usize) -> u64 {
    if f >= 1 { table[h][f - 1] } else { 0 }
}

/// Writes the word at a place, counted from 0, and its diagram, each event drawn as it is chosen; returns the word's length.
fn write_at(n: usize, mut place: u64, s0: &mut [u16], s1: &mut [u16], word: &mut [u16]) -> usize {
    let single = WAYS[1][n - 1];
    word[0] = (place >= single) as u16;
    if word[0] == 1 {
        place -= single;
    }
    let mut stack = [0; 64];
    let mut drawing = Drawing::begin(word[0], s0, s1, &mut stack);
    let mut length = 1;
    while drawing.height != 0 {
        let item;
        (item, place) = choose(drawing.height - 1, n - drawing.used, place);
        drawing.event(item);
        word[length] = item;
        length += 1;
    }
    length
}

/// The event in whose block the place falls, and the place within the block.
#[inline]
fn choose(h: usize, f: usize, mut place: u64) -> (u16, u64) {
    for (item, block) in [(0, WAYS[h][f]), (1, forks(&WAYS, h, f)), (2, singles(&WAYS, h, f))] {
        if place < block {
            return (item, place);
        }
        place -= block;
    }
    let block = WAYS[h - 1][f];
    (3 + (place / block) as u16, place % block)
}

pub fn position(s0: &[u16], s1: &[u16], root: u64) -> Result<u64, u16> {
    let n = s0.len();
    if n > MAX_LISTED {
        check(s0, s1, root)?;
        return Err(31);
    }
    maps(s0, s1, root)?;
    let (mut labels, mut pending) = (Labels::<SMALL_PLACES>::none(), Ring::empty());
    let mut rooting = Rooting::new(s0, s1, &mut labels, &mut pending);
    let mut rank = Rank::begin(&WAYS, n, rooting.begin(root as u16));
    while let Some(item) = rooting.event() {
        rank.add(item);
    }
    rooting.whole()?;
    Ok(1 + rank.before)
}

/// For the items of a word so far, what a table has for going on with an event before each.
pub struct Rank<'a> {
    table: &'a Table,
    pending: usize,
    free: usize,
    pub before: u64,
}

impl<'a> Rank<'a> {
    #[inline(always)]
    pub fn begin(table: &'a Table, n: usize, first: u16) -> Self {
        match first {
            0 => Rank { table, pending: 1, free: n - 1, before: 0 },
            _ => Rank { table, pending: 3, free: n - 3, before: table[1][n - 1] },
        }
    }

    #[inline(always)]
    pub fn add(&mut self, item: u16) {
        let (table, h, f) = (self.table, self.pending - 1, self.free);
        match item {
            0 => self.pending = h,
            1 => {
                self.before += table[h][f];
                (self.pending, self.free) = (h + 2, f - 3);
            }
            2 => {
                self.before += table[h][f] + forks(table, h, f);
                (self.pending, self.free) = (h, f - 1);
            }
            _ => {
                self.before += table[h][f] + forks(table, h, f) + singles(table, h, f) + (item as u64 - 3) * table[h - 1][f];
                self.pending = h - 1;
            }
        }
    }

    /// Of a whole word.
    #[inline(always)]
    pub fn of(table: &'a Table, n: usize, word: &[u16]) -> u64 {
        let mut rank = Rank::begin(table, n, word[0]);
        word[1..].iter().for_each(|&item| rank.add(item));
        rank.before
    }
}
