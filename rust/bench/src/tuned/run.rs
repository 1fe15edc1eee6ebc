//! A run's step: the word that follows, from the heights alone, and its diagram.
use super::spelling::spell;
use kaldvemir::Run;
use crate::table::{ends, listed};

/// The length of the word written, 0 at the end.
pub fn step(run: &mut Run, s0: &mut [u16], s1: &mut [u16], word: &mut [u16]) -> Result<usize, u16> {
    if !valid(run) {
        return Err(34);
    }
    if run.stage == 2 {
        return Ok(0);
    }
    let n = run.size as usize;
    if s0.len() < n || s1.len() < n || word.len() <= n {
        return Err(9);
    }
    if !advance(run) {
        *run = Run { size: run.size, stage: 2, length: 0, items: [0; 51] };
        return Ok(0);
    }
    let items = &run.items[..run.length as usize];
    word[..items.len()].copy_from_slice(items);
    spell(items, &mut s0[..n], &mut s1[..n]);
    Ok(items.len())
}

fn valid(run: &Run) -> bool {
    if !listed(run.size as u64) || run.length > 51 || run.stage > 2 {
        return false;
    }
    let (word, rest) = run.items.split_at(run.length as usize);
    if rest.iter().fold(0, |any, &x| any | x) != 0 {
        return false;
    }
    if run.stage == 1 {
        is_word(word, run.size as usize)
    } else {
        word.is_empty()
    }
}

/// How an item changes the height (a popped label counted) and the labels free; every jump is an item 3 here.
const RISE: [usize; 4] = [0, 2, 0, usize::MAX];
const COST: [usize; 4] = [0, 3, 1, 0];

/// Whether the items empty the stack just as they use up the labels. Without a branch on an item, since items are hard to foretell; what wraps
/// around is caught by the comparison with what the item needs.
fn is_word(word: &[u16], n: usize) -> bool {
    let (mut h, mut f) = match word.first() {
        Some(0) => (1, n - 1),
        Some(1) if n >= 3 => (3, n - 3),
        _ => return false,
    };
    let mut good = true;
    for &item in &word[1..] {
        let kind = item.min(3) as usize;
        good &= (h >= 1) & (f >= COST[kind]) & ((item as usize) < h.max(1) + 2 || item < 3);
        h = h.wrapping_sub(1).wrapping_add(RISE[kind]);
        f = f.wrapping_sub(COST[kind]);
    }
    good & (h == 0) & (f == 0)
}

/// Moves a valid run, fresh or at a diagram, to the next word; false, and the run as it was, after the last.
fn advance(run: &mut Run) -> bool {
    let n = run.size as usize;
    let (mut h, mut f) = (0, 0);
    for i in (1..run.length as usize).rev() {
        let item = run.items[i];
        (h, f) = match item {
            0 => (h + 1, f),
            1 => (h - 1, f + 3),
            2 => (h + 1, f + 1),
            _ => (h + 2, f),
        };
        if let Some((event, h, f)) = raise(h, f, item) {
            run.items[i] = event;
            finish(run, i + 1, h, f);
            return true;
        }
    }
    if run.stage == 0 && ends(1, n - 1) {
        run.items[0] = 0;
        finish(run, 1, 1, n - 1);
        return true;
    }
    if (run.stage == 0 || run.items[0] == 0) && n >= 3 {
        run.items[0] = 1;
        finish(run, 1, 3, n - 3);
        return true;
    }
    false
}

/// The least event above an item from which the word can be ended, with the height and the labels free after it.
#[inline(always)]
fn raise(h: usize, f: usize, item: u16) -> Option<(u16, usize, usize)> {
    if item < 1 && f >= 3 && ends(h + 1, f - 3) {
        return Some((1, h + 1, f - 3));
    }
    if item < 2 && f >= 1 && ends(h - 1, f - 1) {
        return Some((2, h - 1, f - 1));
    }
    let jump = if item < 3 { 3 } else { item + 1 };
    if (jump as usize - 3) + 1 < h && ends(h - 2, f) {
        return Some((jump, h - 2, f));
    }
    None
}

/// Writes the least way to end from place `at` on, and zeros up to the end of the word before.
fn finish(run: &mut Run, at: usize, mut h: usize, mut f: usize) {
    let mut i = at;
    while h != 0 {
        let item;
        (item, h, f) = if ends(h - 1, f) { (0, h - 1, f) } else { raise(h, f, 0).expect("the word can be ended") };
        run.items[i] = item;
        i += 1;
    }
    let before = run.length as usize;
    if i < before {
        run.items[i..before].fill(0);
    }
    run.length = i as u16;
    run.stage = 1;
}
