//! Diagram at a position, and position of a diagram, by a static table of counts.
use super::check::{check, maps};
use super::labelling::{Bits, Rooting};
use super::pending::Stack;
use super::spelling::Speller;
use super::SMALL;
use crate::table::{count_of, listed, MAX_LISTED, WAYS};

pub fn diagram_at(size: u64, position: u64, s0: &mut [u16], s1: &mut [u16], word: &mut [u16]) -> Result<usize, u16> {
    if !listed(size) {
        return Err(31);
    }
    let n = size as usize;
    if position == 0 || position > count_of(n) {
        return Err(32);
    }
    if s0.len() < n || s1.len() < n || word.len() <= n {
        return Err(9);
    }
    Ok(write_at(n, position - 1, &mut s0[..n], &mut s1[..n], &mut word[..n + 1]))
}

/// Finds each event and spells it at once. `place` counts from 0.
fn write_at(n: usize, mut place: u64, s0: &mut [u16], s1: &mut [u16], word: &mut [u16]) -> usize {
    let single = WAYS[1][n - 1];
    let root = (place >= single) as u16;
    let mut free = n - 1;
    if root == 1 {
        place -= single;
        free = n - 3;
    }
    word[0] = root;
    let mut room = [0; SMALL];
    let mut speller = Speller::new(s0, s1, Stack::over(&mut room), root);
    let mut length = 1;
    while speller.height() > 0 {
        let item = choose(speller.height() - 1, &mut free, &mut place);
        speller.event(item);
        word[length] = item;
        length += 1;
    }
    length
}

/// The event whose block the place falls in, h labels standing below the one that is popped; the place becomes that within the block.
#[inline(always)]
fn choose(h: usize, free: &mut usize, place: &mut u64) -> u16 {
    let f = *free;
    if *place < WAYS[h][f] {
        return 0;
    }
    *place -= WAYS[h][f];
    if f >= 3 {
        let forks = WAYS[h + 2][f - 3];
        if *place < forks {
            *free = f - 3;
            return 1;
        }
        *place -= forks;
    }
    if f >= 1 {
        let singles = WAYS[h][f - 1];
        if *place < singles {
            *free = f - 1;
            return 2;
        }
        *place -= singles;
    }
    let block = WAYS[h - 1][f];
    let d = *place / block;
    *place %= block;
    3 + d as u16
}

pub fn position(s0: &[u16], s1: &[u16], root: u64) -> Result<u64, u16> {
    if s0.len() > MAX_LISTED {
        check(s0, s1, root)?;
        return Err(31);
    }
    maps(s0, s1, root)?;
    rank(s0, s1, root as u16).ok_or(8)
}

/// The place of the diagram's word, summed as its items are found; nothing where not every edge is labelled.
fn rank(s0: &[u16], s1: &[u16], root: u16) -> Option<u64> {
    let n = s0.len();
    let mut room = [0; SMALL];
    let mut rooting = Rooting::<Bits, SMALL>::new(s0, s1, Stack::over(&mut room));
    let (mut h, mut f, mut place) = (1, n - 1, 1);
    if rooting.start(root) == 1 {
        (h, f, place) = (3, n - 3, 1 + WAYS[1][n - 1]);
    }
    while let Some(item) = rooting.item() {
        h -= 1;
        match item {
            0 => {}
            1 => {
                place += WAYS[h][f];
                h += 2;
                f -= 3;
            }
            2 => {
                place += WAYS[h][f] + if f >= 3 { WAYS[h + 2][f - 3] } else { 0 };
                f -= 1;
            }
            _ => {
                let forks = if f >= 3 { WAYS[h + 2][f - 3] } else { 0 };
                let singles = if f >= 1 { WAYS[h][f - 1] } else { 0 };
                h -= 1;
                place += WAYS[h + 1][f] + forks + singles + (item as u64 - 3) * WAYS[h][f];
            }
        }
    }
    (f == 0).then_some(place)
}
