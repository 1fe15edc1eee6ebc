//! A step through all sizes up to a bound: the run and its visits are tested, the visits by the table of branches, the word that follows found from
//! the heights alone, in the run's own list, and its diagram written.
use super::drawing::write_diagram;
use super::positions::Rank;
use super::run::{after, is_word, start};
use crate::table::{branches_of, listed, BRANCHES};
use kaldvemir::{Stepped, UptoRun};

pub fn step(run: &mut UptoRun, s0: &mut [u16], s1: &mut [u16], word: &mut [u16]) -> Result<Option<Stepped>, u16> {
    if !valid(run) {
        return Err(34);
    }
    if run.stage == 2 {
        return Ok(None);
    }
    let raise = following(run);
    carry_out(run, raise, s0, s1, word, write_diagram)
}

/// Moves a run on by a raise of its word, and draws the diagram; without one the run is finished.
#[inline(always)]
pub fn carry_out(
    run: &mut UptoRun, raise: Option<Raise>, s0: &mut [u16], s1: &mut [u16], word: &mut [u16],
    draw: fn(&[u16], &mut [u16], &mut [u16]),
) -> Result<Option<Stepped>, u16> {
    let Some(Raise { place, event, pending, free }) = raise else {
        *run = UptoRun { bound: run.bound, stage: 2, length: 0, items: [0; 51], visits: run.visits };
        return Ok(None);
    };
    let size = run.bound as usize - free;
    if s0.len() < size || s1.len() < size || word.len() <= size {
        return Err(9);
    }
    // W is 0, and ends the word once for each label pending.
    let length = place + 1 + pending;
    run.items[place] = event;
    run.items[place + 1..].fill(0);
    run.length = length as u16;
    run.stage = 1;
    run.visits += (length - 1 - place) as u64;
    let items = &run.items[..length];
    word[..length].copy_from_slice(items);
    draw(items, s0, s1);
    Ok(Some(Stepped { size, length, visits: run.visits }))
}

fn valid(run: &UptoRun) -> bool {
    if !listed(run.bound as u64) || run.length > 51 {
        return false;
    }
    let n = run.bound as usize;
    let (word, rest) = run.items.split_at(run.length as usize);
    rest.iter().all(|&x| x == 0)
        && match run.stage {
            0 => word.is_empty() && run.visits == 0,
            1 => is_word_upto(word, n) && run.visits == visits_of(word, n),
            2 => word.is_empty() && run.visits == branches_of(n),
            _ => false,
        }
}

/// Whether the items are a word of the size that their labels say, and that is at most n.
fn is_word_upto(word: &[u16], n: usize) -> bool {
    let Some((&first, items)) = word.split_first() else {
        return false;
    };
    let labels = |item: u16| [0, 3, 1, 0][item.min(3) as usize];
    let size = [1, 3][first.min(1) as usize] + items.iter().map(|&item| labels(item)).sum::<usize>();
    size <= n && is_word(word, size)
}

/// The branch visits at a word: the beginnings that come before it, of which its own are one for each item but the last.
pub fn visits_of(word: &[u16], n: usize) -> u64 {
    Rank::of(&BRANCHES, n, word) + (word.len() - 1) as u64
}

/// An item that is raised, and how many labels are pending and free after it.
pub struct Raise {
    pub place: usize,
    pub event: u16,
    pub pending: usize,
    pub free: usize,
}

/// The least event above an item that can be read, as a raise of that item. Every word can be ended from there.
#[inline]
fn above(h: usize, f: usize, place: usize, item: u16) -> Option<Raise> {
    let jump = item.max(2) + 1;
    let raise = |event| after(h, f, event).map(|(pending, free)| Raise { place, event, pending, free });
    [1, 2, jump].into_iter().find_map(|event| if event > item { raise(event) } else { None })
}

/// What the next word of a valid run, fresh or at a diagram, is made by: the last item that can be raised is.
fn following(run: &UptoRun) -> Option<Raise> {
    let n = run.bound as usize;
    let root = |event| start(n, event).map(|(pending, free)| Raise { place: 0, event, pending, free });
    if run.stage == 0 {
        return root(0);
    }
    let (mut h, mut f) = start(n, run.items[0])?;
    let mut last = if run.items[0] == 0 { root(1) } else { None };
    for (i, &item) in run.items[..run.length as usize].iter().enumerate().skip(1) {
        last = above(h, f, i, item).or(last);
        (h, f) = after(h, f, item)?;
    }
    last
}
