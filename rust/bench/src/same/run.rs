//! A run's step: the run is tested, the word that follows found from the heights alone, in the run's own list, and its diagram written.
use super::drawing::write_diagram;
use kaldvemir::Run;
use crate::table::{ends, listed};

/// The length of the word written, 0 at the end.
pub fn step(run: &mut Run, s0: &mut [u16], s1: &mut [u16], word: &mut [u16]) -> Result<usize, u16> {
    if !valid(run) {
        return Err(34);
    }
    if run.stage == 2 {
        return Ok(0);
    }
    let n = run.size as usize;
    if s0.len() < n || s1.len() < n || word.len() <= n {
        return Err(9);
    }
    if !advance(run) {
        *run = Run { size: run.size, stage: 2, length: 0, items: [0; 51] };
        return Ok(0);
    }
    let items = &run.items[..run.length as usize];
    word[..items.len()].copy_from_slice(items);
    write_diagram(items, s0, s1);
    Ok(items.len())
}

fn valid(run: &Run) -> bool {
    if !listed(run.size as u64) || run.length > 51 {
        return false;
    }
    let (word, rest) = run.items.split_at(run.length as usize);
    rest.iter().all(|&x| x == 0)
        && match run.stage {
            1 => is_word(word, run.size as usize),
            0 | 2 => word.is_empty(),
            _ => false,
        }
}

/// The height and the labels free after the first item, U or T.
#[inline]
pub fn start(n: usize, item: u16) -> Option<(usize, usize)> {
    match item {
        0 => Some((1, n - 1)),
        1 if n >= 3 => Some((3, n - 3)),
        _ => None,
    }
}

/// The same after a later item, where it can be read.
#[inline]
pub fn after(h: usize, f: usize, item: u16) -> Option<(usize, usize)> {
    if h == 0 {
        return None;
    }
    match item {
        0 => Some((h - 1, f)),
        1 if f >= 3 => Some((h + 1, f - 3)),
        2 if f >= 1 => Some((h - 1, f - 1)),
        3.. if (item as usize - 3) < h - 1 => Some((h - 2, f)),
        _ => None,
    }
}

/// Whether the items empty the stack just as they use up the labels.
pub fn is_word(word: &[u16], n: usize) -> bool {
    let Some((&first, items)) = word.split_first() else {
        return false;
    };
    let Some((mut h, mut f)) = start(n, first) else {
        return false;
    };
    for &item in items {
        match after(h, f, item) {
            Some(level) => (h, f) = level,
            None => return false,
        }
    }
    (h, f) == (0, 0)
}

/// The least event above an item that leads to an end, with the height and the labels free after it. All jumps lead to the same level.
#[inline]
pub fn above(h: usize, f: usize, item: u16) -> Option<(u16, usize, usize)> {
    let leads = |event| after(h, f, event).filter(|&(h, f)| ends(h, f)).map(|(h, f)| (event, h, f));
    let jump = if item < 3 { 3 } else { item + 1 };
    [1, 2, jump].into_iter().find_map(|event| if event > item { leads(event) } else { None })
}

/// Moves a valid run, fresh or at a diagram, to the next word: the last item that can be raised is. False after the last word.
fn advance(run: &mut Run) -> bool {
    let n = run.size as usize;
    let (mut h, mut f) = (0, 0);
    for i in (1..run.length as usize).rev() {
        let item = run.items[i];
        (h, f) = match item {
            0 => (h + 1, f),
            1 => (h - 1, f + 3),
            2 => (h + 1, f + 1),
            _ => (h + 2, f),
        };
        if let Some((event, h, f)) = above(h, f, item) {
            run.items[i] = event;
            end_word(run, i + 1, h, f);
            return true;
        }
    }
    let from = if run.stage == 0 { 0 } else { run.items[0] + 1 };
    let root = (from..2).find_map(|x| start(n, x).filter(|&(h, f)| ends(h, f)).map(|level| (x, level)));
    let Some((first, (h, f))) = root else {
        return false;
    };
    run.items[0] = first;
    end_word(run, 1, h, f);
    true
}

/// Writes the least way to end from place `at` on, and zeros up to the end of the word before.
fn end_word(run: &mut Run, at: usize, mut h: usize, mut f: usize) {
    let mut i = at;
    while h != 0 {
        let item;
        (item, h, f) = if ends(h - 1, f) { (0, h - 1, f) } else { above(h, f, 0).expect("the word can be ended") };
        run.items[i] = item;
        i += 1;
    }
    let before = run.length as usize;
    if i < before {
        run.items[i..before].fill(0);
    }
    run.length = i as u16;
    run.stage = 1;
}
