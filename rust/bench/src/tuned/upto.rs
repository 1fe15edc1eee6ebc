//! A step through all sizes up to a bound: one pass over the word tests it, counts its visits and finds the last item that can be raised.
use super::spelling::spell;
use crate::same::upto::{carry_out, Raise};
use crate::table::{branches_of, listed, BRANCHES};
use kaldvemir::{Stepped, UptoRun};

pub fn step(run: &mut UptoRun, s0: &mut [u16], s1: &mut [u16], word: &mut [u16]) -> Result<Option<Stepped>, u16> {
    let n = run.bound as usize;
    if !listed(n as u64) || run.length > 51 {
        return Err(34);
    }
    let (items, rest) = run.items.split_at(run.length as usize);
    if rest.iter().fold(0, |any, &x| any | x) != 0 {
        return Err(34);
    }
    let raise = match (run.stage, items.split_first()) {
        (0, None) if run.visits == 0 => Some(Raise { place: 0, event: 0, pending: 1, free: n - 1 }),
        (1, Some((&first, items))) => {
            let (visits, raise) = walk(n, first, items).ok_or(34u16)?;
            if run.visits != visits {
                return Err(34);
            }
            raise
        }
        (2, None) if run.visits == branches_of(n) => return Ok(None),
        _ => return Err(34),
    };
    carry_out(run, raise, s0, s1, word, spell)
}

/// The visits at a word and the raise that leads to the next; nothing where the items are no word.
#[inline(always)]
fn walk(n: usize, first: u16, items: &[u16]) -> Option<(u64, Option<Raise>)> {
    let root = |event| (n >= 3).then(|| Raise { place: 0, event, pending: 3, free: n - 3 });
    let (mut h, mut f, mut visits, mut last) = match first {
        0 => (1, n - 1, 0, root(1)),
        1 if n >= 3 => (3, n - 3, BRANCHES[1][n - 1], None),
        _ => return None,
    };
    for (i, &item) in items.iter().enumerate() {
        let place = i + 1;
        h = usize::checked_sub(h, 1)?;
        let forks = if f >= 3 { BRANCHES[h + 2][f - 3] } else { 0 };
        let raise = match item {
            0 if f >= 3 => Some(Raise { place, event: 1, pending: h + 2, free: f - 3 }),
            0 | 1 if f >= 1 => Some(Raise { place, event: 2, pending: h, free: f - 1 }),
            0..=2 if h >= 1 => Some(Raise { place, event: 3, pending: h - 1, free: f }),
            3.. if item as usize - 2 < h => Some(Raise { place, event: item + 1, pending: h - 1, free: f }),
            _ => None,
        };
        last = raise.or(last);
        match item {
            0 => {}
            1 if f >= 3 => {
                visits += BRANCHES[h][f];
                (h, f) = (h + 2, f - 3);
            }
            2 if f >= 1 => {
                visits += BRANCHES[h][f] + forks;
                f -= 1;
            }
            3.. if item as usize - 3 < h => {
                let singles = if f >= 1 { BRANCHES[h][f - 1] } else { 0 };
                visits += BRANCHES[h][f] + forks + singles + (item as u64 - 3) * BRANCHES[h - 1][f];
                h -= 1;
            }
            _ => return None,
        }
    }
    (h == 0).then_some((visits + items.len() as u64, last))
}
