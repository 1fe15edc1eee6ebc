//! Check.
use super::SMALL;
use crate::table::MAX_SIZE;

pub fn check(s0: &[u16], s1: &[u16], root: u64) -> Result<(), u16> {
    maps(s0, s1, root)?;
    let whole = if s0.len() <= SMALL { connected_small(s0, s1) } else { connected(s0, s1) };
    if whole {
        Ok(())
    } else {
        Err(8)
    }
}

/// Conditions 1 to 7.
pub fn maps(s0: &[u16], s1: &[u16], root: u64) -> Result<(), u16> {
    let n = s0.len();
    if n == 0 || n > MAX_SIZE {
        return Err(1);
    }
    if s1.len() != n {
        return Err(2);
    }
    if root == 0 || root > n as u64 {
        return Err(3);
    }
    if !entries_in(s0) {
        return Err(4);
    }
    if !entries_in(s1) {
        return Err(5);
    }
    if (0..n).any(|i| next(s0, next(s0, s0[i])) as usize != i + 1) {
        return Err(6);
    }
    if (0..n).any(|i| next(s1, s1[i]) as usize != i + 1) {
        return Err(7);
    }
    Ok(())
}

/// Without an early end, so that it runs over several entries at once.
fn entries_in(s: &[u16]) -> bool {
    let n = s.len() as u16;
    s.iter().fold(true, |good, &x| good & (x.wrapping_sub(1) < n))
}

#[inline(always)]
pub fn next(s: &[u16], x: u16) -> u16 {
    s[x as usize - 1]
}

/// The edges reached as a bit set.
fn connected_small(s0: &[u16], s1: &[u16]) -> bool {
    let mut seen = 1u64;
    let mut left = 1u64;
    while left != 0 {
        let i = left.trailing_zeros() as usize;
        left &= left - 1;
        let new = (1 << ((s0[i] - 1) & 63) | 1 << ((s1[i] - 1) & 63)) & !seen;
        seen |= new;
        left |= new;
    }
    seen == u64::MAX >> (SMALL - s0.len())
}

/// The list of edges reached has one place more than there are edges: an edge is written first and counted if it is new, so that no branch
/// hangs on it.
fn connected(s0: &[u16], s1: &[u16]) -> bool {
    let mut seen = [false; MAX_SIZE];
    let mut list = [0u16; MAX_SIZE + 1];
    let mut count = 1;
    let mut done = 0;
    seen[1] = true;
    list[0] = 1;
    while done < count {
        let k = list[done];
        done += 1;
        for p in [next(s0, k), next(s1, k)] {
            let mark = &mut seen[p as usize % MAX_SIZE];
            list[count] = p;
            count += !*mark as usize;
            *mark = true;
        }
    }
    count == s0.len()
}
