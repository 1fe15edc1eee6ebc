//! Check.
use crate::table::MAX_SIZE;

pub fn check(s0: &[u16], s1: &[u16], root: u64) -> Result<(), u16> {
    maps(s0, s1, root)?;
    if !connected(s0, s1) {
        return Err(8);
    }
    Ok(())
}

/// Conditions 1 to 7.
pub fn maps(s0: &[u16], s1: &[u16], root: u64) -> Result<(), u16> {
    let n = s0.len();
    if n == 0 || n > MAX_SIZE {
        return Err(1);
    }
    if s1.len() != n {
        return Err(2);
    }
    if root == 0 || root > n as u64 {
        return Err(3);
    }
    if !entries_in(s0) {
        return Err(4);
    }
    if !entries_in(s1) {
        return Err(5);
    }
    if (0..n).any(|i| next(s0, next(s0, s0[i])) as usize != i + 1) {
        return Err(6);
    }
    if (0..n).any(|i| next(s1, s1[i]) as usize != i + 1) {
        return Err(7);
    }
    Ok(())
}

/// The next edge round x's vertex.
#[inline]
pub fn next(s: &[u16], x: u16) -> u16 {
    s[x as usize - 1]
}

fn entries_in(s: &[u16]) -> bool {
    let n = s.len() as u16;
    s.iter().all(|&x| 1 <= x && x <= n)
}

/// Whether every edge but 1 has a neighbour with a smaller number, as in a characteristic labelling: then all are reached, and no search is needed.
fn lower_neighbours(s0: &[u16], s1: &[u16]) -> bool {
    (2..=s0.len() as u16).all(|x| {
        let a = next(s0, x);
        (a < x) | (next(s0, a) < x) | (next(s1, x) < x)
    })
}

/// Whether every edge is reached from edge 1. The list holds the edges reached, each once; the first ones, done of them, are visited. Whether an edge is
/// new is as good as random, so there is no branch on it: it is always written, and counted if its mark was 0.
fn connected(s0: &[u16], s1: &[u16]) -> bool {
    if lower_neighbours(s0, s1) {
        return true;
    }
    let n = s0.len();
    let mut marks = [0u8; MAX_SIZE];
    let mut list = [0u16; MAX_SIZE + 1];
    marks[0] = 1;
    list[0] = 1;
    let mut count = 1;
    let mut done = 0;
    while done < count {
        let k = list[done];
        done += 1;
        for x in [next(s0, k), next(s1, k)] {
            let mark = &mut marks[x as usize - 1];
            list[count] = x;
            count += 1 - *mark as usize;
            *mark = 1;
        }
    }
    !marks[..n].contains(&0)
}
