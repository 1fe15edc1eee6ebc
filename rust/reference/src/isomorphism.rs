//! Compare, by building an isomorphism edge by edge; no words are used.
use crate::diagrams::{at, check};

/// A lent diagram: s0, s1 and root.
pub type Lent<'a> = (&'a [u16], &'a [u16], u64);

/// Compare with roots; a refusal comes with the side, 1 or 2.
pub fn compare_rooted(first: Lent, second: Lent) -> Result<bool, (u16, u8)> {
    checked(first, second)?;
    Ok(extends(first, second, first.2 as usize, second.2 as usize))
}

/// Compare without roots: edge 1 may go to any edge.
pub fn compare_unrooted(first: Lent, second: Lent) -> Result<bool, (u16, u8)> {
    checked(first, second)?;
    Ok((1..=second.0.len()).any(|x| extends(first, second, 1, x)))
}

/// 1 to 8 for the first, then for the second.
fn checked(first: Lent, second: Lent) -> Result<(), (u16, u8)> {
    check(first.0, first.1, first.2).map_err(|number| (number, 1))?;
    check(second.0, second.1, second.2).map_err(|number| (number, 2))
}

/// Whether some isomorphism carries edge a of the first diagram to edge b of the second. The images of s0(i) and s1(i) follow from that of i, and
/// every edge is reached from a, so there is one map at most.
fn extends((s0, s1, _): Lent, (t0, t1, _): Lent, a: usize, b: usize) -> bool {
    let n = s0.len();
    if t0.len() != n {
        return false;
    }
    let (mut image, mut source) = (vec![0; n + 1], vec![0; n + 1]);
    let mut waiting = vec![(a, b)];
    while let Some((i, j)) = waiting.pop() {
        if image[i] == 0 && source[j] == 0 {
            (image[i], source[j]) = (j, i);
            waiting.extend([(at(s0, i), at(t0, j)), (at(s1, i), at(t1, j))]);
        } else if image[i] != j || source[j] != i {
            return false;
        }
    }
    true
}
