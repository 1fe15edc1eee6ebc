//! Given diagrams, 1 to 1,024 edges.
use crate::answers::{answered, given, left, length, truth, yes, UNWRITTEN};
use crate::raw;
use crate::{Refusal, Side, Sided};

/// What [`invariants`] measures of a diagram.
#[derive(Clone, Copy, Debug, PartialEq, Eq, Hash)]
pub struct Invariants {
    /// Edges fixed by s1.
    pub e2: u16,
    /// Edges fixed by s0.
    pub e3: u16,
    /// Cycles of i to s0(s1(i)).
    pub c: u16,
    /// 12 + n - 3·e2 - 4·e3 - 6·c.
    pub t: i32,
    /// The least common multiple of the cycles' lengths.
    pub level: u64,
}

/// Check: refuses 1 to 8.
#[inline]
pub fn check(s0: &[u16], s1: &[u16], root: u64) -> Result<(), Refusal> {
    answered(raw::check(s0, s1, root))
}

/// The all-reached test: whether every mark is 1.
#[inline]
pub fn all_reached(marks: &[u8]) -> bool {
    raw::all_reached(marks)
}

/// Relabel: writes the characteristic labelling to `t0` and `t1`, the word to `word`, and returns the word's length. Refuses 1 to 8; 9 where an
/// output list has fewer than n, n and n + 1 places.
#[inline]
pub fn relabel(s0: &[u16], s1: &[u16], root: u64, t0: &mut [u16], t1: &mut [u16], word: &mut [u16]) -> Result<usize, Refusal> {
    length(|length| raw::relabel(s0, s1, root, t0, t1, word, length))
}

/// Compare with roots: whether some isomorphism carries root to root. Refuses 1 to 8 for the first diagram, then for the second.
#[inline]
pub fn compare_rooted(s0: &[u16], s1: &[u16], s_root: u64, t0: &[u16], t1: &[u16], t_root: u64) -> Result<bool, Sided> {
    compared(|same, side| raw::compare_rooted((s0, s1, s_root), (t0, t1, t_root), same, side))
}

/// Compare without roots: whether the diagrams are isomorphic. Refuses 1 to 8 for the first diagram, then for the second.
#[inline]
pub fn compare_unrooted(s0: &[u16], s1: &[u16], s_root: u64, t0: &[u16], t1: &[u16], t_root: u64) -> Result<bool, Sided> {
    compared(|same, side| raw::compare_unrooted((s0, s1, s_root), (t0, t1, t_root), same, side))
}

/// The answer of a compare: `same` where it is accepted, otherwise `side`, and the other untouched.
fn compared(call: impl FnOnce(&mut u64, &mut u64) -> u16) -> Result<bool, Sided> {
    let (mut same, mut side) = (UNWRITTEN, UNWRITTEN);
    let answer = left(answered(call(&mut same, &mut side)), same == UNWRITTEN);
    if let Err(refusal) = answer {
        let side = match side {
            1 => Side::First,
            2 => Side::Second,
            side => panic!("the library answered {side} for the side of a diagram"),
        };
        return Err(Sided { side, refusal });
    }
    assert_eq!(side, UNWRITTEN, "an accepted compare wrote a side");
    Ok(truth(same))
}

/// Symmetries: how many rootings have the diagram's own word. Refuses 1 to 8.
#[inline]
pub fn symmetries(s0: &[u16], s1: &[u16], root: u64) -> Result<u64, Refusal> {
    given(|count| raw::symmetries(s0, s1, root, count))
}

/// Kept: whether the diagram's word is the least among those of its n rootings. Refuses 1 to 8.
#[inline]
pub fn kept(s0: &[u16], s1: &[u16], root: u64) -> Result<bool, Refusal> {
    yes(|kept| raw::kept(s0, s1, root, kept))
}

/// Invariants. Refuses 1 to 8; 62 where the level is 2^64 or more.
#[inline]
pub fn invariants(s0: &[u16], s1: &[u16], root: u64) -> Result<Invariants, Refusal> {
    let unwritten = UNWRITTEN as u16;
    let before = Invariants { e2: unwritten, e3: unwritten, c: unwritten, t: UNWRITTEN as i32, level: UNWRITTEN };
    let mut measured = before;
    let answer = answered(raw::invariants(s0, s1, root, &mut measured));
    left(answer, measured == before)?;
    Ok(measured)
}
