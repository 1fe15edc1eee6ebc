//! The invariants of a diagram.
use super::check::{check, next};
use kaldvemir::Invariants;
use crate::table::MAX_SIZE;

pub fn invariants(s0: &[u16], s1: &[u16], root: u64) -> Result<Invariants, u16> {
    check(s0, s1, root)?;
    let n = s0.len() as i32;
    let (e2, e3) = (fixed(s1), fixed(s0));
    let (c, level) = cycles(s0, s1);
    if level == 0 {
        return Err(62);
    }
    Ok(Invariants { e2, e3, c, t: 12 + n - 3 * e2 as i32 - 4 * e3 as i32 - 6 * c as i32, level })
}

fn fixed(s: &[u16]) -> u16 {
    s.iter().zip(1..).filter(|&(&x, i)| x == i).count() as u16
}

/// The number of cycles of i to s0(s1(i)), and the least common multiple of their lengths, 0 where it is 2^64 or more. Each is walked from its least
/// edge, the first without a mark.
fn cycles(s0: &[u16], s1: &[u16]) -> (u16, u64) {
    let mut seen = [0u8; MAX_SIZE];
    let (mut count, mut level) = (0, 1);
    for first in 1..=s0.len() as u16 {
        if seen[first as usize - 1] == 0 {
            count += 1;
            level = common_multiple(level, walk(s0, s1, &mut seen, first) as u64);
        }
    }
    (count, level)
}

/// Marks the cycle of an edge and counts its edges.
#[inline]
fn walk(s0: &[u16], s1: &[u16], seen: &mut [u8; MAX_SIZE], first: u16) -> u16 {
    let (mut x, mut length) = (first, 0);
    loop {
        seen[x as usize - 1] = 1;
        x = next(s0, next(s1, x));
        length += 1;
        if x == first {
            return length;
        }
    }
}

fn gcd(a: u64, b: u64) -> u64 {
    if b == 0 { a } else { gcd(b, a % b) }
}

/// The least common multiple; 0 stands for one of 2^64 or more.
#[inline]
fn common_multiple(a: u64, b: u64) -> u64 {
    if a == 0 {
        return 0;
    }
    let quotient = a / gcd(a, b);
    if u64::MAX / b < quotient {
        return 0;
    }
    quotient * b
}
