//! The invariants of a diagram, and of a small one that is known to be one.
use super::check::check;
use super::SMALL;
use kaldvemir::Invariants;
use crate::table::MAX_SIZE;

pub fn invariants(s0: &[u16], s1: &[u16], root: u64) -> Result<Invariants, u16> {
    check(s0, s1, root)?;
    if s0.len() <= SMALL {
        return Ok(measure(s0, s1));
    }
    let (c, level) = cycles(s0, s1);
    Ok(numbers(s0, s1, c, level.ok_or(62u16)?))
}

/// Of a diagram of at most 64 edges.
pub fn measure(s0: &[u16], s1: &[u16]) -> Invariants {
    let (c, level) = cycles_small(s0, s1);
    numbers(s0, s1, c, level)
}

#[inline(always)]
fn numbers(s0: &[u16], s1: &[u16], c: u16, level: u64) -> Invariants {
    let n = s0.len();
    let e2 = fixed(s1);
    let e3 = fixed(s0);
    Invariants { e2, e3, c, t: 12 + n as i32 - 3 * e2 as i32 - 4 * e3 as i32 - 6 * c as i32, level }
}

fn fixed(s: &[u16]) -> u16 {
    s.iter().zip(1u16..).map(|(&x, i)| (x == i) as u16).sum()
}

#[inline(always)]
fn onward(s0: &[u16], s1: &[u16], i: usize) -> usize {
    s0[s1[i] as usize - 1] as usize - 1
}

/// Goes round the cycle of an edge, and returns its length.
#[inline(always)]
fn round(s0: &[u16], s1: &[u16], first: usize, mut visit: impl FnMut(usize)) -> u16 {
    let (mut i, mut length) = (first, 0);
    loop {
        visit(i);
        i = onward(s0, s1, i);
        length += 1;
        if i == first {
            return length;
        }
    }
}

/// The greatest common divisor.
#[inline(always)]
fn gcd(mut a: u32, mut b: u32) -> u32 {
    while b != 0 {
        (a, b) = (b, a % b);
    }
    a
}

/// The number of cycles of i to s0(s1(i)) and the least common multiple of their lengths, which fits 32 bits; the edges not yet walked as a bit set.
fn cycles_small(s0: &[u16], s1: &[u16]) -> (u16, u64) {
    let mut left = u64::MAX >> (SMALL - s0.len());
    let (mut count, mut level) = (0, 1u32);
    while left != 0 {
        let first = left.trailing_zeros() as usize;
        let length = round(s0, s1, first, |i| left &= !(1 << (i & 63))) as u32;
        count += 1;
        level *= length / gcd(length, level % length);
    }
    (count, level as u64)
}

/// The same of any size; no level where it is 2^64 or more. After one division of 64 bits the numbers are small.
fn cycles(s0: &[u16], s1: &[u16]) -> (u16, Option<u64>) {
    let mut seen = [false; MAX_SIZE];
    let (mut count, mut level) = (0, Some(1u64));
    for first in 0..s0.len() {
        if seen[first] {
            continue;
        }
        let length = round(s0, s1, first, |i| seen[i] = true) as u32;
        count += 1;
        level = level.and_then(|level| level.checked_mul((length / gcd(length, (level % length as u64) as u32)) as u64));
    }
    (count, level)
}
