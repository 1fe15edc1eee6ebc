//! Check by definition, the all-reached test, and the invariants.
use std::collections::BTreeMap;

/// The entry of edge i, counted from 1.
pub(crate) fn at(list: &[u16], i: usize) -> usize {
    usize::from(list[i - 1])
}

/// Check: the first of the conditions 1 to 8 that applies.
pub fn check(s0: &[u16], s1: &[u16], root: u64) -> Result<(), u16> {
    let n = s0.len();
    let outside = |entry: &u16| !(1..=n).contains(&usize::from(*entry));
    if n == 0 || n > 1024 {
        return Err(1);
    }
    if s1.len() != n {
        return Err(2);
    }
    if root < 1 || root > n as u64 {
        return Err(3);
    }
    if s0.iter().any(outside) {
        return Err(4);
    }
    if s1.iter().any(outside) {
        return Err(5);
    }
    if (1..=n).any(|i| at(s0, at(s0, at(s0, i))) != i) {
        return Err(6);
    }
    if (1..=n).any(|i| at(s1, at(s1, i)) != i) {
        return Err(7);
    }
    if reached_from_one(s0, s1).contains(&false) {
        return Err(8);
    }
    Ok(())
}

/// Which edges can be reached from edge 1 by s0 and s1.
fn reached_from_one(s0: &[u16], s1: &[u16]) -> Vec<bool> {
    let mut reached = vec![false; s0.len()];
    let mut waiting = vec![1];
    while let Some(i) = waiting.pop() {
        if !reached[i - 1] {
            reached[i - 1] = true;
            waiting.extend([at(s0, i), at(s1, i)]);
        }
    }
    reached
}

/// The all-reached test: whether every mark is 1.
pub fn all_reached(marks: &[u8]) -> bool {
    marks.iter().all(|mark| *mark == 1)
}

/// The numbers that invariants gives.
#[derive(Clone, Copy, Debug, PartialEq, Eq)]
pub struct Invariants {
    /// Edges fixed by s1.
    pub e2: i64,
    /// Edges fixed by s0.
    pub e3: i64,
    /// Cycles of i to s0(s1(i)).
    pub c: i64,
    /// 12 + n - 3·e2 - 4·e3 - 6·c.
    pub t: i64,
    /// The least common multiple of the cycles' lengths.
    pub level: u64,
}

/// Invariants: 1 to 8; 62 where the level is 2^64 or more.
pub fn invariants(s0: &[u16], s1: &[u16], root: u64) -> Result<Invariants, u16> {
    check(s0, s1, root)?;
    let n = s0.len();
    let fixed = |list: &[u16]| (1..=n).filter(|i| at(list, *i) == *i).count() as i64;
    let lengths = cycle_lengths(s0, s1);
    let (e2, e3, c) = (fixed(s1), fixed(s0), lengths.len() as i64);
    let level = least_common_multiple(&lengths).ok_or(62_u16)?;
    Ok(Invariants { e2, e3, c, t: 12 + n as i64 - 3 * e2 - 4 * e3 - 6 * c, level })
}

/// The length of each cycle of i to s0(s1(i)). From every edge its cycle is followed as long as greater edges come; only the least edge of a cycle is
/// led back to itself.
fn cycle_lengths(s0: &[u16], s1: &[u16]) -> Vec<u64> {
    let mut lengths = vec![];
    for i in 1..=s0.len() {
        let (mut length, mut j) = (1, at(s0, at(s1, i)));
        while j > i {
            length += 1;
            j = at(s0, at(s1, j));
        }
        if j == i {
            lengths.push(length);
        }
    }
    lengths
}

/// The least common multiple, `None` where it is 2^64 or more: the product of the highest power of each prime that divides one of the lengths. The
/// product only grows, so that it is 2^64 or more where it once was.
fn least_common_multiple(lengths: &[u64]) -> Option<u64> {
    let mut highest = BTreeMap::new();
    for (prime, power) in lengths.iter().flat_map(|length| prime_powers(*length)) {
        let known = highest.entry(prime).or_insert(power);
        *known = power.max(*known);
    }
    highest.values().try_fold(1_u64, |product, power| product.checked_mul(*power))
}

/// The primes that divide a number, each with the highest power of it that does. What is divided out from 2 upwards is prime.
fn prime_powers(number: u64) -> Vec<(u64, u64)> {
    let (mut rest, mut powers) = (number, vec![]);
    for divisor in 2..=number {
        let mut power = 1;
        while rest.is_multiple_of(divisor) {
            rest /= divisor;
            power *= divisor;
        }
        if power > 1 {
            powers.push((divisor, power));
        }
    }
    powers
}
