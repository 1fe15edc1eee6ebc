//! How many diagrams of a size are kept, without listing any: each class without a root has one kept diagram, so it is the number of classes.
//!
//! First the pairs s0, s1 are counted up to renaming of their edges, connected or not. By Burnside's lemma there are as many as a renaming
//! leaves as they are on average, and those are the pairs that commute with it. The connected ones follow by the inverse of Euler's transform,
//! since a pair is a choice of connected ones, with repetition.
//!
//! All numbers are residues modulo a prime. What is divided by is a product of numbers up to 50 and so never 0, and the answer is a whole
//! number, at most the count and so below the prime: its residue is the answer itself.
use crate::listing::count;
use std::sync::OnceLock;

const MAX: usize = 50;

/// 2^61 - 1. A product of two residues has 122 bits, so that 64 of them can be added up.
const PRIME: u128 = (1 << 61) - 1;

/// The inverse of a residue that is not 0: its power to the exponent PRIME - 2, by Fermat's little theorem.
fn inverse(residue: u128) -> u128 {
    let (mut power, mut square, mut exponent) = (1, residue, PRIME - 2);
    while exponent > 0 {
        if exponent % 2 == 1 {
            power = power * square % PRIME;
        }
        square = square * square % PRIME;
        exponent /= 2;
    }
    power
}

/// How many permutations that commute with m cycles of length k are the identity when taken p times, p being prime; for m from 0 on. Either
/// the last of the cycles is carried to itself, turned by one of gcd(p, k) amounts, or it goes round with p - 1 others: these are chosen one
/// after another, and of the p turns all are free but the last, which brings it back.
fn commuting(p: usize, k: usize) -> Vec<u128> {
    let turns = if k.is_multiple_of(p) { p } else { 1 };
    let mut ways = vec![1];
    for m in 1..=MAX / k {
        let mut sum = turns as u128 * ways[m - 1];
        if m >= p {
            sum += (1..p).fold(ways[m - p], |ways, chosen| ways * (k * (m - chosen)) as u128 % PRIME);
        }
        ways.push(sum % PRIME);
    }
    ways
}

/// What the renamings with m cycles, all of length k, bring to the average over the renamings of k m edges: the number of pairs that commute
/// with one of them, over that of the renamings that do, k^m m!. It stands at k m, with 0 between.
fn share(k: usize) -> Vec<u128> {
    let (mut shares, mut renamings) = (vec![0; MAX + 1], 1);
    for (m, (blacks, whites)) in commuting(3, k).into_iter().zip(commuting(2, k)).enumerate() {
        if m > 0 {
            renamings = renamings * (k * m) as u128 % PRIME;
        }
        shares[k * m] = blacks * whites % PRIME * inverse(renamings) % PRIME;
    }
    shares
}

/// The product of two power series.
fn product(a: &[u128], b: &[u128]) -> Vec<u128> {
    (0..=MAX).map(|n| (0..=n).map(|i| a[i] * b[n - i]).sum::<u128>() % PRIME).collect()
}

/// How many pairs on n edges there are up to renaming, connected or not, for n from 0 on. What commutes with a renaming keeps the cycles of
/// each length among themselves, so that the shares of the lengths are multiplied.
fn pairs() -> Vec<u128> {
    (2..=MAX).fold(share(1), |pairs, k| product(&pairs, &share(k)))
}

/// How many connected ones there are, b. The series of all pairs, a, is the product of 1 / (1 - x^d) to the power b[d] over all d. Its
/// derivative gives n a[n] as the sum of e[k] a[n - k] over the k from 1 to n, where e[k] is the sum of d b[d] over the divisors d of k.
fn connected(a: &[u128]) -> Vec<u128> {
    let (mut b, mut e) = (vec![0], vec![0]);
    for n in 1..=MAX {
        let from_smaller = (1..n).map(|k| e[k] * a[n - k]).sum::<u128>() % PRIME;
        e.push((n as u128 * a[n] + PRIME - from_smaller) % PRIME);
        let of_divisors = (1..n).filter(|d| n.is_multiple_of(*d)).map(|d| d as u128 * b[d]).sum::<u128>() % PRIME;
        b.push((e[n] + PRIME - of_divisors) * inverse(n as u128) % PRIME);
    }
    b
}

/// Kept count: 31.
pub fn kept_count(size: u64) -> Result<u64, u16> {
    static CLASSES: OnceLock<Vec<u128>> = OnceLock::new();
    count(size)?;
    Ok(CLASSES.get_or_init(|| connected(&pairs()))[size as usize] as u64)
}
