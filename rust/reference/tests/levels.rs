//! The level: small ones by definition, and those about 2^64 by chains of rings.
use reference::*;

/// The word of a chain of rings, each round a cycle of one of these lengths, with an item for the chain's end, W or B. The other edges lie on one
/// cycle that goes round them all.
fn chain(lengths: &[u16], end: u16) -> Vec<u16> {
    let mut word = vec![0];
    for length in lengths {
        // The forks of the chain and of the ring's first vertex, from which the cycle has one edge.
        word.extend([1, 1]);
        // A vertex with its third edge outside the ring brings the cycle one edge more, one with its third edge inside two.
        if length % 2 == 0 {
            word.extend([1, 0]);
        }
        let inside = (length - 1) / 2;
        word.extend((0..inside).map(|_| 1));
        // The join that closes the ring reaches below the edges inside, which are pending.
        word.push(3 + inside);
        word.extend((0..inside).map(|_| 0));
    }
    word.push(end);
    word
}

const W: u16 = 0;
const B: u16 = 2;

fn diagram(word: &[u16]) -> (Vec<u16>, Vec<u16>) {
    read_word(word, [1024; 2]).unwrap()
}

/// The cycles' lengths, each taken as often as the cycle has edges.
fn lengths(s0: &[u16], s1: &[u16]) -> Vec<u64> {
    let next = |i: u16| s0[usize::from(s1[usize::from(i) - 1]) - 1];
    let length = |i: u16| 1 + std::iter::successors(Some(next(i)), |j| Some(next(*j))).take_while(|j| *j != i).count() as u64;
    (1..=s0.len() as u16).map(length).collect()
}

#[test]
fn lengths_3_and_4_give_12() {
    let (s0, s1) = diagram(&[0, 1, 1, 4, 0]);
    assert_eq!(lengths(&s0, &s1), [4, 4, 4, 3, 4, 3, 3]);
    assert_eq!(invariants(&s0, &s1, 1), Ok(Invariants { e2: 1, e3: 1, c: 2, t: 0, level: 12 }));
}

/// The level of every listed diagram of up to 13 edges is the least number, from 1 on, that every length divides.
#[test]
fn the_level_by_definition() {
    let (mut beyond_lengths, mut diagrams) = (0, 0);
    for word in (1..=13).flat_map(all_words) {
        let (s0, s1) = diagram(&word);
        let lengths = lengths(&s0, &s1);
        let least = (1..).find(|number: &u64| lengths.iter().all(|length| number.is_multiple_of(*length)));
        assert_eq!(invariants(&s0, &s1, 1).ok().map(|given| given.level), least);
        beyond_lengths += u32::from(least > lengths.iter().max().copied());
        diagrams += 1;
    }
    assert!(beyond_lengths > 100 && beyond_lengths < diagrams);
}

const PRIMES: [u16; 16] = [2, 3, 5, 7, 11, 13, 17, 19, 23, 29, 31, 37, 41, 43, 47, 53];

/// The primes to 53, one cycle each, have a product above 2^64.
#[test]
fn the_first_16_primes_are_refused() {
    let (s0, s1) = diagram(&chain(&PRIMES, W));
    let lengths = lengths(&s0, &s1);
    PRIMES.iter().for_each(|prime| assert_eq!(lengths.iter().filter(|length| **length == u64::from(*prime)).count(), usize::from(*prime)));
    assert_eq!(invariants(&s0, &s1, 1), Err(62));
    // What check refuses comes first.
    let (n, long) = (s0.len(), |list: &[u16]| [list, &[list.len() as u16 + 1]].concat());
    assert_eq!((invariants(&s0, &s1[1..], 1), invariants(&s0, &s1, 0), invariants(&s0, &s1, n as u64 + 1)), (Err(2), Err(3), Err(3)));
    assert_eq!(invariants(&long(&s0), &long(&s1), 1), Err(8));
}

/// The cycle round the rings of the odd primes to 53 has 258 edges, and 259, which is 7 times 37, where the chain ends with an edge more. So the
/// level is twice the product of these primes, which is above 2^64, or the product itself, which is below.
#[test]
fn levels_on_either_side_of_64_bits() {
    let product: u128 = PRIMES[1..].iter().map(|prime| u128::from(*prime)).product();
    assert!(product < 1 << 64 && 2 * product > 1 << 64);
    for (end, outside, level) in [(W, 258, Err(62)), (B, 259, Ok(product as u64))] {
        let (s0, s1) = diagram(&chain(&PRIMES[1..], end));
        assert_eq!(lengths(&s0, &s1).iter().max(), Some(&outside));
        for root in [1, s0.len() as u64] {
            assert_eq!(invariants(&s0, &s1, root).map(|given| given.level), level);
        }
    }
}
