//! Words of diagrams with a cycle of each of some lengths, so that their levels are large.

/// The odd primes to 53. Their product is below 2^64, and twice it is above. 7 and 37 stand last because they divide the length of the cycle that is
/// met first: when the cycle of 37 edges comes, the least common multiple is the whole product already, and 37 times it is above 2^64.
pub const ODD_PRIMES: [u16; 15] = [3, 5, 11, 13, 17, 19, 23, 29, 31, 41, 43, 47, 53, 7, 37];

/// A chain of rings, each round a cycle of one of these odd lengths, with the item of the chain's end, W or B. The other edges, the root among them,
/// lie on one cycle that goes round them all. Of [`ODD_PRIMES`] it has 258 edges where the end is W, and 259, which is 7 times 37, where it is B.
pub fn chain(lengths: &[u16], end: u16) -> Vec<u16> {
    let mut word = vec![0];
    for length in lengths {
        // A fork of the chain; the ring's first vertex, from which the cycle has one edge; two from each vertex with its third edge inside.
        let inside = length / 2;
        word.extend((0..2 + inside).map(|_| 1));
        // The join that closes the ring reaches below the edges inside, which are pending.
        word.push(3 + inside);
        word.extend((0..inside).map(|_| 0));
    }
    word.push(end);
    word
}
