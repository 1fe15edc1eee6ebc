//! Diagrams with levels about 2^64: chains of rings, which have many cycles.
use crate::diagrams::{carried, mirror, Diagram};
use crate::random::Random;

/// The powers of primes that cycles get as their lengths.
const PRIME_POWERS: [usize; 26] = [2, 3, 4, 5, 7, 8, 9, 11, 13, 16, 17, 19, 23, 25, 27, 29, 31, 32, 37, 41, 43, 47, 49, 53, 59, 61];

/// A chain of rings, each round a cycle of a length that is drawn, until the lengths' least common multiple has come to some power of 2 about 2^64 or
/// the diagram to 1,024 edges. The other edges lie on one cycle that goes round the rings, whose length is as it comes. Edges and root are renamed.
pub fn chain(random: &mut Random) -> Diagram {
    let enough = 1 << random.between(44, 66);
    let order = random.order(PRIME_POWERS.len());
    // The root and the chain's end.
    let (mut word, mut edges, mut multiple) = (vec![0], 2, 1);
    for place in order {
        let length = if random.percent(85) { PRIME_POWERS[place] } else { 1 + random.below(60) };
        let ring = Ring::any(random, length);
        edges += ring.edges();
        if multiple >= enough || edges > 1024 {
            break;
        }
        word.extend(ring.items());
        multiple = common_multiple(multiple, length);
    }
    word.push(random.choose(&[0, 2]));
    let (s0, s1) = reference::read_word(&word, [usize::MAX; 2]).expect("a word");
    let chain = Diagram { root: random.between(1, s0.len() as u64), s0, s1 };
    let chain = if random.percent(50) { mirror(&chain) } else { chain };
    carried(random, &chain).0
}

/// A ring of black vertices. The cycle inside it has one edge from the first of them, which hangs on the chain; one from each that has its third edge
/// outside, two from each that has it inside, and one more where that edge ends in a black vertex of its own.
struct Ring {
    outside: usize,
    inside: usize,
    singles: usize,
}

impl Ring {
    /// A ring round a cycle of a length.
    fn any(random: &mut Random, length: usize) -> Ring {
        let outside = random.below(2.min(length));
        let rest = length - 1 - outside;
        // No vertex with its third edge inside brings one edge alone.
        if rest == 1 {
            return Ring { outside: outside + 1, inside: 0, singles: 0 };
        }
        let inside = random.between(rest.div_ceil(3) as u64, rest as u64 / 2) as usize;
        Ring { outside, inside, singles: rest - 2 * inside }
    }

    /// How many edges it has, with those of its vertex on the chain.
    fn edges(&self) -> usize {
        3 * (2 + self.outside + self.inside) + self.singles
    }

    /// The items of its word: the forks of the chain and of the first vertex, the vertices round it, the join that closes it and reaches below the
    /// edges inside, which are pending, and the ends of these.
    fn items(&self) -> Vec<u16> {
        let Ring { outside, inside, singles } = *self;
        [vec![1, 1], [1, 0].repeat(outside), vec![1; inside], vec![3 + inside as u16], vec![2; singles], vec![0; inside - singles]].concat()
    }
}

/// Whether the level of a diagram that check accepts is from 2^63 to 2^65.
pub fn near_limit(Diagram { s0, s1, .. }: &Diagram) -> bool {
    let mut seen = vec![false; s0.len()];
    let mut level = 1;
    for first in 0..s0.len() {
        let (mut i, mut length) = (first, 0);
        while !seen[i] {
            seen[i] = true;
            length += 1;
            i = usize::from(s0[usize::from(s1[i]) - 1]) - 1;
        }
        if length > 0 {
            level = common_multiple(level, length);
        }
    }
    (1 << 63..1 << 65).contains(&level)
}

/// The least common multiple of a number and a length; a number of 2^65 or more is left as it is.
fn common_multiple(number: u128, length: usize) -> u128 {
    if number >= 1 << 65 {
        return number;
    }
    let length = length as u128;
    let (mut divisor, mut rest) = (number, length);
    while rest > 0 {
        (divisor, rest) = (rest, divisor % rest);
    }
    number / divisor * length
}
