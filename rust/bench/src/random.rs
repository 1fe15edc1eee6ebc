//! Repeatable random numbers (splitmix64), and random diagrams.
use crate::table::MAX_SIZE;
use crate::tuned::{check::check, reading::read_word};

pub struct Random(pub u64);

/// A diagram with its root.
#[derive(Clone)]
pub struct Diagram {
    pub s0: Vec<u16>,
    pub s1: Vec<u16>,
    pub root: u64,
}

impl Random {
    pub fn next(&mut self) -> u64 {
        self.0 = self.0.wrapping_add(0x9e37_79b9_7f4a_7c15);
        let mut x = self.0;
        x = (x ^ x >> 30).wrapping_mul(0xbf58_476d_1ce4_e5b9);
        x = (x ^ x >> 27).wrapping_mul(0x94d0_49bb_1331_11eb);
        x ^ x >> 31
    }

    /// One of 0..bound.
    pub fn below(&mut self, bound: u64) -> u64 {
        self.next() % bound
    }

    fn shuffled(&mut self, n: usize) -> Vec<u16> {
        let mut list: Vec<u16> = (1..=n as u16).collect();
        for i in (1..n).rev() {
            list.swap(i, self.below(i as u64 + 1) as usize);
        }
        list
    }

    /// A random map of n edges: cycles of `length` edges, and about `fixed` fixed edges.
    fn map(&mut self, n: usize, length: usize, fixed: usize) -> Vec<u16> {
        let edges = self.shuffled(n);
        let mut s = vec![0; n];
        let moved = n.saturating_sub(fixed) / length * length;
        for cycle in edges[..moved].chunks(length) {
            for (i, &x) in cycle.iter().enumerate() {
                s[x as usize - 1] = cycle[(i + 1) % length];
            }
        }
        for &x in &edges[moved..] {
            s[x as usize - 1] = x;
        }
        s
    }

    /// A diagram of n edges with random maps and root. Random maps of n edges whose cube and square are the identity fix about n^(1/3) and
    /// n^(1/2) edges, and these do too.
    pub fn diagram(&mut self, n: usize) -> Diagram {
        let (cube, square) = ((n as f64).cbrt() as u64, (n as f64).sqrt() as u64);
        loop {
            let (e3, e2) = (self.below(2 * cube + 1) as usize, self.below(2 * square + 1) as usize);
            let (s0, s1) = (self.map(n, 3, e3), self.map(n, 2, e2));
            let root = 1 + self.below(n as u64);
            if check(&s0, &s1, root).is_ok() {
                return Diagram { s0, s1, root };
            }
        }
    }

    /// A diagram with a cycle of each of most of the first 17 primes, so that its level is about 2^64: a chain of rings, each round such a cycle,
    /// and one cycle more that goes round them all.
    pub fn chain(&mut self) -> Diagram {
        let mut word = vec![0];
        for prime in [2, 3, 5, 7, 11, 13, 17, 19, 23, 29, 31, 37, 41, 43, 47, 53, 59] {
            if self.below(8) > 0 {
                word.extend(ring(prime));
            }
        }
        word.push(2 * self.below(2) as u16);
        let (mut s0, mut s1) = (vec![0; MAX_SIZE], vec![0; MAX_SIZE]);
        let size = read_word(&word, &mut s0, &mut s1).unwrap();
        s0.truncate(size);
        s1.truncate(size);
        self.renumbered(&Diagram { s0, s1, root: 1 })
    }

    /// The same diagram, its edges numbered anew and rooted anew.
    pub fn renumbered(&mut self, d: &Diagram) -> Diagram {
        let n = d.s0.len();
        let name = self.shuffled(n);
        let mut e = Diagram { s0: vec![0; n], s1: vec![0; n], root: 1 + self.below(n as u64) };
        for i in 0..n {
            e.s0[name[i] as usize - 1] = name[d.s0[i] as usize - 1];
            e.s1[name[i] as usize - 1] = name[d.s1[i] as usize - 1];
        }
        e
    }
}

/// The items of a ring round a cycle of so many edges: the forks of the chain and of the ring's first vertex, from which the cycle has one edge; a
/// vertex with its third edge outside, which brings one edge to an even length; vertices with theirs inside, which bring two each; the join that
/// closes the ring, below the edges inside, which are pending; and the ends of these.
fn ring(length: usize) -> Vec<u16> {
    let inside = (length - 1) / 2;
    [vec![1, 1], [1, 0].repeat(1 - length % 2), vec![1; inside], vec![3 + inside as u16], vec![0; inside]].concat()
}
