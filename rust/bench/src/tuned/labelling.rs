//! The labelling of a diagram: relabel and kept.
use super::check::{maps, next};
use super::pending::Stack;
use super::SMALL;
use crate::table::MAX_SIZE;

pub fn relabel(s0: &[u16], s1: &[u16], root: u64, t0: &mut [u16], t1: &mut [u16], word: &mut [u16]) -> Result<usize, u16> {
    maps(s0, s1, root)?;
    if s0.len() <= SMALL {
        relabel_in::<SMALL, { SMALL + 1 }>(s0, s1, root as u16, t0, t1, word)
    } else {
        relabel_in::<MAX_SIZE, { MAX_SIZE + 1 }>(s0, s1, root as u16, t0, t1, word)
    }
}

/// Labels into scratch lists: the diagram is connected where every edge got a label, and only then anything is written.
fn relabel_in<const N: usize, const M: usize>(
    s0: &[u16], s1: &[u16], root: u16, t0: &mut [u16], t1: &mut [u16], word: &mut [u16],
) -> Result<usize, u16> {
    let n = s0.len();
    let (mut labels, mut x0, mut x1, mut items, mut room) = ([0; N], [0; N], [0; N], [0; M], [0; N]);
    let pending = Stack::over(&mut room);
    let mut l = Labelling { labels: &mut labels, x0: &mut x0, x1: &mut x1, pending, given: 0 };
    items[0] = l.start(s0, root);
    let mut length = 1;
    while let Some(x) = l.pending.pop() {
        items[length] = l.event(s0, next(s1, x), x);
        length += 1;
    }
    if l.given as usize != n {
        return Err(8);
    }
    if t0.len() < n || t1.len() < n || word.len() <= n {
        return Err(9);
    }
    t0[..n].copy_from_slice(&x0[..n]);
    t1[..n].copy_from_slice(&x1[..n]);
    word[..length].copy_from_slice(&items[..length]);
    Ok(length)
}

/// A labelling under way: the label of each edge, 0 without one, an edge being an index modulo N; and the lists seen through the labels.
struct Labelling<'a, const N: usize> {
    labels: &'a mut [u16; N],
    x0: &'a mut [u16; N],
    x1: &'a mut [u16; N],
    pending: Stack<'a, N>,
    given: u16,
}

impl<const N: usize> Labelling<'_, N> {
    /// Labels the black vertex of p, whose next edges q and r are pushed.
    #[inline(always)]
    fn triple(&mut self, p: u16, q: u16, r: u16) {
        let c = self.given + 1;
        let at = self.given as usize;
        self.x0[at..at + 3].copy_from_slice(&[c + 1, c + 2, c]);
        self.labels[p as usize % N] = c;
        self.labels[q as usize % N] = c + 1;
        self.labels[r as usize % N] = c + 2;
        self.pending.push(q);
        self.pending.push(r);
        self.given += 3;
    }

    #[inline(always)]
    fn single(&mut self, p: u16) {
        self.x0[self.given as usize] = self.given + 1;
        self.given += 1;
        self.labels[p as usize % N] = self.given;
    }

    #[inline(always)]
    fn pair(&mut self, a: u16, b: u16) {
        self.x1[a as usize - 1] = b;
        self.x1[b as usize - 1] = a;
    }

    #[inline(always)]
    fn start(&mut self, s0: &[u16], root: u16) -> u16 {
        let q = next(s0, root);
        self.pending.push(root);
        if q == root {
            self.single(root);
            return 0;
        }
        self.triple(root, q, next(s0, q));
        1
    }

    /// The event of edge x, which was popped, with its white partner p.
    #[inline(always)]
    fn event(&mut self, s0: &[u16], p: u16, x: u16) -> u16 {
        let k = self.labels[x as usize % N];
        if p == x {
            self.x1[k as usize - 1] = k;
            return 0;
        }
        let label = self.labels[p as usize % N];
        if label != 0 {
            self.pair(k, label);
            return 3 + self.pending.take_out(p) as u16;
        }
        self.pair(k, self.given + 1);
        let q = next(s0, p);
        if q == p {
            self.single(p);
            return 2;
        }
        self.triple(p, q, next(s0, q));
        1
    }
}

/// The edges labelled so far in one rooting.
pub trait Marks {
    fn none() -> Self;
    fn restart(&mut self);
    fn mark(&mut self, x: u16);
    fn has(&self, x: u16) -> bool;
}

/// A bit for each of at most 64 edges.
pub struct Bits(u64);

impl Marks for Bits {
    #[inline(always)]
    fn none() -> Self {
        Bits(0)
    }
    #[inline(always)]
    fn restart(&mut self) {
        self.0 = 0;
    }
    #[inline(always)]
    fn mark(&mut self, x: u16) {
        self.0 |= 1 << (x & 63);
    }
    #[inline(always)]
    fn has(&self, x: u16) -> bool {
        self.0 >> (x & 63) & 1 != 0
    }
}

/// The number of the rooting in which each edge was labelled last, so that nothing is cleared between rootings.
pub struct Stamps {
    last: [u16; MAX_SIZE],
    now: u16,
}

impl Marks for Stamps {
    fn none() -> Self {
        Stamps { last: [0; MAX_SIZE], now: 0 }
    }
    #[inline(always)]
    fn restart(&mut self) {
        self.now += 1;
    }
    #[inline(always)]
    fn mark(&mut self, x: u16) {
        self.last[x as usize % MAX_SIZE] = self.now;
    }
    #[inline(always)]
    fn has(&self, x: u16) -> bool {
        self.last[x as usize % MAX_SIZE] == self.now
    }
}

/// The word of a rooting, item by item: what kept and position need of a labelling.
pub struct Rooting<'a, M, const N: usize> {
    s0: &'a [u16],
    s1: &'a [u16],
    marks: M,
    pending: Stack<'a, N>,
}

impl<'a, M: Marks, const N: usize> Rooting<'a, M, N> {
    #[inline(always)]
    pub fn new(s0: &'a [u16], s1: &'a [u16], pending: Stack<'a, N>) -> Self {
        Rooting { s0, s1, marks: M::none(), pending }
    }

    #[inline(always)]
    pub fn start(&mut self, root: u16) -> u16 {
        self.marks.restart();
        self.pending.clear();
        self.marks.mark(root);
        self.pending.push(root);
        let q = next(self.s0, root);
        if q == root {
            return 0;
        }
        self.fork(q);
        1
    }

    #[inline(always)]
    fn fork(&mut self, q: u16) {
        let r = next(self.s0, q);
        self.marks.mark(q);
        self.marks.mark(r);
        self.pending.push(q);
        self.pending.push(r);
    }

    #[inline(always)]
    pub fn item(&mut self) -> Option<u16> {
        let x = self.pending.pop()?;
        let p = next(self.s1, x);
        if p == x {
            return Some(0);
        }
        if self.marks.has(p) {
            return Some(3 + self.pending.take_out(p) as u16);
        }
        self.marks.mark(p);
        let q = next(self.s0, p);
        if q == p {
            return Some(2);
        }
        self.fork(q);
        Some(1)
    }

    /// Whether the rooting's word comes before own, decided at the first item that differs.
    #[inline(always)]
    fn precedes(&mut self, root: u16, own: &[u16]) -> bool {
        let first = self.start(root);
        if first != own[0] {
            return first < own[0];
        }
        for &x in &own[1..] {
            match self.item() {
                None => return true,
                Some(y) if y != x => return y < x,
                Some(_) => {}
            }
        }
        false
    }

    /// Whether no other rooting's word comes before own, the word of `root`.
    #[inline(always)]
    pub fn least(&mut self, root: u16, own: &[u16]) -> bool {
        self.least_among(root, own, |_| true)
    }

    /// The same with an early test. U comes before T: a word that begins with T is not the least where s0 fixes some edge, and before one that begins with
    /// U only words of rootings that s0 fixes can come.
    #[inline(always)]
    pub fn least_tested(&mut self, root: u16, own: &[u16]) -> bool {
        let s0 = self.s0;
        if own[0] == 0 {
            return self.least_among(root, own, |x| next(s0, x) == x);
        }
        !s0.iter().zip(1..).any(|(&x, i)| x == i) && self.least(root, own)
    }

    #[inline(always)]
    fn least_among(&mut self, root: u16, own: &[u16], tried: impl Fn(u16) -> bool) -> bool {
        (1..=self.s0.len() as u16).all(|x| x == root || !tried(x) || !self.precedes(x, own))
    }
}

pub fn kept(s0: &[u16], s1: &[u16], root: u64) -> Result<bool, u16> {
    maps(s0, s1, root)?;
    if s0.len() <= SMALL {
        kept_in::<Bits, SMALL, { SMALL + 1 }>(s0, s1, root as u16)
    } else {
        kept_in::<Stamps, MAX_SIZE, { MAX_SIZE + 1 }>(s0, s1, root as u16)
    }
}

/// The diagram is connected where the labelling from its root reaches every edge.
fn kept_in<M: Marks, const N: usize, const W: usize>(s0: &[u16], s1: &[u16], root: u16) -> Result<bool, u16> {
    let mut own = [0u16; W];
    let mut room = [0; N];
    let mut rooting = Rooting::<M, N>::new(s0, s1, Stack::over(&mut room));
    own[0] = rooting.start(root);
    let mut length = 1;
    while let Some(item) = rooting.item() {
        own[length] = item;
        length += 1;
    }
    if spelled(&own[..length]) != s0.len() {
        return Err(8);
    }
    Ok(rooting.least(root, &own[..length]))
}

/// How many edges a word labels.
fn spelled(word: &[u16]) -> usize {
    let later: u16 = word[1..].iter().map(|&x| 3 * (x == 1) as u16 + (x == 2) as u16).sum();
    (1 + 2 * word[0] + later) as usize
}
