//! The labelling of a diagram, event by event: relabel and kept. Up to 64 edges the diagram is connected exactly if every edge gets a label, so the
//! labelling serves for the search of check, and its arrays have 65 places; the two link arrays of the ring have 1,025 always.
use super::check::{check, maps, next};
use super::ring::Ring;
use crate::table::MAX_SIZE;

/// Diagrams up to this size have their labelling in arrays of one place more.
pub const SMALL: usize = 64;
pub const SMALL_PLACES: usize = SMALL + 1;
const PLACES: usize = MAX_SIZE + 1;

pub fn relabel(s0: &[u16], s1: &[u16], root: u64, t0: &mut [u16], t1: &mut [u16], word: &mut [u16]) -> Result<usize, u16> {
    if s0.len() <= SMALL {
        maps(s0, s1, root)?;
        relabel_in::<SMALL_PLACES>(s0, s1, root as u16, t0, t1, word)
    } else {
        check(s0, s1, root)?;
        relabel_in::<PLACES>(s0, s1, root as u16, t0, t1, word)
    }
}

fn relabel_in<const N: usize>(s0: &[u16], s1: &[u16], root: u16, t0: &mut [u16], t1: &mut [u16], word: &mut [u16]) -> Result<usize, u16> {
    let n = s0.len();
    let mut labels = Labels::<N>::none();
    let mut own = [0; N];
    let length = word_of(s0, s1, root, &mut labels, &mut Ring::empty(), &mut own)?;
    if t0.len() < n || t1.len() < n || word.len() <= n {
        return Err(9);
    }
    word[..length].copy_from_slice(&own[..length]);
    labels.write(s0, &mut t0[..n]);
    labels.write(s1, &mut t1[..n]);
    Ok(length)
}

pub fn kept(s0: &[u16], s1: &[u16], root: u64) -> Result<bool, u16> {
    if u_before_root(s0, root) {
        return check(s0, s1, root).map(|()| false);
    }
    if s0.len() <= SMALL {
        maps(s0, s1, root)?;
        kept_in::<SMALL_PLACES>(s0, s1, root as u16)
    } else {
        check(s0, s1, root)?;
        kept_in::<PLACES>(s0, s1, root as u16)
    }
}

/// Whether the root is an edge whose word begins with T while that of some other begins with U, and so comes before it.
fn u_before_root(s0: &[u16], root: u64) -> bool {
    let fixed = |x: u16| next(s0, x) == x;
    let edges = 1..=s0.len() as u16;
    s0.len() <= MAX_SIZE && 1 <= root && root <= s0.len() as u64 && !fixed(root as u16) && { edges }.any(fixed)
}

fn kept_in<const N: usize>(s0: &[u16], s1: &[u16], root: u16) -> Result<bool, u16> {
    let mut own = [0; N];
    let mut tracer = Tracer::<N>::new();
    let length = word_of(s0, s1, root, &mut Labels::<N>::none(), &mut tracer.pending, &mut own)?;
    Ok(tracer.least(s0, s1, root, &own[..length]))
}

/// Labels the whole diagram, writes its word and returns the word's length; 8 where some edge gets no label.
#[inline(always)]
fn word_of<const N: usize>(
    s0: &[u16], s1: &[u16], root: u16, labels: &mut Labels<N>, pending: &mut Ring, word: &mut [u16; N],
) -> Result<usize, u16> {
    let mut rooting = Rooting::new(s0, s1, labels, pending);
    word[0] = rooting.begin(root);
    let mut length = 1;
    while let Some(item) = rooting.event() {
        word[length] = item;
        length += 1;
    }
    rooting.whole()?;
    Ok(length)
}

/// What a labelling notes of the edges labelled so far.
pub trait Marks {
    /// Whether the ring may be so long that a pending edge is looked for from both ends.
    const LARGE: bool;
    fn give(&mut self, x: u16, label: u16);
    fn has(&self, x: u16) -> bool;
}

/// The label of each edge, 0 where it has none, and the edge of each label.
pub struct Labels<const N: usize> {
    labels: [u16; N],
    order: [u16; N],
}

impl<const N: usize> Marks for Labels<N> {
    const LARGE: bool = N > SMALL_PLACES;

    #[inline(always)]
    fn give(&mut self, x: u16, label: u16) {
        self.labels[x as usize] = label;
        self.order[label as usize] = x;
    }

    #[inline(always)]
    fn has(&self, x: u16) -> bool {
        self.labels[x as usize] != 0
    }
}

impl<const N: usize> Labels<N> {
    #[inline(always)]
    pub fn none() -> Self {
        Labels { labels: [0; N], order: [0; N] }
    }

    /// Writes a list seen through the labels.
    fn write(&self, s: &[u16], t: &mut [u16]) {
        for (t, &x) in t.iter_mut().zip(&self.order[1..]) {
            *t = self.labels[next(s, x) as usize];
        }
    }
}

/// For each edge the number of the rooting that labelled it last: it is labelled exactly if that is the number of this one.
pub struct Stamps<'a, const N: usize> {
    pub stamps: &'a mut [u16; N],
    pub rooting: u16,
}

impl<const N: usize> Marks for Stamps<'_, N> {
    const LARGE: bool = false;

    #[inline(always)]
    fn give(&mut self, x: u16, _label: u16) {
        self.stamps[x as usize] = self.rooting;
    }

    #[inline(always)]
    fn has(&self, x: u16) -> bool {
        self.stamps[x as usize] == self.rooting
    }
}

/// A labelling from a root, under way: how many edges are labelled, and how many are pending.
pub struct Rooting<'a, M> {
    s0: &'a [u16],
    s1: &'a [u16],
    marks: &'a mut M,
    pending: &'a mut Ring,
    given: u16,
    height: u16,
}

impl<'a, M: Marks> Rooting<'a, M> {
    #[inline(always)]
    pub fn new(s0: &'a [u16], s1: &'a [u16], marks: &'a mut M, pending: &'a mut Ring) -> Self {
        Rooting { s0, s1, marks, pending, given: 0, height: 0 }
    }

    #[inline(always)]
    fn give(&mut self, x: u16) {
        self.given += 1;
        self.marks.give(x, self.given);
    }

    #[inline(always)]
    fn push(&mut self, x: u16) {
        self.pending.push(x);
        self.height += 1;
    }

    /// The edges p, q and r round a black vertex get the next labels; the last two are pushed.
    #[inline(always)]
    fn fork(&mut self, p: u16, q: u16) {
        let r = next(self.s0, q);
        self.give(p);
        self.give(q);
        self.give(r);
        self.push(q);
        self.push(r);
    }

    /// The first item: U or T.
    #[inline(always)]
    pub fn begin(&mut self, root: u16) -> u16 {
        self.push(root);
        let q = next(self.s0, root);
        if q == root {
            self.give(root);
            return 0;
        }
        self.fork(root, q);
        1
    }

    /// The item of the edge on top of the stack; none where the stack is empty.
    #[inline(always)]
    pub fn event(&mut self) -> Option<u16> {
        let k = self.pending.pop()?;
        self.height -= 1;
        let p = next(self.s1, k);
        if p == k {
            return Some(0);
        }
        if self.marks.has(p) {
            let d = if M::LARGE { self.pending.depth_from_both(p, self.height) } else { self.pending.depth(p) };
            self.pending.unhook(p);
            self.height -= 1;
            return Some(3 + d);
        }
        let q = next(self.s0, p);
        if q == p {
            self.give(p);
            return Some(2);
        }
        self.fork(p, q);
        Some(1)
    }

    /// 8 where some edge got no label.
    #[inline(always)]
    pub fn whole(&self) -> Result<(), u16> {
        if self.given as usize == self.s0.len() { Ok(()) } else { Err(8) }
    }
}

/// Keep marks of diagrams, one after another: the stamps and the ring, which are made once.
pub struct Tracer<const N: usize> {
    stamps: [u16; N],
    pending: Ring,
}

impl<const N: usize> Tracer<N> {
    #[inline(always)]
    pub fn new() -> Self {
        Tracer { stamps: [0; N], pending: Ring::empty() }
    }

    /// Whether no rooting's word comes before own, the word of the root. U comes before T: a word that begins with T is not the least where s0 fixes some
    /// edge, and before one that begins with U only words of rootings that s0 fixes can come.
    #[inline(always)]
    pub fn least(&mut self, s0: &[u16], s1: &[u16], root: u16, own: &[u16]) -> bool {
        let mut edges = 1..=s0.len() as u16;
        let fixed = |x: u16| next(s0, x) == x;
        if own[0] == 1 && edges.clone().any(fixed) {
            return false;
        }
        self.stamps[..=s0.len()].fill(0);
        edges.all(|x| x == root || (own[0] == 0 && !fixed(x)) || !self.precedes(s0, s1, x, own))
    }

    /// Whether the word of a rooting, which begins as own does, comes before own: decided at the first item that differs.
    #[inline(always)]
    fn precedes(&mut self, s0: &[u16], s1: &[u16], root: u16, own: &[u16]) -> bool {
        self.pending.clear();
        let mut stamps = Stamps { stamps: &mut self.stamps, rooting: root };
        let mut rooting = Rooting::new(s0, s1, &mut stamps, &mut self.pending);
        rooting.begin(root);
        for &x in &own[1..] {
            match rooting.event() {
                None => return true,
                Some(y) if y != x => return y < x,
                Some(_) => {}
            }
        }
        false
    }
}
