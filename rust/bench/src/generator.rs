//! Vidal's recursive generator (document 000, section 3) for one size: `dispatch` branches on the events, `recurse` ends or pops. It carries
//! s0, s1, the word and the pending ring along and undoes what it did; masking and revealing a pending edge are the source's. Branches
//! that lead to no diagram of the size are left at once.
use crate::table::{ends, MAX_LISTED};
use crate::tuned::labelling::{Bits, Rooting};
use crate::tuned::pending::Stack;
use crate::tuned::SMALL;

const ROOM: usize = MAX_LISTED + 4;

/// How many items are written, how many edges pending and how many labels given.
#[derive(Clone, Copy)]
struct Standing {
    length: usize,
    height: usize,
    used: usize,
}

struct Generator<F> {
    s0: [u16; ROOM],
    s1: [u16; ROOM],
    word: [u16; ROOM],
    next: [u16; ROOM],
    prev: [u16; ROOM],
    size: usize,
    output: F,
}

/// Calls `output` with s0, s1 and the word of each diagram of the size, in dictionary order.
pub fn generate<F: FnMut(&[u16], &[u16], &[u16])>(size: usize, output: F) {
    let mut g = Generator {
        s0: [0; ROOM], s1: [0; ROOM], word: [0; ROOM], next: [0; ROOM], prev: [0; ROOM],
        size, output,
    };
    if ends(1, size - 1) {
        g.s0[1] = 1;
        g.dispatch(1, Standing { length: 1, height: 0, used: 1 });
    }
    if size >= 3 {
        g.word[0] = 1;
        g.s0[1..4].copy_from_slice(&[2, 3, 1]);
        g.push(1);
        g.push(2);
        g.dispatch(3, Standing { length: 1, height: 2, used: 3 });
    }
}

impl<F: FnMut(&[u16], &[u16], &[u16])> Generator<F> {
    #[inline(always)]
    fn push(&mut self, edge: usize) {
        let top = self.next[0];
        self.next[edge] = top;
        self.prev[edge] = 0;
        self.prev[top as usize] = edge as u16;
        self.next[0] = edge as u16;
    }

    /// Takes a pending edge out.
    #[inline(always)]
    fn mask(&mut self, edge: usize) {
        let (above, below) = (self.prev[edge], self.next[edge]);
        self.next[above as usize] = below;
        self.prev[below as usize] = above;
    }

    /// Puts it back where it was.
    #[inline(always)]
    fn reveal(&mut self, edge: usize) {
        let (above, below) = (self.prev[edge], self.next[edge]);
        self.next[above as usize] = edge as u16;
        self.prev[below as usize] = edge as u16;
    }

    #[inline(always)]
    fn pair(&mut self, a: usize, b: usize) {
        self.s1[a] = b as u16;
        self.s1[b] = a as u16;
    }

    /// The events of the edge s, which was popped.
    fn dispatch(&mut self, s: usize, at: Standing) {
        let Standing { length, height, used } = at;
        let free = self.size - used;
        if ends(height, free) {
            self.word[length] = 0;
            self.s1[s] = s as u16;
            self.recurse(Standing { length: length + 1, height, used });
        }
        if free >= 3 && ends(height + 2, free - 3) {
            self.word[length] = 1;
            self.forward(s, at);
        }
        if free >= 1 && ends(height, free - 1) {
            self.word[length] = 2;
            let c = used + 1;
            self.s0[c] = c as u16;
            self.pair(s, c);
            self.recurse(Standing { length: length + 1, height, used: c });
        }
        if height >= 1 && ends(height - 1, free) {
            self.backward(s, at);
        }
    }

    #[inline(always)]
    fn forward(&mut self, s: usize, at: Standing) {
        let c = at.used + 1;
        self.s0[c..c + 3].copy_from_slice(&[c as u16 + 1, c as u16 + 2, c as u16]);
        self.pair(s, c);
        self.push(c + 1);
        self.push(c + 2);
        self.recurse(Standing { length: at.length + 1, height: at.height + 2, used: c + 2 });
        self.mask(c + 2);
        self.mask(c + 1);
    }

    #[inline(always)]
    fn backward(&mut self, s: usize, at: Standing) {
        let mut item = 3;
        let mut t = self.next[0] as usize;
        while t != 0 {
            self.word[at.length] = item;
            self.mask(t);
            self.pair(s, t);
            self.recurse(Standing { length: at.length + 1, height: at.height - 1, used: at.used });
            self.reveal(t);
            item += 1;
            t = self.next[t] as usize;
        }
    }

    fn recurse(&mut self, at: Standing) {
        let k = self.next[0] as usize;
        if k == 0 {
            (self.output)(&self.s0[1..self.size + 1], &self.s1[1..self.size + 1], &self.word[..at.length]);
            return;
        }
        self.mask(k);
        self.dispatch(k, Standing { height: at.height - 1, ..at });
        self.reveal(k);
    }
}

/// The keep mark of a diagram whose word is known, in its characteristic labelling: each rooting is traced up to the first item that differs.
pub fn kept_known(s0: &[u16], s1: &[u16], word: &[u16]) -> bool {
    let mut room = [0; SMALL];
    Rooting::<Bits, SMALL>::new(s0, s1, Stack::over(&mut room)).least(1, word)
}

/// The same with the test of U and T before any tracing.
pub fn kept_tested(s0: &[u16], s1: &[u16], word: &[u16]) -> bool {
    let mut room = [0; SMALL];
    Rooting::<Bits, SMALL>::new(s0, s1, Stack::over(&mut room)).least_tested(1, word)
}
