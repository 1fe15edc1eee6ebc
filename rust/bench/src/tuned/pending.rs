//! The pending edges as an array. The entries stand in a room apart from the stack itself, so that its height is kept in a register.
use super::SMALL;

/// A stack from which any edge can be taken out, its top at the end.
pub struct Stack<'a, const N: usize> {
    edges: &'a mut [u16; N],
    height: usize,
}

impl<'a, const N: usize> Stack<'a, N> {
    /// An empty stack.
    #[inline(always)]
    pub fn over(edges: &'a mut [u16; N]) -> Self {
        Stack { edges, height: 0 }
    }

    #[inline(always)]
    pub fn clear(&mut self) {
        self.height = 0;
    }

    #[inline(always)]
    pub fn height(&self) -> usize {
        self.height
    }

    #[inline(always)]
    pub fn push(&mut self, edge: u16) {
        self.edges[self.height] = edge;
        self.height += 1;
    }

    #[inline(always)]
    pub fn pop(&mut self) -> Option<u16> {
        self.height = self.height.checked_sub(1)?;
        Some(self.edges[self.height])
    }

    /// Takes out the edge that stands d below the top.
    #[inline(always)]
    pub fn take_at(&mut self, d: usize) -> u16 {
        let top = self.height - 1;
        let at = top - d;
        let edge = self.edges[at];
        if N <= SMALL {
            for i in at..top {
                self.edges[i] = self.edges[i + 1];
            }
        } else {
            self.edges.copy_within(at + 1..top + 1, at);
        }
        self.height = top;
        edge
    }

    /// Takes out an edge that is pending, and returns how far below the top it stood.
    #[inline(always)]
    pub fn take_out(&mut self, edge: u16) -> usize {
        if N <= SMALL {
            self.sift_out(edge)
        } else {
            let d = depth(&self.edges[..self.height], edge);
            self.take_at(d);
            d
        }
    }

    /// Looks for the edge and moves what stands above it in one pass.
    #[inline(always)]
    fn sift_out(&mut self, edge: u16) -> usize {
        let top = self.height - 1;
        let mut i = top;
        let mut moved = self.edges[i];
        while moved != edge {
            i -= 1;
            std::mem::swap(&mut moved, &mut self.edges[i]);
        }
        self.height = top;
        top - i
    }
}

/// How far from the end the edge stands; in blocks, each compared at once.
fn depth(pending: &[u16], edge: u16) -> usize {
    let mut above = 0;
    for block in pending.rchunks(16) {
        if block.iter().fold(false, |found, &x| found | (x == edge)) {
            return above + block.iter().rev().position(|&x| x == edge).unwrap();
        }
        above += block.len();
    }
    unreachable!("the edge is pending")
}
