//! The pending ring: a stack in two arrays of links with a sentinel 0, so that an edge can be taken out wherever it stands. `next` leads
//! down from the top, `prev` up from the bottom.
use crate::table::MAX_SIZE;

pub struct Ring {
    next: [u16; MAX_SIZE + 1],
    prev: [u16; MAX_SIZE + 1],
}

impl Ring {
    #[inline(always)]
    pub fn empty() -> Self {
        Ring { next: [0; MAX_SIZE + 1], prev: [0; MAX_SIZE + 1] }
    }

    /// The links of edges that were pending stay behind and do no harm.
    #[inline]
    pub fn clear(&mut self) {
        self.next[0] = 0;
        self.prev[0] = 0;
    }

    #[inline]
    pub fn push(&mut self, x: u16) {
        let top = self.next[0];
        self.next[x as usize] = top;
        self.prev[x as usize] = 0;
        self.prev[top as usize] = x;
        self.next[0] = x;
    }

    #[inline]
    pub fn pop(&mut self) -> Option<u16> {
        let top = self.next[0];
        if top == 0 {
            return None;
        }
        let below = self.next[top as usize];
        self.next[0] = below;
        self.prev[below as usize] = 0;
        Some(top)
    }

    /// Takes x out, wherever it stands.
    #[inline]
    pub fn unhook(&mut self, x: u16) {
        let above = self.prev[x as usize];
        let below = self.next[x as usize];
        self.next[above as usize] = below;
        self.prev[below as usize] = above;
    }

    /// How many places below the top x stands, which is pending.
    #[inline]
    pub fn depth(&self, x: u16) -> u16 {
        let mut at = self.next[0];
        let mut d = 0;
        while at != x {
            at = self.next[at as usize];
            d += 1;
        }
        d
    }

    /// The same in a ring of so many, looked for from both ends at once.
    #[inline]
    pub fn depth_from_both(&self, x: u16, height: u16) -> u16 {
        let (mut down, mut up) = (self.next[0], self.prev[0]);
        let mut steps = 0;
        while down != x && up != x {
            down = self.next[down as usize];
            up = self.prev[up as usize];
            steps += 1;
        }
        if down == x { steps } else { height - 1 - steps }
    }

    /// What stands d places below the top of a ring of so many, walked to from the nearer end.
    #[inline]
    pub fn at(&self, d: u16, height: u16) -> u16 {
        let above_bottom = height - 1 - d;
        if d <= above_bottom {
            (0..d).fold(self.next[0], |x, _| self.next[x as usize])
        } else {
            (0..above_bottom).fold(self.prev[0], |x, _| self.prev[x as usize])
        }
    }
}
