//! The diagram of a word of a listed size, drawn event by event into the lists. The pending labels stand in a small array, the stack.

pub type Stack = [u16; 64];

/// The lists and the stack so far, how many labels are given and how many are pending.
pub struct Drawing<'a> {
    pub s0: &'a mut [u16],
    pub s1: &'a mut [u16],
    stack: &'a mut Stack,
    pub used: usize,
    pub height: usize,
}

/// Draws a whole word.
pub fn write_diagram(word: &[u16], s0: &mut [u16], s1: &mut [u16]) {
    let mut stack = [0; 64];
    let mut drawing = Drawing::begin(word[0], s0, s1, &mut stack);
    for &item in &word[1..] {
        drawing.event(item);
    }
}

impl<'a> Drawing<'a> {
    /// U or T.
    #[inline(always)]
    pub fn begin(root: u16, s0: &'a mut [u16], s1: &'a mut [u16], stack: &'a mut Stack) -> Self {
        stack[..3].copy_from_slice(&[1, 2, 3]);
        let given = if root == 0 {
            s0[0] = 1;
            s1[0] = 1;
            1
        } else {
            s0[..3].copy_from_slice(&[2, 3, 1]);
            s1[..3].copy_from_slice(&[1, 2, 3]);
            3
        };
        Drawing { s0, s1, stack, used: given, height: given }
    }

    #[inline(always)]
    fn pair(&mut self, a: u16, b: u16) {
        self.s1[a as usize - 1] = b;
        self.s1[b as usize - 1] = a;
    }

    /// The event of an item; returns the label popped. W leaves it its own partner, as it is already.
    #[inline(always)]
    pub fn event(&mut self, item: u16) -> u16 {
        self.height -= 1;
        let k = self.stack[self.height];
        match item {
            0 => {}
            1 => self.fork(k),
            2 => {
                self.used += 1;
                self.s0[self.used - 1] = self.used as u16;
                self.pair(k, self.used as u16);
            }
            _ => {
                self.height -= 1;
                let at = self.height - (item as usize - 3);
                let p = self.stack[at];
                for i in at..self.height {
                    self.stack[i] = self.stack[i + 1];
                }
                self.pair(k, p);
            }
        }
        k
    }

    /// F: k's partner is the next free label, on a black vertex with the two after it, which are their own partners so far.
    #[inline(always)]
    fn fork(&mut self, k: u16) {
        let (used, c) = (self.used, self.used as u16 + 1);
        self.s0[used..used + 3].copy_from_slice(&[c + 1, c + 2, c]);
        self.s1[used..used + 3].copy_from_slice(&[k, c + 1, c + 2]);
        self.s1[k as usize - 1] = c;
        self.stack[self.height] = c + 1;
        self.stack[self.height + 1] = c + 2;
        self.height += 2;
        self.used += 3;
    }

    /// Takes back the event of an item that popped k. What it wrote past the labels that are left needs no undoing.
    #[inline(always)]
    pub fn take_back(&mut self, item: u16, k: u16) {
        match item {
            0 => {}
            1 => {
                self.height -= 2;
                self.used -= 3;
            }
            2 => self.used -= 1,
            _ => {
                let p = self.s1[k as usize - 1];
                self.s1[p as usize - 1] = p;
                let at = self.height - (item as usize - 3);
                for i in (at..self.height).rev() {
                    self.stack[i + 1] = self.stack[i];
                }
                self.stack[at] = p;
                self.height += 1;
            }
        }
        self.s1[k as usize - 1] = k;
        self.stack[self.height] = k;
        self.height += 1;
    }
}
