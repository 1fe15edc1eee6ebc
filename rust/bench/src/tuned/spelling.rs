//! The diagram of a listed word, event by event, straight into the lists.
use super::pending::Stack;
use super::SMALL;

pub struct Speller<'a> {
    s0: &'a mut [u16],
    s1: &'a mut [u16],
    pending: Stack<'a, SMALL>,
    used: u16,
}

impl<'a> Speller<'a> {
    /// The root: U, or T.
    #[inline(always)]
    pub fn new(s0: &'a mut [u16], s1: &'a mut [u16], pending: Stack<'a, SMALL>, root: u16) -> Self {
        let mut speller = Speller { s0, s1, pending, used: 0 };
        speller.pending.push(1);
        if root == 0 {
            speller.s0[0] = 1;
            speller.used = 1;
        } else {
            speller.triple();
        }
        speller
    }

    #[inline(always)]
    pub fn height(&self) -> usize {
        self.pending.height()
    }

    /// A black vertex of three new labels; the last two are pushed.
    #[inline(always)]
    fn triple(&mut self) {
        let c = self.used + 1;
        let at = self.used as usize;
        self.s0[at..at + 3].copy_from_slice(&[c + 1, c + 2, c]);
        self.pending.push(c + 1);
        self.pending.push(c + 2);
        self.used += 3;
    }

    #[inline(always)]
    fn pair(&mut self, a: u16, b: u16) {
        self.s1[a as usize - 1] = b;
        self.s1[b as usize - 1] = a;
    }

    #[inline(always)]
    pub fn event(&mut self, item: u16) {
        let k = self.pending.pop().expect("a listed word");
        match item {
            0 => self.s1[k as usize - 1] = k,
            1 => {
                self.pair(k, self.used + 1);
                self.triple();
            }
            2 => {
                self.pair(k, self.used + 1);
                self.s0[self.used as usize] = self.used + 1;
                self.used += 1;
            }
            _ => {
                let p = self.pending.take_at(item as usize - 3);
                self.pair(k, p);
            }
        }
    }
}

/// Writes the diagram of a whole word of a listed size.
pub fn spell(word: &[u16], s0: &mut [u16], s1: &mut [u16]) {
    let mut room = [0; SMALL];
    let mut speller = Speller::new(s0, s1, Stack::over(&mut room), word[0]);
    for &item in &word[1..] {
        speller.event(item);
    }
}
