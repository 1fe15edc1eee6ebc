//! Read word: item by item into two local lists, which are copied out once the whole word is known to be good.
use super::ring::Ring;
use crate::table::MAX_SIZE;

/// The lists and the pending labels so far, how many labels are given and how many are pending.
struct Reader<'a> {
    x0: &'a mut [u16; MAX_SIZE],
    x1: &'a mut [u16; MAX_SIZE],
    pending: &'a mut Ring,
    used: u16,
    height: u16,
}

pub fn read_word(word: &[u16], s0: &mut [u16], s1: &mut [u16]) -> Result<usize, u16> {
    if word.is_empty() || word.len() > MAX_SIZE + 1 {
        return Err(21);
    }
    let (mut x0, mut x1, mut pending) = ([0; MAX_SIZE], [0; MAX_SIZE], Ring::empty());
    let mut reader = Reader { x0: &mut x0, x1: &mut x1, pending: &mut pending, used: 0, height: 0 };
    reader.begin(word[0])?;
    for &item in &word[1..] {
        reader.event(item)?;
    }
    if reader.height != 0 {
        return Err(25);
    }
    let n = reader.used as usize;
    if s0.len() < n || s1.len() < n {
        return Err(9);
    }
    s0[..n].copy_from_slice(&x0[..n]);
    s1[..n].copy_from_slice(&x1[..n]);
    Ok(n)
}

impl Reader<'_> {
    /// U or T.
    fn begin(&mut self, item: u16) -> Result<(), u16> {
        match item {
            0 => {
                self.x0[0] = 1;
                self.x1[0] = 1;
                self.used = 1;
            }
            1 => {
                self.x0[..3].copy_from_slice(&[2, 3, 1]);
                self.x1[..3].copy_from_slice(&[1, 2, 3]);
                self.used = 3;
            }
            _ => return Err(22),
        }
        self.height = self.used;
        (1..=self.used).for_each(|x| self.pending.push(x));
        Ok(())
    }

    #[inline]
    fn pair(&mut self, a: u16, b: u16) {
        self.x1[a as usize - 1] = b;
        self.x1[b as usize - 1] = a;
    }

    /// W leaves the label that was popped its own partner, as the list has it already.
    #[inline]
    fn event(&mut self, item: u16) -> Result<(), u16> {
        let k = self.pending.pop().ok_or(26u16)?;
        self.height -= 1;
        match item {
            0 => Ok(()),
            1 => self.fork(k),
            2 => self.single(k),
            _ => self.join(k, item - 3),
        }
    }

    #[inline]
    fn fork(&mut self, k: u16) -> Result<(), u16> {
        let at = self.used as usize;
        if at + 3 > MAX_SIZE {
            return Err(24);
        }
        let c = self.used + 1;
        self.x0[at..at + 3].copy_from_slice(&[c + 1, c + 2, c]);
        self.x1[k as usize - 1] = c;
        self.x1[at..at + 3].copy_from_slice(&[k, c + 1, c + 2]);
        self.pending.push(c + 1);
        self.pending.push(c + 2);
        self.used += 3;
        self.height += 2;
        Ok(())
    }

    #[inline]
    fn single(&mut self, k: u16) -> Result<(), u16> {
        if self.used as usize + 1 > MAX_SIZE {
            return Err(24);
        }
        self.used += 1;
        self.x0[self.used as usize - 1] = self.used;
        self.pair(k, self.used);
        Ok(())
    }

    #[inline]
    fn join(&mut self, k: u16, d: u16) -> Result<(), u16> {
        if d >= self.height {
            return Err(23);
        }
        let p = self.pending.at(d, self.height);
        self.pending.unhook(p);
        self.height -= 1;
        self.pair(k, p);
        Ok(())
    }
}
