//! Read word.
use super::pending::Stack;
use super::SMALL;
use crate::table::MAX_SIZE;

struct Reader<'a, const N: usize> {
    x0: &'a mut [u16; N],
    x1: &'a mut [u16; N],
    pending: Stack<'a, N>,
    used: u16,
}

pub fn read_word(word: &[u16], s0: &mut [u16], s1: &mut [u16]) -> Result<usize, u16> {
    if word.is_empty() || word.len() > MAX_SIZE + 1 {
        return Err(21);
    }
    // Every item gives at most three labels.
    if 3 * word.len() <= SMALL {
        read_in::<SMALL>(word, s0, s1)
    } else {
        read_in::<MAX_SIZE>(word, s0, s1)
    }
}

fn read_in<const N: usize>(word: &[u16], s0: &mut [u16], s1: &mut [u16]) -> Result<usize, u16> {
    let (mut x0, mut x1, mut room) = ([0; N], [0; N], [0; N]);
    let mut reader = Reader { x0: &mut x0, x1: &mut x1, pending: Stack::over(&mut room), used: 0 };
    match word[0] {
        0 => {
            reader.single();
            reader.pending.push(1);
        }
        1 => {
            reader.pending.push(1);
            reader.triple();
        }
        _ => return Err(22),
    }
    for &item in &word[1..] {
        reader.event(item)?;
    }
    if reader.pending.height() != 0 {
        return Err(25);
    }
    let n = reader.used as usize;
    if s0.len() < n || s1.len() < n {
        return Err(9);
    }
    s0[..n].copy_from_slice(&x0[..n]);
    s1[..n].copy_from_slice(&x1[..n]);
    Ok(n)
}

impl<const N: usize> Reader<'_, N> {
    #[inline(always)]
    fn single(&mut self) {
        self.x0[self.used as usize] = self.used + 1;
        self.used += 1;
    }

    #[inline(always)]
    fn triple(&mut self) {
        let c = self.used + 1;
        let at = self.used as usize;
        self.x0[at..at + 3].copy_from_slice(&[c + 1, c + 2, c]);
        self.pending.push(c + 1);
        self.pending.push(c + 2);
        self.used += 3;
    }

    #[inline(always)]
    fn pair(&mut self, a: u16, b: u16) {
        self.x1[a as usize - 1] = b;
        self.x1[b as usize - 1] = a;
    }

    #[inline(always)]
    fn event(&mut self, item: u16) -> Result<(), u16> {
        let k = self.pending.pop().ok_or(26u16)?;
        match item {
            0 => self.x1[k as usize - 1] = k,
            1 => {
                if self.used as usize + 3 > MAX_SIZE {
                    return Err(24);
                }
                self.pair(k, self.used + 1);
                self.triple();
            }
            2 => {
                if self.used as usize + 1 > MAX_SIZE {
                    return Err(24);
                }
                self.pair(k, self.used + 1);
                self.single();
            }
            _ => {
                let d = item as usize - 3;
                if d >= self.pending.height() {
                    return Err(23);
                }
                let p = self.pending.take_at(d);
                self.pair(k, p);
            }
        }
        Ok(())
    }
}
