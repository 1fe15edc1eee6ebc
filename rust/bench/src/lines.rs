//! A line of the census from its parts. All sides use this, so that the row of the census compares how the parts are found.
use crate::letters::put_decimal;
use kaldvemir::Invariants;

/// No line is longer.
pub const LINE: usize = 1024;

pub struct Page {
    pub bytes: Vec<u8>,
    pub at: usize,
    /// Where the pages go, if they are kept.
    pub kept: Option<Vec<u8>>,
}

impl Page {
    pub fn new(kept: Option<Vec<u8>>) -> Self {
        Page { bytes: vec![0; 64 * 1024], at: 0, kept }
    }

    #[inline(always)]
    pub fn byte(&mut self, b: u8) {
        self.bytes[self.at] = b;
        self.at += 1;
    }

    #[inline(always)]
    pub fn number(&mut self, x: u64) {
        self.at += put_decimal(&mut self.bytes[self.at..], x);
    }

    #[inline(always)]
    fn list(&mut self, list: &[u16]) {
        for (i, &x) in list.iter().enumerate() {
            if i > 0 {
                self.byte(b',');
            }
            self.number(x as u64);
        }
    }

    /// What follows the letters of the word: the lists, the invariants and the keep mark.
    #[inline(always)]
    pub fn rest(&mut self, s0: &[u16], s1: &[u16], x: &Invariants, kept: bool) {
        self.byte(b' ');
        self.list(s0);
        self.byte(b' ');
        self.list(s1);
        for part in [x.e2, x.e3, x.c] {
            self.byte(b' ');
            self.number(part as u64);
        }
        self.byte(b' ');
        if x.t < 0 {
            self.byte(b'-');
        }
        self.number(x.t.unsigned_abs() as u64);
        self.byte(b' ');
        self.number(x.level);
        self.byte(b' ');
        self.byte(if kept { b'K' } else { b'-' });
        self.byte(b'\n');
    }

    /// Begins anew where another line might not fit.
    #[inline(always)]
    pub fn turn(&mut self) {
        if self.at + LINE > self.bytes.len() {
            self.flush();
        }
    }

    pub fn flush(&mut self) {
        let page = std::hint::black_box(&self.bytes[..self.at]);
        if let Some(kept) = &mut self.kept {
            kept.extend_from_slice(page);
        }
        self.at = 0;
    }
}
