//! The list of a size from the library in blocks.
use crate::library;
use kaldvemir::Run;

/// How many diagrams a block holds.
const ROWS: usize = 256;

/// The lists that a block is written into.
pub struct Block {
    size: usize,
    pub s0: Vec<u16>,
    pub s1: Vec<u16>,
    pub words: Vec<u16>,
    pub lengths: Vec<u16>,
    pub marks: Vec<u8>,
}

impl Block {
    fn new(size: usize) -> Self {
        let list = |each: usize| vec![0; ROWS * each];
        Block { size, s0: list(size), s1: list(size), words: list(size + 1), lengths: list(1), marks: vec![0; ROWS] }
    }

    /// Calls `output` with s0, s1, the word and the keep mark of each of the first so many diagrams.
    #[inline(always)]
    pub fn each(&self, given: usize, mut output: impl FnMut(&[u16], &[u16], &[u16], bool)) {
        let mut words = &self.words[..];
        let diagrams = self.s0.chunks_exact(self.size).zip(self.s1.chunks_exact(self.size));
        for ((s0, s1), (length, mark)) in diagrams.zip(self.lengths.iter().zip(&self.marks)).take(given) {
            let (word, rest) = words.split_at(*length as usize);
            output(s0, s1, word, *mark == 1);
            words = rest;
        }
    }
}

/// Calls `output` with block after block of the list of a size, and how many diagrams each has; `next` lists with or without keep marks.
#[inline(always)]
pub fn list(size: usize, next: fn(&mut Run, u64, &mut Block) -> Result<u64, u16>, mut output: impl FnMut(&Block, usize)) {
    let mut run = library::begin(size as u64).unwrap();
    let mut block = Block::new(size);
    loop {
        let given = next(&mut run, ROWS as u64, &mut block).unwrap() as usize;
        output(&block, given);
        if given < ROWS {
            return;
        }
    }
}
