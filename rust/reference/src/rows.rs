//! The rows of the census: a diagram of the listing as a line of text.
use crate::diagrams::invariants;
use crate::labelling::kept;
use crate::words::letters;
use crate::Written;

/// Rows as they are written one after another.
#[derive(Clone, Debug, Default, PartialEq, Eq)]
pub struct Rows {
    /// How many there are.
    pub rows: u64,
    /// Their text.
    pub text: Vec<u8>,
    /// How many of their diagrams are kept.
    pub kept: u64,
}

impl Rows {
    /// One row more: the diagram at a position.
    pub(crate) fn push(&mut self, position: u64, Written { s0, s1, word }: &Written) -> Result<(), u16> {
        let keep = kept(s0, s1, 1)?;
        let x = invariants(s0, s1, 1)?;
        let word = String::from_utf8(letters(word, usize::MAX)?).expect("letters and digits");
        let list = |list: &[u16]| list.iter().map(u16::to_string).collect::<Vec<_>>().join(",");
        let mark = if keep { 'K' } else { '-' };
        let line = format!("{position} {word} {} {} {} {} {} {} {} {mark}\n", list(s0), list(s1), x.e2, x.e3, x.c, x.t, x.level);
        self.rows += 1;
        self.text.extend(line.bytes());
        self.kept += u64::from(keep);
        Ok(())
    }
}
