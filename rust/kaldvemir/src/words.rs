//! Words: U = 0 or T = 1, then W = 0, F = 1, B = 2, Jd = 3 + d.
use crate::answers::length;
use crate::raw;
use crate::Refusal;

/// Read word: writes the diagram that the word spells and returns its size. Refuses 21; item by item 26, 22, 23 and 24; at the end 25; then 9.
#[inline]
pub fn read_word(word: &[u16], s0: &mut [u16], s1: &mut [u16]) -> Result<usize, Refusal> {
    length(|size| raw::read_word(word, s0, s1, size))
}

/// The smaller of two lent words in dictionary order, on equality the first. Takes any two lists.
#[inline]
pub fn lesser<'a>(a: &'a [u16], b: &'a [u16]) -> &'a [u16] {
    match raw::lesser(a, b) {
        1 => a,
        2 => b,
        side => panic!("the library answered {side} for one of two words"),
    }
}

/// A word in its event letters, as the census prints it: writes them to `out` and returns their number. Refuses 22 where the first item is not
/// 0 or 1, and 9.
#[inline]
pub fn letters(word: &[u16], out: &mut [u8]) -> Result<usize, Refusal> {
    length(|length| raw::letters(word, out, length))
}
