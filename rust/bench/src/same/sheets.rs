//! A sheet of words: a word is counted along to see that it can be read, and ranked as it stands.
use super::positions::Rank;
use crate::table::{MAX_LISTED, WAYS};
use kaldvemir::CELL;

pub fn sheet_positions(sheet: &[u16], refusals: &mut [u16], positions: &mut [u64]) -> Result<(), u16> {
    let cells = sheet.chunks_exact(CELL);
    if !cells.remainder().is_empty() {
        return Err(61);
    }
    if refusals.len() < cells.len() || positions.len() < cells.len() {
        return Err(9);
    }
    for ((cell, refusal), place) in cells.zip(refusals).zip(positions) {
        (*refusal, *place) = match position(cell) {
            Ok(position) => (0, position),
            Err(number) => (number, 0),
        };
    }
    Ok(())
}

fn position(cell: &[u16]) -> Result<u64, u16> {
    let length = cell[0] as usize;
    if length >= CELL || cell[length + 1..].iter().any(|&x| x != 0) {
        return Err(61);
    }
    let word = &cell[1..=length];
    let n = size_of(word)?;
    if n > MAX_LISTED {
        return Err(31);
    }
    Ok(1 + Rank::of(&WAYS, n, word))
}

/// How many labels a word gives, where it can be read. A cell has no place for 1,024 of them.
fn size_of(word: &[u16]) -> Result<usize, u16> {
    let Some((&first, items)) = word.split_first() else {
        return Err(21);
    };
    let (mut used, mut height) = match first {
        0 => (1, 1),
        1 => (3, 3),
        _ => return Err(22),
    };
    for &item in items {
        if height == 0 {
            return Err(26);
        }
        match item {
            0 => height -= 1,
            1 => (used, height) = (used + 3, height + 1),
            2 => (used, height) = (used + 1, height - 1),
            _ if (item as usize - 3) < height - 1 => height -= 2,
            _ => return Err(23),
        }
    }
    if height != 0 { Err(25) } else { Ok(used) }
}
