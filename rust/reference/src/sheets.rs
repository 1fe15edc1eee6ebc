//! A sheet of words: cells of 52 numbers, each a word's length, its items and then zeros.
use crate::listing::position;
use crate::words::read_word;

/// The answers to the cells of a sheet, in order.
#[derive(Clone, Debug, Default, PartialEq, Eq)]
pub struct CellAnswers {
    /// Each cell's refusal, 0 where it is not refused.
    pub refusals: Vec<u16>,
    /// Each cell's position, 0 where it is refused.
    pub positions: Vec<u64>,
}

/// The position of the word in a cell of 52 numbers: 61; then as reading it into lists long enough and asking for the position of the diagram read would answer.
pub fn cell_position(cell: &[u16]) -> Result<u64, u16> {
    let length = usize::from(cell[0]);
    if length > 51 {
        return Err(61);
    }
    let (word, tail) = cell[1..].split_at(length);
    if tail.iter().any(|number| *number != 0) {
        return Err(61);
    }
    let (s0, s1) = read_word(word, [usize::MAX; 2])?;
    position(&s0, &s1, 1)
}

/// Sheet positions: what is written to the two lists, of the lengths told. 61; 9.
pub fn sheet_positions(sheet: &[u16], rooms: [usize; 2]) -> Result<CellAnswers, u16> {
    let cells = sheet.chunks_exact(52);
    if !cells.remainder().is_empty() {
        return Err(61);
    }
    if rooms[0] < cells.len() || rooms[1] < cells.len() {
        return Err(9);
    }
    let mut answers = CellAnswers::default();
    for answer in cells.map(cell_position) {
        answers.refusals.push(answer.err().unwrap_or(0));
        answers.positions.push(answer.unwrap_or(0));
    }
    Ok(answers)
}
