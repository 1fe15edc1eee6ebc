//! Sheets of words: cells of 52 numbers, one after another, each a word's length, its items and then zeros.
use crate::answers::answered;
use crate::raw;
use crate::Refusal;

/// How many numbers a cell of a sheet has.
pub const CELL: usize = 52;

/// A word as a cell of a sheet: its length, its items, then zeros. `None` where it has more items than a cell has places for, 51.
pub fn cell(word: &[u16]) -> Option<[u16; CELL]> {
    let mut cell = [0; CELL];
    let (length, places) = cell.split_first_mut()?;
    *length = u16::try_from(word.len()).ok()?;
    places.get_mut(..word.len())?.copy_from_slice(word);
    Some(cell)
}

/// Sheet positions: writes for each cell, in its place of the two lists, the number of its refusal, 0 where it is not refused, and its position, 0
/// where it is: what reading its word into lists long enough and then asking for the position of the diagram read, with root 1, would answer. The
/// rest of both lists is untouched.
///
/// A cell is refused 61 where its length is above 51 or a number after its word is not 0; then as [`read_word`](crate::read_word) refuses, 21, item
/// by item 26, 22 and 23, and at the end 25; then 31. It is never refused 24 or 9. A cell that is refused does not hold up the next, and no cell's
/// answer depends on another. [`Refusal::from_number`] has the refusals by their numbers.
///
/// The call refuses 61 where the sheet's length is no multiple of [`CELL`]; then 9 where a list has fewer places than the sheet has cells. An empty
/// sheet writes nothing and is taken with empty lists.
///
/// ```
/// use kaldvemir::{cell, sheet_positions, Refusal};
/// // U B; T J1 without its last item; T J1 W
/// let sheet = [&[0, 2][..], &[1, 4], &[1, 4, 0]].map(|word| cell(word).unwrap()).concat();
/// let (mut refusals, mut positions) = ([9; 3], [9; 4]);
/// assert_eq!(sheet_positions(&sheet, &mut refusals, &mut positions), Ok(()));
/// assert_eq!((refusals, positions), ([0, 25, 0], [1, 0, 4, 9]));
/// assert_eq!(refusals.map(Refusal::from_number), [None, Some(Refusal::EdgesPending), None]);
/// assert_eq!(sheet_positions(&sheet[1..], &mut refusals, &mut positions), Err(Refusal::CellInvalid));
/// ```
#[inline]
pub fn sheet_positions(sheet: &[u16], refusals: &mut [u16], positions: &mut [u64]) -> Result<(), Refusal> {
    answered(raw::sheet_positions(sheet, refusals, positions))
}
