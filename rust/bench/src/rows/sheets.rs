//! A sheet of words in one call, beside a call of read word and one of position for each word.
use crate::random::Random;
use crate::table::count_of;
use crate::timing::{Column, Row};
use crate::{library, same, tuned};
use std::hint::black_box;
use std::rc::Rc;

const CELLS: usize = 1000;
const SIZE: usize = 24;

/// Random words of a size's list.
pub fn words(random: &mut Random, size: usize, count: usize) -> Vec<Vec<u16>> {
    let drawn = (0..count).map(|_| {
        let mut word = vec![0; size + 1];
        let position = 1 + random.below(count_of(size));
        let length = tuned::positions::diagram_at(size as u64, position, &mut vec![0; size], &mut vec![0; size], &mut word).unwrap();
        word.truncate(length);
        word
    });
    drawn.collect()
}

/// Words of at most 51 items as a sheet.
pub fn sheet(words: &[Vec<u16>]) -> Vec<u16> {
    words.iter().flat_map(|word| kaldvemir::cell(word).unwrap()).collect()
}

type SheetPositions = fn(&[u16], &mut [u16], &mut [u64]) -> Result<(), u16>;

/// The whole sheet in one call, and the sum of its positions.
fn in_one_call(words: &[Vec<u16>], f: SheetPositions) -> impl FnMut() -> u64 {
    let sheet = sheet(words);
    let (mut refusals, mut positions) = (vec![0; CELLS], vec![0; CELLS]);
    move || {
        f(black_box(&sheet), &mut refusals, &mut positions).unwrap();
        assert!(black_box(&refusals).iter().all(|refusal| *refusal == 0));
        black_box(&positions).iter().fold(0, |sum, position| sum.wrapping_add(*position))
    }
}

/// Word by word: read into lists of its size, and the position of the diagram read.
fn one_by_one(
    words: Rc<Vec<Vec<u16>>>, read: impl Fn(&[u16], &mut [u16], &mut [u16]) -> Result<usize, u16> + 'static,
    position: impl Fn(&[u16], &[u16], u64) -> Result<u64, u16> + 'static,
) -> impl FnMut() -> u64 {
    let (mut s0, mut s1) = ([0; SIZE], [0; SIZE]);
    move || {
        words.iter().fold(0, |sum: u64, word| {
            let size = read(black_box(word), &mut s0, &mut s1).unwrap();
            sum.wrapping_add(position(&s0[..size], &s1[..size], 1).unwrap())
        })
    }
}

/// The library's sheet beside its own calls from Rust, beside a sheet by the same method, and beside tuned calls.
pub fn sheet_to_calls() -> Row {
    let words = Rc::new(words(&mut Random(8), SIZE, CELLS));
    Row::new(CELLS as u64, in_one_call(&words, library::sheet_positions))
        .beside(Column::Same, in_one_call(&words, same::sheets::sheet_positions))
        .beside(Column::Tuned, one_by_one(words.clone(), tuned::reading::read_word, tuned::positions::position))
        .beside(Column::Other, one_by_one(words.clone(), library::read_word, library::position))
}
