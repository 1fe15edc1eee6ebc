//! Sheets of words: the listing's positions, words by hand, every refusal of a cell and of a sheet.
use reference::*;

/// A word as a cell.
fn cell(word: &[u16]) -> [u16; 52] {
    let mut cell = [0; 52];
    cell[0] = word.len() as u16;
    cell[1..=word.len()].copy_from_slice(word);
    cell
}

fn answer(word: &[u16]) -> Result<u64, u16> {
    cell_position(&cell(word))
}

/// A first item and runs of equal items after it.
fn word(first: u16, runs: &[(u16, usize)]) -> Vec<u16> {
    runs.iter().fold(vec![first], |word, (item, times)| [word, vec![*item; *times]].concat())
}

#[test]
fn words_of_the_listing_have_their_positions() {
    for size in 1..=9 {
        let words = all_words(size);
        let sheet: Vec<u16> = words.iter().flat_map(|word| cell(word)).collect();
        let answers = CellAnswers { refusals: vec![0; words.len()], positions: (1..=words.len() as u64).collect() };
        assert_eq!(sheet_positions(&sheet, [words.len(); 2]), Ok(answers));
    }
}

#[test]
fn words_by_hand() {
    // UW, UB, TJ1W, TJ1B; the last of size 50
    assert_eq!([&[0, 0][..], &[0, 2], &[1, 4, 0], &[1, 4, 2]].map(answer), [Ok(1), Ok(1), Ok(4), Ok(8)]);
    let last = diagram_at(50, 499_877_970_985_660, [50, 50, 51]).unwrap().word;
    assert_eq!(answer(&last), Ok(499_877_970_985_660));
}

/// No word of the listing has more than 34 items; these of 48, 49 and 50 edges have as many.
#[test]
fn longest_words() {
    let longest = [(48, word(1, &[(1, 15), (0, 18)])), (49, word(0, &[(1, 16), (0, 17)])), (50, word(0, &[(1, 16), (0, 16), (2, 1)]))];
    for (size, word) in longest {
        let position = answer(&word).unwrap();
        assert_eq!((word.len(), diagram_at(size, position, [50, 50, 51]).map(|written| written.word)), (34, Ok(word)));
    }
}

/// More than 50 edges, up to the 100 that 51 items can spell: 3 and 24 times 3 by forks, and 25 single ones.
#[test]
fn words_of_more_than_50_edges() {
    let words = [
        (51, word(1, &[(1, 16), (0, 19)])),
        (51, word(0, &[(1, 16), (0, 15), (2, 2)])),
        (98, word(0, &[(1, 24), (2, 25)])),
        (98, word(1, &[(1, 23), (2, 26)])),
        (100, word(1, &[(1, 24), (3, 1), (2, 25)])),
    ];
    for (edges, word) in words {
        assert_eq!((read_word(&word, [100, 100]).map(|(s0, _)| s0.len()), answer(&word)), (Ok(edges), Err(31)));
    }
}

#[test]
fn refusals_of_a_cell() {
    assert_eq!((answer(&[]), answer(&[2]), answer(&[1, 5]), answer(&[1, 0]), answer(&[0, 0, 0])), (Err(21), Err(22), Err(23), Err(25), Err(26)));
    assert_eq!((answer(&[0; 51]), answer(&[1; 51])), (Err(26), Err(25)));
    // A length too long over zeros, too short, none, and above 51.
    let with_length = |length: u16| {
        let mut cell = cell(&[1, 4, 0]);
        cell[0] = length;
        cell_position(&cell)
    };
    assert_eq!([3, 4, 51].map(with_length), [Ok(4), Err(26), Err(26)]);
    // The last item is 0, so that a length too short by one leaves no tail; one shorter leaves J1 there.
    assert_eq!([2, 1, 0, 52, 53, 256 + 3, 65_535].map(with_length), [Err(25), Err(61), Err(61), Err(61), Err(61), Err(61), Err(61)]);
}

/// Every place behind a word must be 0, whatever the word is.
#[test]
fn tails() {
    for (word, number) in [(&[1, 4, 0][..], Ok(4)), (&[], Err(21)), (&[7], Err(22)), (&[0, 3], Err(23)), (&[1], Err(25)), (&[0, 0, 0], Err(26))] {
        assert_eq!(answer(word), number);
        for place in word.len() + 1..52 {
            for item in [1, 256, 65_535] {
                let mut cell = cell(word);
                cell[place] = item;
                assert_eq!(cell_position(&cell), Err(61));
            }
        }
    }
}

#[test]
fn refusals_of_a_sheet() {
    let sheet = [cell(&[0, 2]), cell(&[2]), cell(&[1, 4, 0])].concat();
    let answers = CellAnswers { refusals: vec![0, 22, 0], positions: vec![1, 0, 4] };
    for rooms in [[3, 3], [4, 3], [3, 4], [100, 100]] {
        assert_eq!(sheet_positions(&sheet, rooms), Ok(answers.clone()));
    }
    for rooms in [[2, 3], [3, 2], [0, 100], [100, 0], [0, 0]] {
        assert_eq!(sheet_positions(&sheet, rooms), Err(9));
    }
    for length in (0..sheet.len()).filter(|length| length % 52 != 0) {
        assert_eq!((sheet_positions(&sheet[..length], [0, 0]), sheet_positions(&sheet[..length], [3, 3])), (Err(61), Err(61)));
    }
    assert_eq!((sheet_positions(&[], [0, 0]), sheet_positions(&[], [1, 1])), (Ok(CellAnswers::default()), Ok(CellAnswers::default())));
}
