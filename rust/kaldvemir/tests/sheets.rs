//! Sheets of words: positions by hand and of whole sizes, every refusal of a cell and of a sheet, and what is left untouched.
use kaldvemir::*;

/// A sheet of words.
fn sheet(words: &[&[u16]]) -> Vec<u16> {
    words.iter().flat_map(|word| cell(word).unwrap()).collect()
}

/// What a call answers and leaves in lists of such lengths, which hold 7 in every place before.
fn answer(sheet: &[u16], rooms: [usize; 2]) -> (Result<(), Refusal>, Vec<u16>, Vec<u64>) {
    let (mut refusals, mut positions) = (vec![7; rooms[0]], vec![7; rooms[1]]);
    let answer = sheet_positions(sheet, &mut refusals, &mut positions);
    (answer, refusals, positions)
}

/// The pairs of a sheet's cells.
fn pairs(sheet: &[u16]) -> Vec<(u16, u64)> {
    let cells = sheet.len() / CELL;
    let (answer, refusals, positions) = answer(sheet, [cells; 2]);
    assert_eq!(answer, Ok(()));
    refusals.into_iter().zip(positions).collect()
}

/// The pair of a word, read and asked for by two calls.
fn pair_by_calls(word: &[u16]) -> (u16, u64) {
    let (mut s0, mut s1) = ([0; 160], [0; 160]);
    match read_word(word, &mut s0, &mut s1).and_then(|size| position(&s0[..size], &s1[..size], 1)) {
        Ok(position) => (0, position),
        Err(refusal) => (refusal.number(), 0),
    }
}

/// A first item and runs of equal items after it.
fn word(first: u16, runs: &[(u16, usize)]) -> Vec<u16> {
    runs.iter().fold(vec![first], |word, (item, times)| [word, vec![*item; *times]].concat())
}

#[test]
fn cells_of_words() {
    let mut tj1w = [0; CELL];
    tj1w[..4].copy_from_slice(&[3, 1, 4, 0]);
    assert_eq!((cell(&[1, 4, 0]), cell(&[])), (Some(tj1w), Some([0; CELL])));
    let mut full = [8; CELL];
    full[0] = 51;
    assert_eq!((cell(&[8; 51]), cell(&[8; 52]), cell(&[8; 65_536 + 3])), (Some(full), None, None));
}

#[test]
fn words_by_hand() {
    // UW, UB, TWWW, TWJ0, TJ0W, TJ1W, TJ1B
    let good: [&[u16]; 7] = [&[0, 0], &[0, 2], &[1, 0, 0, 0], &[1, 0, 3], &[1, 3, 0], &[1, 4, 0], &[1, 4, 2]];
    assert_eq!(pairs(&sheet(&good)), [1, 1, 1, 2, 3, 4, 8].map(|position| (0, position)));
}

/// Each word of the sizes 1 to 9, all on one sheet.
#[test]
fn whole_sizes() {
    let (mut words, mut expected) = (vec![], vec![]);
    for size in 1..=9 {
        for (position, listed) in (1..).zip(Run::begin(size).unwrap()) {
            words.extend(cell(&listed.unwrap().word).unwrap());
            expected.push((0, position));
        }
    }
    assert_eq!((expected.len(), pairs(&words)), (243, expected));
}

/// First and last diagrams of every listed size; no word of the listing has more than 34 items.
#[test]
fn every_listed_size() {
    for size in 1..=50 {
        let last = count(size).unwrap();
        for position in [1, last.div_ceil(2), last] {
            let (mut s0, mut s1, mut word) = ([0; 50], [0; 50], [0; 51]);
            let length = diagram_at(size, position, &mut s0, &mut s1, &mut word).unwrap();
            assert!(length <= 34);
            assert_eq!(pairs(&sheet(&[&word[..length]])), [(0, position)]);
        }
    }
}

/// Of 34 items and 48, 49 and 50 edges; of 51 edges; and the most edges that 51 items spell.
#[test]
fn long_words() {
    let listed = [word(1, &[(1, 15), (0, 18)]), word(0, &[(1, 16), (0, 17)]), word(0, &[(1, 16), (0, 16), (2, 1)])];
    let large = [word(1, &[(1, 16), (0, 19)]), word(0, &[(1, 16), (0, 15), (2, 2)]), word(1, &[(1, 24), (3, 1), (2, 25)])];
    for (word, size) in listed.iter().zip([48, 49, 50]) {
        let pair = pair_by_calls(word);
        assert_eq!((pairs(&sheet(&[word])), pair.0), (vec![pair], 0));
        assert!((1..=count(size).unwrap()).contains(&pair.1));
    }
    for (word, size) in large.iter().zip([51, 51, 100]) {
        assert_eq!(read_word(word, &mut [0; 100], &mut [0; 100]), Ok(size));
        assert_eq!((pairs(&sheet(&[word])), pair_by_calls(word)), (vec![(31, 0)], (31, 0)));
    }
}

/// Words that are refused, by number.
const REFUSED: [(&[u16], u16); 12] = [
    (&[], 21),
    (&[2], 22),
    (&[65_535, 0], 22),
    (&[0, 3], 23),
    (&[1, 5], 23),
    (&[1, 65_535], 23),
    (&[0], 25),
    (&[1, 0], 25),
    (&[1; 51], 25),
    (&[0, 0, 0], 26),
    (&[0, 2, 65_535], 26),
    (&[0; 51], 26),
];

#[test]
fn words_refused() {
    for (word, number) in REFUSED {
        assert_eq!((pairs(&sheet(&[word])), pair_by_calls(word)), (vec![(number, 0)], (number, 0)));
        assert_eq!(Refusal::from_number(number).map(Refusal::number), Some(number));
    }
}

/// A length above 51, and each place behind a word: 61, also where the word would be refused otherwise.
#[test]
fn cells_refused() {
    let words = REFUSED.map(|(word, _)| word).into_iter().chain([&[0, 2][..], &[1, 4, 0]]);
    for cell in words.map(|word| cell(word).unwrap()) {
        for length in [52, 53, 255, 256, 256 + cell[0], 32_768, 65_535] {
            assert_eq!(pairs(&[&[length][..], &cell[1..]].concat()), [(61, 0)]);
        }
        for place in usize::from(cell[0]) + 1..CELL {
            for number in [1, 2, 256, 65_535] {
                let mut damaged = cell;
                damaged[place] = number;
                assert_eq!(pairs(&damaged), [(61, 0)]);
            }
        }
    }
}

/// A length too long over zeros asks for more items; one too short leaves items pending or in the tail.
#[test]
fn other_lengths() {
    let with_length = |length: u16| pairs(&[&[length][..], &cell(&[1, 4, 0]).unwrap()[1..]].concat());
    for (length, pair) in [(3, (0, 4)), (4, (26, 0)), (51, (26, 0)), (2, (25, 0)), (1, (61, 0)), (0, (61, 0))] {
        assert_eq!(with_length(length), [pair]);
    }
}

/// A bad cell of each kind between good ones.
#[test]
fn a_bad_cell_holds_up_nothing() {
    let mut tail = cell(&[0, 2]).unwrap();
    tail[51] = 1;
    let bad = REFUSED.iter().map(|(word, number)| (cell(word).unwrap(), *number));
    for (bad, number) in bad.chain([(tail, 61), ([52; CELL], 61), ([65_535; CELL], 61)]) {
        let sheet = [sheet(&[&[1, 4, 0]]), bad.to_vec(), sheet(&[&[1, 4, 2], &[0, 2]]), bad.to_vec()].concat();
        assert_eq!(pairs(&sheet), [(0, 4), (number, 0), (0, 8), (0, 1), (number, 0)]);
    }
}

/// The same cells in other places, alone, twice, and among others.
#[test]
fn a_pair_depends_on_its_cell_alone() {
    let words: Vec<&[u16]> = REFUSED.iter().map(|(word, _)| *word).chain([&[0, 2][..], &[1, 4, 0], &[1, 4, 2]]).collect();
    let alone: Vec<(u16, u64)> = words.iter().map(|word| pairs(&sheet(&[word]))[0]).collect();
    for turn in 0..words.len() {
        let turned = |list: &[(u16, u64)]| [&list[turn..], &list[..turn]].concat();
        assert_eq!(pairs(&sheet(&[&words[turn..], &words[..turn]].concat())), turned(&alone));
        assert_eq!(pairs(&sheet(&words[turn..])), alone[turn..]);
        assert_eq!(pairs(&sheet(&[words[turn]; 300])), [alone[turn]; 300]);
    }
}

#[test]
fn lists_short_exact_and_longer() {
    let sheet = sheet(&[&[1, 4, 0], &[1], &[0, 2]]);
    for rooms in [[2, 3], [3, 2], [0, 3], [3, 0], [0, 0], [2, 100]] {
        assert_eq!(answer(&sheet, rooms), (Err(Refusal::OutputShort), vec![7; rooms[0]], vec![7; rooms[1]]));
    }
    for rooms in [[3, 3], [4, 3], [3, 4], [60, 50]] {
        let (refusals, positions) = ([vec![0, 25, 0], vec![7; rooms[0] - 3]].concat(), [vec![4, 0, 1], vec![7; rooms[1] - 3]].concat());
        assert_eq!(answer(&sheet, rooms), (Ok(()), refusals, positions));
    }
}

/// 61 comes before 9; lengths that are multiples of 52 are taken.
#[test]
fn lengths_of_sheets() {
    let whole = sheet(&[&[1, 4, 0], &[1], &[0, 2]]);
    for length in 0..=whole.len() {
        let cells = length / CELL;
        for rooms in [[0, 0], [cells, cells], [3, 3]] {
            let (answer, refusals, positions) = answer(&whole[..length], rooms);
            let expected = match length % CELL {
                0 if rooms[0] >= cells => Ok(()),
                0 => Err(Refusal::OutputShort),
                _ => Err(Refusal::CellInvalid),
            };
            let written = if expected.is_ok() { cells } else { 0 };
            assert_eq!((answer, &refusals[..written], &positions[..written]), (expected, &[0, 25, 0][..written], &[4, 0, 1][..written]));
            assert!(refusals[written..].iter().all(|refusal| *refusal == 7) && positions[written..].iter().all(|position| *position == 7));
        }
    }
}

#[test]
fn an_empty_sheet() {
    for rooms in [[0, 0], [1, 0], [0, 1], [5, 5]] {
        assert_eq!(answer(&[], rooms), (Ok(()), vec![7; rooms[0]], vec![7; rooms[1]]));
    }
}
