//! The tables of 01 and published counts.
use reference::*;

const ROOMY: Rooms = [1024, 1024, 1025];

/// Document 000, Tables 6 and 7: rooted diagrams and classes without a root, of sizes 1, 2, 3 and so on.
const ROOTED: [u64; 14] = [1, 1, 4, 8, 5, 22, 42, 40, 120, 265, 286, 764, 1729, 2198];
const CLASSES: [usize; 14] = [1, 1, 2, 2, 1, 8, 6, 7, 14, 27, 26, 80, 133, 170];

fn text(word: &[u16]) -> String {
    String::from_utf8(letters(word, usize::MAX).unwrap()).unwrap()
}

fn texts(size: usize) -> Vec<String> {
    all_words(size).iter().map(|word| text(word)).collect()
}

#[test]
fn counts_are_the_published_ones() {
    for (place, rooted) in ROOTED.iter().enumerate() {
        assert_eq!(count(place as u64 + 1), Ok(*rooted));
        assert_eq!(all_words(place + 1).len() as u64, *rooted);
    }
    assert_eq!((count(24), count(36), count(50)), (Ok(2306464), Ok(12921383032), Ok(499877970985660)));
    assert_eq!((count(0), count(51), count(u64::MAX)), (Err(31), Err(31), Err(31)));
}

#[test]
fn each_class_is_kept_once() {
    for (place, classes) in CLASSES.iter().enumerate() {
        let keeps = |word: &Vec<u16>| {
            let (s0, s1) = read_word(word, [50, 50]).unwrap();
            kept(&s0, &s1, 1).unwrap()
        };
        assert_eq!(all_words(place + 1).iter().filter(|word| keeps(word)).count(), *classes);
    }
}

#[test]
fn words_of_sizes_1_to_4() {
    assert_eq!(texts(1), ["UW"]);
    assert_eq!(texts(2), ["UB"]);
    assert_eq!(texts(3), ["TWWW", "TWJ0", "TJ0W", "TJ1W"]);
    assert_eq!(texts(4), ["UFWW", "UFJ0", "TWWB", "TWBW", "TBWW", "TBJ0", "TJ0B", "TJ1B"]);
}

#[test]
fn census_of_size_3() {
    let census = "\
1 TWWW 2,3,1 1,2,3 3 0 1 0 3 K
2 TWJ0 2,3,1 2,1,3 1 0 2 0 2 K
3 TJ0W 2,3,1 1,3,2 1 0 2 0 2 -
4 TJ1W 2,3,1 3,2,1 1 0 2 0 2 -
";
    let mut run = Run::begin(3).unwrap();
    assert_eq!(run.rows(9, 9 * 67), Ok(Rows { rows: 4, text: census.bytes().collect(), kept: 2 }));
    assert_eq!(run, Run::at(3, 4));
}

/// A row whose cycles have 3 and 4 edges.
#[test]
fn a_row_with_its_level() {
    let row = "6 UFFJ1W 1,3,4,2,6,7,5 2,1,7,5,4,6,3 1 1 2 0 12 K\n";
    assert_eq!(Run::at(7, 5).rows(1, 103), Ok(Rows { rows: 1, text: row.bytes().collect(), kept: 1 }));
}

#[test]
fn relabelling_and_refusals_by_hand() {
    let written = Written { s0: vec![2, 3, 1, 4], s1: vec![1, 2, 4, 3], word: vec![1, 2, 0, 0] };
    assert_eq!(relabel(&[1, 3, 4, 2], &[2, 1, 3, 4], 3, [4, 4, 5]), Ok(written));
    for rooms in [[3, 4, 5], [4, 3, 5], [4, 4, 4]] {
        assert_eq!(relabel(&[1, 3, 4, 2], &[2, 1, 3, 4], 3, rooms), Err(9));
    }
    assert_eq!(check(&[1, 2], &[1, 2], 1), Err(8));
    assert_eq!(read_word(&[1, 0], [1024, 1024]), Err(25));
    assert_eq!(diagram_at(4, 8, ROOMY).map(|written| text(&written.word)), Ok("TJ1B".to_string()));
    assert_eq!((diagram_at(4, 9, ROOMY), diagram_at(4, 0, ROOMY), diagram_at(51, 1, ROOMY)), (Err(32), Err(32), Err(31)));
}

/// The conditions of check one after another, each with a later one in the same input where there can be one.
#[test]
fn check_answers_the_first_condition() {
    let long: Vec<u16> = (1..=1025).collect();
    assert_eq!((check(&[], &[1], 0), check(&long, &[], 0)), (Err(1), Err(1)));
    assert_eq!(check(&[0], &[1, 1], 0), Err(2));
    assert_eq!((check(&[0], &[1], 0), check(&[0], &[1], 65_537), check(&[1], &[1], 1)), (Err(3), Err(3), Ok(())));
    assert_eq!((check(&[3, 1], &[0, 1], 1), check(&[1, 2], &[0, 1], 1)), (Err(4), Err(5)));
    assert_eq!((check(&[2, 1], &[1, 1], 1), check(&[1, 2], &[1, 1], 1)), (Err(6), Err(7)));
}

#[test]
fn reading_answers_the_first_condition() {
    let read = |word: &[u16]| read_word(word, [0, 0]).unwrap_err();
    assert_eq!((read(&[]), read(&[9; 1026])), (21, 21));
    assert_eq!((read(&[2]), read(&[0, 0, 9]), read(&[0, 3]), read(&[1, 5]), read(&[0]), read(&[0, 0])), (22, 26, 23, 23, 25, 9));
    // Labels 1 to 1,024 in one chain of black vertices, and one more.
    let chain = |last: u16| [vec![0], vec![1; 341], vec![last], vec![0; 343]].concat();
    assert_eq!(read_word(&chain(0)[..685], [1024, 1024]).map(|(s0, _)| s0.len()), Err(26));
    assert_eq!(read_word(&chain(0)[..684], [1024, 1024]).map(|(s0, _)| s0.len()), Ok(1024));
    assert_eq!((read(&chain(2)), read(&chain(1))), (24, 24));
}
