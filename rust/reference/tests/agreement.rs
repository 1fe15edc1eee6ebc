//! Algorithms of the reference against one another: the listing against all labelled pairs, positions against the listing, runs against both.
use reference::*;
use std::collections::BTreeSet;

const ROOMY: Rooms = [50, 50, 51];

/// All lists of 1..n whose every entry is an edge.
fn lists(n: u16) -> Vec<Vec<u16>> {
    let mut lists = vec![vec![]];
    for _ in 0..n {
        lists = lists.iter().flat_map(|list: &Vec<u16>| (1..=n).map(move |entry| [&list[..], &[entry]].concat())).collect();
    }
    lists
}

/// Every labelled pair of sizes 1 to 6 that check accepts, relabelled, gives exactly the listing; each word (n - 1)! times.
#[test]
fn the_listing_is_what_relabelling_gives() {
    let mut factorial = 1;
    for n in 1..=6_u16 {
        let power = |list: &[u16], times: usize| (1..=n).all(|i| (0..times).fold(i, |j, _| list[usize::from(j) - 1]) == i);
        let blacks: Vec<_> = lists(n).into_iter().filter(|list| power(list, 3)).collect();
        let whites: Vec<_> = lists(n).into_iter().filter(|list| power(list, 2)).collect();
        let mut words: Vec<_> = vec![];
        for s0 in &blacks {
            words.extend(whites.iter().filter_map(|s1| relabel(s0, s1, 1, ROOMY).ok()).map(|written| written.word));
        }
        words.sort();
        assert_eq!(words.iter().step_by(factorial).cloned().collect::<Vec<_>>(), all_words(n.into()));
        assert_eq!(words.iter().collect::<BTreeSet<_>>().len() * factorial, words.len());
        factorial *= usize::from(n);
    }
}

#[test]
fn positions_follow_the_listing() {
    for n in 1..=12 {
        for (position, word) in (1..).zip(all_words(n)) {
            let (s0, s1) = read_word(&word, [50, 50]).unwrap();
            assert_eq!(diagram_at(n as u64, position, ROOMY), Ok(Written { s0: s0.clone(), s1: s1.clone(), word: word.clone() }));
            assert_eq!(reference::position(&s0, &s1, 1), Ok(position));
            assert_eq!(relabel(&s0, &s1, 1, ROOMY), Ok(Written { s0, s1, word }));
        }
    }
}

#[test]
fn a_run_gives_the_listing_and_ends() {
    for n in 1..=10 {
        let mut run = Run::begin(n).unwrap();
        for word in all_words(n as usize) {
            assert_eq!(run.step([0, 50, 51]), Err(9));
            assert_eq!(run.step(ROOMY).unwrap().unwrap().word, word);
        }
        assert_eq!(run.step([50, 50, n as usize]), Err(9));
        assert_eq!((run.step(ROOMY), run.stage), (Ok(None), 2));
        assert_eq!(run.step([0, 0, 0]), Ok(None));
        run.items[50] = 1;
        assert_eq!(run.step(ROOMY), Err(34));
    }
}

#[test]
fn a_run_begins_where_steps_lead() {
    for n in 1..=10 {
        let (mut run, count) = (Run::begin(n).unwrap(), count(n).unwrap());
        for position in 0..=count {
            assert_eq!(Run::begin_at(n, position).as_ref(), Ok(&run));
            run.step(ROOMY).unwrap();
        }
        assert_eq!((Run::begin_at(n, count + 1), Run::begin_at(n, u64::MAX)), (Err(32), Err(32)));
    }
    assert_eq!((Run::begin_at(0, 0), Run::begin_at(51, u64::MAX)), (Err(31), Err(31)));
}

#[test]
fn blocks_give_the_listing_and_end() {
    for n in 1..=8_usize {
        let words = all_words(n);
        let (mut run, mut marked) = (Run::begin(n as u64).unwrap(), Run::begin(n as u64).unwrap());
        let (mut given, mut marks, rooms) = (vec![], vec![], [3 * n, 3 * n, 3 * n + 3, 3]);
        while run.stage != 2 {
            assert_eq!((run.list(3, [3 * n, 3 * n, 3 * n + 2, 3]), run.list(0, [0; 4]).unwrap().lengths), (Err(9), vec![]));
            let block = run.list(3, rooms).unwrap();
            assert_eq!(marked.list_marked(3, rooms, 2), Err(9));
            let same = marked.list_marked(3, rooms, 3).unwrap();
            marks.extend(same.marks.clone());
            assert_eq!((Block { marks: vec![], ..same }, &marked), (block.clone(), &run));
            given.extend(block.words);
        }
        assert_eq!(given, words.concat());
        let kept_of = |word: &Vec<u16>| read_word(word, [n, n]).and_then(|(s0, s1)| kept(&s0, &s1, 1)).unwrap();
        assert_eq!(marks, words.iter().map(|word| u8::from(kept_of(word))).collect::<Vec<_>>());
        assert_eq!(run.list(u64::MAX, [0; 4]).unwrap().lengths, []);
        assert_eq!(Run::begin(n as u64).unwrap().list(u64::MAX, [60; 4]), Err(9));
        run.items[50] = 1;
        assert_eq!((run.list(0, [0; 4]), run.list_marked(0, [0; 4], 0)), (Err(34), Err(34)));
    }
}

#[test]
fn rows_give_the_listing() {
    for n in 1..=8_usize {
        let (mut run, mut given, mut kept) = (Run::begin(n as u64).unwrap(), vec![], 0);
        loop {
            let position = given.len() as u64;
            assert_eq!((run.rows(3, 27 * n + 119), run.rows(0, 0), run.rows(u64::MAX, 1000)), (Err(9), Ok(Rows::default()), Err(9)));
            assert_eq!(Run::begin_at(n as u64, position).as_ref(), Ok(&run));
            let rows = run.rows(3, 27 * n + 120).unwrap();
            let text = String::from_utf8(rows.text).unwrap();
            given.extend(text.lines().map(String::from));
            kept += rows.kept;
            assert_eq!(given.len() as u64, position + rows.rows);
            if rows.rows < 3 {
                break;
            }
        }
        let words = all_words(n).into_iter().map(|word| String::from_utf8(letters(&word, 60).unwrap()).unwrap());
        let begin = |line: &String| line.split(' ').take(2).collect::<Vec<_>>().join(" ");
        assert_eq!(given.iter().map(begin).collect::<Vec<_>>(), (1..).zip(words).map(|(p, word)| format!("{p} {word}")).collect::<Vec<_>>());
        assert_eq!(kept, given.iter().filter(|line| line.ends_with(" K")).count() as u64);
        // The run is at its last diagram; a step finishes it, and then it gives none.
        assert_eq!((run.step(ROOMY), run.rows(u64::MAX, 0)), (Ok(None), Ok(Rows::default())));
        run.items[50] = 1;
        assert_eq!(run.rows(0, 0), Err(34));
    }
}

/// Words compare as isomorphism does, over all pairs of a size; a symmetry is an isomorphism of the diagram with itself.
#[test]
fn equal_words_are_isomorphisms() {
    let diagrams: Vec<_> = all_words(7).iter().map(|word| read_word(word, [7, 7]).unwrap()).collect();
    for (s0, s1) in &diagrams {
        let first = (&s0[..], &s1[..], 1);
        let itself = (1..=7).filter(|x| compare_rooted(first, (s0, s1, *x)) == Ok(true)).count() as u64;
        assert_eq!(symmetries(s0, s1, 1), Ok(itself));
        assert_eq!(diagrams.iter().filter(|(t0, t1)| compare_rooted(first, (t0, t1, 1)) == Ok(true)).count(), 1);
        let class: Vec<_> = diagrams.iter().filter(|(t0, t1)| compare_unrooted(first, (t0, t1, 1)) == Ok(true)).collect();
        assert_eq!(class.iter().filter(|(t0, t1)| kept(t0, t1, 1) == Ok(true)).count(), 1);
        assert_eq!(class.len() as u64 * itself, 7);
    }
}

#[test]
fn the_plain_walk_is_the_listing() {
    assert_eq!(plain_walk(3, 1024), Ok(vec![1, 0, 0, 0, 1, 0, 3, 1, 3, 0, 1, 4, 0]));
    assert!(plain_walk(9, 1024).unwrap().len() <= 1024);
    assert_eq!((plain_walk(0, 0), plain_walk(10, 1024), plain_walk(9, 1023)), (Err(35), Err(35), Err(9)));
}
