//! What an operation leaves of the lists that it is lent: all of them where it refuses, and what lies behind the places that it fills where it
//! accepts. And lists that are longer than the program console reads.
use kaldvemir::*;

/// A word's answer and both lists after it, all places being 7 before.
fn read(word: &[u16], black: usize, white: usize) -> (Result<usize, Refusal>, Vec<u16>, Vec<u16>) {
    let (mut s0, mut s1) = (vec![7; black], vec![7; white]);
    let answer = read_word(word, &mut s0, &mut s1);
    (answer, s0, s1)
}

#[test]
fn read_word_fills_the_first_places() {
    assert_eq!(read(&[0, 2], 6, 2), (Ok(2), vec![1, 2, 7, 7, 7, 7], vec![2, 1]));
    assert_eq!(read(&[1, 0, 0, 0], 3, 4), (Ok(3), vec![2, 3, 1], vec![1, 2, 3, 7]));
    assert_eq!(read(&[1, 4, 2], 5, 5), (Ok(4), vec![2, 3, 1, 4, 7], vec![3, 4, 1, 2, 7]));
    // U, F 341 times, W 342 times: 1,024 edges.
    let word = [&[0][..], &[1; 341], &[0; 342]].concat();
    let (answer, s0, s1) = read(&word, 1026, 1026);
    assert_eq!((answer, &s0[..4], &s0[1020..]), (Ok(1024), &[1, 3, 4, 2][..], &[1019, 1023, 1024, 1022, 7, 7][..]));
    assert_eq!((&s1[..4], &s1[1020..]), (&[2, 1, 3, 5][..], &[1022, 1021, 1023, 1024, 7, 7][..]));
}

#[test]
fn read_word_refuses_and_writes_nothing() {
    let fork_and_end = [&[0][..], &[1; 341], &[0; 342]].concat();
    let cases: [(&[u16], usize, usize, Refusal); 9] = [
        (&[], 5, 5, Refusal::WordLengthOutside),
        (&[2, 0], 5, 5, Refusal::FirstItemUnknown),
        (&[1, 0, 4], 5, 5, Refusal::JoinTooDeep),
        (&[0, 0, 0], 5, 5, Refusal::ItemAfterEnd),
        (&[1, 0], 5, 5, Refusal::EdgesPending),
        (&[0, 2], 1, 2, Refusal::OutputShort),
        (&[0, 2], 2, 1, Refusal::OutputShort),
        (&[1; 342], 1024, 1024, Refusal::LabelOutside),
        (&fork_and_end, 1024, 1023, Refusal::OutputShort),
    ];
    for (word, black, white, refusal) in cases {
        assert_eq!(read(word, black, white), (Err(refusal), vec![7; black], vec![7; white]), "{word:?}");
    }
}

#[test]
fn letters_fill_the_first_places() {
    let written = |word: &[u16], room: usize| {
        let mut out = vec![b'.'; room];
        let answer = letters(word, &mut out);
        (answer, String::from_utf8(out).unwrap())
    };
    assert_eq!(written(&[1, 4, 0], 5), (Ok(4), "TJ1W.".to_string()));
    assert_eq!(written(&[1, 13], 4), (Ok(4), "TJ10".to_string()));
    assert_eq!(written(&[0, 65_535], 8), (Ok(7), "UJ65532.".to_string()));
    assert_eq!(written(&[], 2), (Ok(0), "..".to_string()));
    assert_eq!(written(&[1, 1025], 5), (Err(Refusal::OutputShort), ".....".to_string()));
    assert_eq!(written(&[1, 0, 0, 0], 3), (Err(Refusal::OutputShort), "...".to_string()));
    assert_eq!(written(&[2, 0], 5), (Err(Refusal::FirstItemUnknown), ".....".to_string()));
}

/// An answer and the three lists after it.
type Written<A> = (A, Vec<u16>, Vec<u16>, Vec<u16>);

/// Calls an operation with lists of these lengths that hold 9 in every place.
fn lent<A>(rooms: [usize; 3], operation: impl FnOnce(&mut [u16], &mut [u16], &mut [u16]) -> A) -> Written<A> {
    let [mut s0, mut s1, mut word] = rooms.map(|room| vec![9; room]);
    let answer = operation(&mut s0, &mut s1, &mut word);
    (answer, s0, s1, word)
}

/// The same where nothing is written.
fn untouched<A>(rooms: [usize; 3], answer: A) -> Written<A> {
    let [s0, s1, word] = rooms.map(|room| vec![9; room]);
    (answer, s0, s1, word)
}

#[test]
fn a_diagram_fills_the_first_places() {
    let at = |size, position, rooms| lent(rooms, |s0, s1, word| diagram_at(size, position, s0, s1, word));
    assert_eq!(at(3, 4, [5, 4, 6]), (Ok(3), vec![2, 3, 1, 9, 9], vec![3, 2, 1, 9], vec![1, 4, 0, 9, 9, 9]));
    assert_eq!(at(4, 8, [4, 4, 5]), (Ok(3), vec![2, 3, 1, 4], vec![3, 4, 1, 2], vec![1, 4, 2, 9, 9]));
    let refused = [
        (3, 1, [2, 3, 4], Refusal::OutputShort),
        (3, 1, [3, 2, 4], Refusal::OutputShort),
        (3, 4, [3, 3, 3], Refusal::OutputShort),
        (4, 9, [4, 4, 5], Refusal::PositionOutside),
        (51, 1, [4, 4, 5], Refusal::ListedSizeOutside),
    ];
    for (size, position, rooms, refusal) in refused {
        assert_eq!(at(size, position, rooms), untouched(rooms, Err(refusal)));
    }
    let (s0, s1) = ([1, 3, 4, 2], [2, 1, 3, 4]);
    for rooms in [[3, 4, 5], [4, 3, 5], [4, 4, 4]] {
        assert_eq!(lent(rooms, |t0, t1, word| relabel(&s0, &s1, 3, t0, t1, word)), untouched(rooms, Err(Refusal::OutputShort)));
    }
}

#[test]
fn a_step_fills_the_first_places() {
    let step = |run: &mut Run, rooms| lent(rooms, |s0, s1, word| run.step(s0, s1, word));
    let mut run = Run::begin(3).unwrap();
    for rooms in [[2, 3, 4], [3, 2, 4], [3, 3, 3]] {
        assert_eq!(step(&mut run, rooms), untouched(rooms, Err(Refusal::OutputShort)));
    }
    assert_eq!(run, Run::begin(3).unwrap());
    assert_eq!(step(&mut run, [6, 6, 6]), (Ok(Some(4)), vec![2, 3, 1, 9, 9, 9], vec![1, 2, 3, 9, 9, 9], vec![1, 0, 0, 0, 9, 9]));
    assert_eq!(step(&mut run, [3, 4, 5]), (Ok(Some(3)), vec![2, 3, 1], vec![2, 1, 3, 9], vec![1, 0, 3, 9, 9]));
    let mut damaged = run.clone();
    damaged.items[50] = 1;
    let before = damaged.clone();
    assert_eq!((step(&mut damaged, [6, 6, 6]), &damaged), (untouched([6, 6, 6], Err(Refusal::RunInvalid)), &before));
    while run.stage == 1 {
        assert!(step(&mut run, [3, 3, 4]).0.is_ok());
    }
    let finished = run.clone();
    assert_eq!((step(&mut run, [6, 6, 6]), &run), (untouched([6, 6, 6], Ok(None)), &finished));
}

#[test]
fn a_take_fills_the_first_places() {
    let take = |book: &mut Book, tick, ticket, rooms| lent(rooms, |s0, s1, word| book.take(tick, ticket, s0, s1, word));
    let mut book = Book::blank();
    book.open(4, 3).unwrap();
    let ticket = book.claim(10, 3, 5).unwrap();
    let taken = Taken { share: 3, position: 6, length: 3 };
    assert_eq!(take(&mut book, 14, ticket, [5, 5, 6]), (Ok(taken), vec![2, 3, 1, 4, 9], vec![2, 1, 4, 3, 9], vec![1, 2, 3, 9, 9, 9]));
    let refused = [
        (14, ticket, [3, 4, 5], Refusal::OutputShort),
        (14, ticket, [4, 3, 5], Refusal::OutputShort),
        (14, ticket, [4, 4, 4], Refusal::OutputShort),
        (15, ticket, [5, 5, 6], Refusal::TicketLapsed),
        (14, 2, [5, 5, 6], Refusal::TicketAbsent),
        (13, ticket, [5, 5, 6], Refusal::TickOutside),
    ];
    for (tick, ticket, rooms, refusal) in refused {
        let before = book.clone();
        assert_eq!((take(&mut book, tick, ticket, rooms), &book), (untouched(rooms, Err(refusal)), &before));
    }
}

#[test]
fn the_plain_walk_fills_the_first_places() {
    let walk = |size, room: usize| {
        let mut words = vec![u16::MAX; room];
        let answer = plain_walk(size, &mut words);
        (answer, words.iter().filter(|item| **item == u16::MAX).count())
    };
    // The answer, and how many places are as they were.
    for (size, room) in [(0, 1024), (10, 1024), (u64::MAX, 1), (0, 1023)] {
        assert_eq!(walk(size, room), (Err(Refusal::WalkSizeOutside), room));
    }
    for (size, room) in [(9, 1023), (1, 1023), (1, 0)] {
        assert_eq!(walk(size, room), (Err(Refusal::OutputShort), room));
    }
    for (size, numbers) in [(1, 2), (2, 2), (3, 13), (4, 28), (5, 20), (6, 106), (7, 224), (8, 224), (9, 786)] {
        assert_eq!(walk(size, 1024), (Ok(numbers), 1024 - numbers));
    }
    assert_eq!(walk(9, 2000), (Ok(786), 1214));
}

#[test]
fn long_lists() {
    let first = vec![7; 65_535];
    let mut second = first.clone();
    second[65_534] = 6;
    assert!(std::ptr::eq(lesser(&first, &second), &second[..]));
    assert!(std::ptr::eq(lesser(&first, &second[..65_534]), &second[..65_534]));
    assert!(std::ptr::eq(lesser(&first, &first.clone()), &first[..]));
    let mut marks = vec![1; 65_536];
    assert!(all_reached(&marks));
    marks[65_535] = 2;
    assert!(!all_reached(&marks));
}
