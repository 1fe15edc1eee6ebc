//! Refused calls at the boundary: every out-value, list, run and book is left as it was. A mark stands in each of them before the call.
use super::*;
use chain::{chain, ODD_PRIMES};

#[path = "../../tests/chain/mod.rs"]
mod chain;

const MARK: u16 = 0xBEEF;
const WIDE: u64 = 0xDEAD_BEEF_DEAD_BEEF;

/// A diagram of four edges, 01's (h).
const DIAGRAM: Lent = (&[1, 3, 4, 2], &[2, 1, 3, 4], 3);

/// Lent diagrams, one for each number from 1 to 8.
const REFUSED: [Lent; 8] = [
    (&[], &[], 1),
    (&[1], &[1, 2], 1),
    (&[1], &[1], 0),
    (&[2], &[1], 1),
    (&[1], &[0], 1),
    (&[2, 1], &[1, 2], 1),
    (&[2, 3, 1], &[2, 3, 1], 1),
    (&[1, 2], &[1, 2], 1),
];

fn book() -> Book {
    let mut book = Book { size: WIDE, shares: WIDE, latest: WIDE, issued: WIDE, next: [WIDE; 32], ticket: [WIDE; 32], expiry: [WIDE; 32] };
    assert_eq!(open(&mut book, 4, 3), 0);
    book
}

#[test]
fn refused_diagrams() {
    for (number, (s0, s1, root)) in (1..).zip(REFUSED) {
        assert_eq!(check(s0, s1, root), number);
        let (mut lists, mut out) = ([[MARK; 8]; 3], WIDE);
        let [t0, t1, word] = &mut lists;
        assert_eq!(relabel(s0, s1, root, t0, t1, word, &mut out), number);
        assert_eq!(symmetries(s0, s1, root, &mut out), number);
        assert_eq!(kept(s0, s1, root, &mut out), number);
        assert_eq!(position(s0, s1, root, &mut out), number);
        assert_eq!((lists, out), ([[MARK; 8]; 3], WIDE));
        refused_invariants((s0, s1, root), number);
    }
}

fn refused_invariants((s0, s1, root): Lent, number: u16) {
    let before = Invariants { e2: MARK, e3: MARK, c: MARK, t: -7, level: WIDE };
    let mut measured = before;
    assert_eq!((invariants(s0, s1, root, &mut measured), measured), (number, before));
}

/// A diagram whose level is above 2^64, and with what check refuses besides.
#[test]
fn refused_levels() {
    let (mut s0, mut s1, mut size) = ([0; 1024], [0; 1024], WIDE);
    assert_eq!(read_word(&chain(&ODD_PRIMES, 0), &mut s0, &mut s1, &mut size), 0);
    let (s0, s1) = (&s0[..size as usize], &s1[..size as usize]);
    for (lent, number) in [((s0, s1, 1), 62), ((s0, s1, size), 62), ((s0, &s1[1..], 1), 2), ((s0, s1, 0), 3), ((s0, s0, 1), 7)] {
        refused_invariants(lent, number);
    }
}

#[test]
fn refused_and_accepted_compares() {
    for compare in [compare_rooted, compare_unrooted] {
        for (number, refused) in (1..).zip(REFUSED) {
            let (mut same, mut side) = (WIDE, WIDE);
            assert_eq!((compare(refused, refused, &mut same, &mut side), same, side), (number, WIDE, 1));
            assert_eq!((compare(DIAGRAM, refused, &mut same, &mut side), same, side), (number, WIDE, 2));
        }
        let (mut same, mut side) = (WIDE, WIDE);
        assert_eq!((compare(DIAGRAM, DIAGRAM, &mut same, &mut side), same, side), (0, 1, WIDE));
    }
}

#[test]
fn short_lists() {
    for rooms in [[3, 4, 5], [4, 3, 5], [4, 4, 4]] {
        let (mut lists, mut out, mut values) = ([[MARK; 5]; 3], WIDE, [WIDE; 3]);
        let [t0, t1, word] = &mut lists;
        let (t0, t1, word) = (&mut t0[..rooms[0]], &mut t1[..rooms[1]], &mut word[..rooms[2]]);
        assert_eq!(relabel(DIAGRAM.0, DIAGRAM.1, DIAGRAM.2, t0, t1, word, &mut out), 9);
        assert_eq!(diagram_at(4, 1, t0, t1, word, &mut out), 9);
        let mut run = Run::begin(4).unwrap();
        assert_eq!((step(&mut run, t0, t1, word, &mut out), run), (9, Run::begin(4).unwrap()));
        let mut book = book();
        assert_eq!(book.claim(5, 1, 10), Ok(1));
        let before = book.clone();
        assert_eq!((take(&mut book, 6, 1, t0, t1, word, &mut values), book), (9, before));
        assert_eq!((lists, out, values), ([[MARK; 5]; 3], WIDE, [WIDE; 3]));
    }
}

/// A block of two diagrams of four edges, each list in turn short by one; and numbers of rows whose products do not fit 64 bits.
#[test]
fn short_blocks() {
    let full = [8, 8, 10, 2, 2];
    let short = (0..5).map(|list| (2, std::array::from_fn(|i| full[i] - usize::from(i == list))));
    for (rows, rooms) in short.chain([1 << 62, 1 << 63, u64::MAX].map(|rows| (rows, full))) {
        let (mut lists, mut marks, mut out) = ([[MARK; 10]; 4], [7; 2], WIDE);
        let mut run = Run::begin(4).unwrap();
        let [s0, s1, words, lengths] = &mut lists;
        let (s0, s1, words, lengths) = (&mut s0[..rooms[0]], &mut s1[..rooms[1]], &mut words[..rooms[2]], &mut lengths[..rooms[3]]);
        assert_eq!(list_marked(&mut run, rows, [s0, s1, words, lengths], &mut marks[..rooms[4]], &mut out), 9);
        if rooms[4] == 2 {
            assert_eq!(list(&mut run, rows, [s0, s1, words, lengths], &mut out), 9);
        }
        assert_eq!((run, lists, marks, out), (Run::begin(4).unwrap(), [[MARK; 10]; 4], [7; 2], WIDE));
    }
}

/// Two rows of four edges want 152 bytes; numbers of rows whose products do not fit 64 bits, or leave little of it.
#[test]
fn short_bytes() {
    let wide = [u64::MAX / 76 + 1, 1 << 62, u64::MAX].map(|rows| (rows, 152));
    for (rows_asked, room) in [(2, 151), (1, 75), (1, 0)].into_iter().chain(wide) {
        let (mut run, mut bytes, mut values) = (Run::begin(4).unwrap(), [7; 152], [WIDE; 3]);
        assert_eq!(rows(&mut run, rows_asked, &mut bytes[..room], &mut values), 9);
        assert_eq!((run, bytes, values), (Run::begin(4).unwrap(), [7; 152], [WIDE; 3]));
    }
}

#[test]
fn refused_words_and_sizes() {
    let (mut s0, mut s1, mut words, mut letters_out, mut out) = ([MARK; 2], [MARK; 2], [MARK; 1024], [7; 3], WIDE);
    for (word, number) in [(&[][..], 21), (&[2], 22), (&[0, 3], 23), (&[1, 0], 25), (&[0, 0, 0], 26), (&[1, 0, 0, 0], 9)] {
        assert_eq!(read_word(word, &mut s0, &mut s1, &mut out), number);
    }
    assert_eq!((letters(&[2, 0], &mut letters_out, &mut out), letters(&[1, 0, 0, 0], &mut letters_out, &mut out)), (22, 9));
    assert_eq!((count(0, &mut out), count(51, &mut out)), (31, 31));
    assert_eq!([0, 51, 1 << 32 | 3, u64::MAX].map(|size| kept_count(size, &mut out)), [31; 4]);
    assert_eq!((diagram_at(51, 1, &mut s0, &mut s1, &mut words, &mut out), diagram_at(2, 2, &mut s0, &mut s1, &mut words, &mut out)), (31, 32));
    assert_eq!((plain_walk(10, &mut words, &mut out), plain_walk(9, &mut words[1..], &mut out)), (35, 9));
    assert_eq!((s0, s1, words, letters_out, out), ([MARK; 2], [MARK; 2], [MARK; 1024], [7; 3], WIDE));
}

#[test]
fn refused_runs() {
    let before = Run { size: MARK, stage: MARK, length: MARK, items: [MARK; 51] };
    let (mut run, mut lists, mut out) = (before.clone(), [[MARK; 60]; 3], WIDE);
    assert_eq!((begin(0, &mut run), begin(51, &mut run)), (31, 31));
    assert_eq!((begin_at(0, 0, &mut run), begin_at(51, u64::MAX, &mut run), begin_at(3, 5, &mut run)), (31, 31, 32));
    let [s0, s1, word] = &mut lists;
    assert_eq!(step(&mut run, s0, s1, word, &mut out), 34);
    let (mut lengths, mut marks, mut bytes, mut values) = ([MARK; 1], [7; 1], [7; 600], [WIDE; 3]);
    for asked in [0, 1, u64::MAX] {
        assert_eq!(list(&mut run, asked, [s0, s1, word, &mut lengths], &mut out), 34);
        assert_eq!(list_marked(&mut run, asked, [s0, s1, word, &mut lengths], &mut marks, &mut out), 34);
        assert_eq!(rows(&mut run, asked, &mut bytes, &mut values), 34);
    }
    assert_eq!((run, lists, lengths, marks, out), (before, [[MARK; 60]; 3], [MARK; 1], [7; 1], WIDE));
    assert_eq!((bytes, values), ([7; 600], [WIDE; 3]));
}

#[test]
fn refused_runs_through_all_sizes() {
    let before = UptoRun { bound: MARK, stage: MARK, length: MARK, items: [MARK; 51], visits: WIDE };
    let (mut run, mut lists, mut values) = (before.clone(), [[MARK; 60]; 3], [WIDE; 2]);
    assert_eq!((upto_begin(0, &mut run), upto_begin(51, &mut run), upto_begin(1 << 32 | 3, &mut run)), (31, 31, 31));
    let [s0, s1, word] = &mut lists;
    assert_eq!((upto_step(&mut run, s0, s1, word, &mut values), run), (34, before));
    // The second diagram of bound 4 has size 4; each list in turn is short by one.
    let mut first = UptoRun::begin(4).unwrap();
    assert_eq!(first.step(&mut [0; 1], &mut [0; 1], &mut [0; 2]).unwrap().unwrap().size, 1);
    for rooms in [[3, 4, 5], [4, 3, 5], [4, 4, 4]] {
        let mut run = first.clone();
        assert_eq!((upto_step(&mut run, &mut s0[..rooms[0]], &mut s1[..rooms[1]], &mut word[..rooms[2]], &mut values), &run), (9, &first));
    }
    assert_eq!((lists, values), ([[MARK; 60]; 3], [WIDE; 2]));
}

/// Nothing but the 54 numbers and the visits is written, and both values at the end.
#[test]
fn the_end_of_all_sizes() {
    let (mut run, mut lists, mut values) = (UptoRun::begin(1).unwrap(), [[MARK; 3]; 3], [WIDE; 2]);
    let [s0, s1, word] = &mut lists;
    assert_eq!((upto_step(&mut run, s0, s1, word, &mut values), values, run.visits), (0, [1, 2], 1));
    let given = lists;
    assert_eq!(given, [[1, MARK, MARK], [1, MARK, MARK], [0, 0, MARK]]);
    for _ in 0..2 {
        let [s0, s1, word] = &mut lists;
        values = [WIDE; 2];
        assert_eq!((upto_step(&mut run, s0, s1, word, &mut values), values), (0, [0, 0]));
        assert_eq!((&run, lists), (&UptoRun { bound: 1, stage: 2, length: 0, items: [0; 51], visits: 1 }, given));
    }
}

/// Two cells, of which one is refused: the sheet cut and drawn out, and each list in turn short by one.
#[test]
fn refused_sheets() {
    let mut sheet = [0; 105];
    sheet[..4].copy_from_slice(&[3, 1, 4, 0]);
    let calls = [(103, [2, 2], 61), (105, [2, 2], 61), (51, [0, 0], 61), (53, [0, 0], 61), (104, [1, 2], 9), (104, [2, 1], 9), (52, [0, 0], 9)];
    for (length, rooms, number) in calls {
        let (mut refusals, mut positions) = ([MARK; 2], [WIDE; 2]);
        assert_eq!(sheet_positions(&sheet[..length], &mut refusals[..rooms[0]], &mut positions[..rooms[1]]), number);
        assert_eq!((refusals, positions), ([MARK; 2], [WIDE; 2]));
    }
    let (mut refusals, mut positions) = ([MARK; 3], [WIDE; 3]);
    assert_eq!((sheet_positions(&[], &mut [], &mut []), sheet_positions(&[], &mut refusals, &mut positions)), (0, 0));
    assert_eq!((refusals, positions), ([MARK; 3], [WIDE; 3]));
    assert_eq!(sheet_positions(&sheet[..104], &mut refusals, &mut positions), 0);
    assert_eq!((refusals, positions), ([0, 21, MARK], [4, 0, WIDE]));
}

#[test]
fn refused_book_calls() {
    let mut held = book();
    assert_eq!(held.claim(5, 1, 10), Ok(1));
    let mut invalid = held.clone();
    invalid.ticket[31] = 1;
    let (mut out, mut other, mut values, mut lists) = (WIDE, WIDE, [WIDE; 3], [[MARK; 5]; 3]);
    let [s0, s1, word] = &mut lists;
    for (before, ticks) in [(invalid, [(5, 50), (4, 50), (0, 50)]), (held, [(4, 52), (1 << 48, 52), (15, 59)])] {
        for (tick, number) in ticks {
            let mut book = before.clone();
            let claimed = if number == 59 { 53 } else { number };
            assert_eq!(claim(&mut book, tick, 0, 1, &mut out), claimed);
            assert_eq!(take(&mut book, tick, 1, s0, s1, word, &mut values), number);
            assert_eq!(commit(&mut book, tick, 1, 1), number);
            assert_eq!((commit_range(&mut book, tick, 1, 1, 2), commit_range(&mut book, tick, 1, 2, 1)), (number, number));
            assert_eq!(release(&mut book, tick, 1), number);
            assert_eq!(book, before);
        }
    }
    let mut book = book();
    let before = book.clone();
    assert_eq!((open(&mut book, 51, 1), open(&mut book, 50, 33), claim(&mut book, 0, 1, 0, &mut out)), (31, 51, 54));
    assert_eq!((commit(&mut book, 0, 0, 1), commit_range(&mut book, 0, 0, 1, 1), release(&mut book, 0, 9)), (58, 58, 58));
    assert_eq!(report(&Book::blank(), &mut out, &mut other), 50);
    assert_eq!((book, out, other, values, lists), (before, WIDE, WIDE, [WIDE; 3], [[MARK; 5]; 3]));
}
