//! The binding as a caller uses it: cases of 01, a whole run, and a book worked to its end.
use chain::{chain, ODD_PRIMES};
use kaldvemir::*;

mod chain;

fn text(word: &[u16]) -> String {
    let mut out = [0; 64];
    let length = letters(word, &mut out).unwrap();
    String::from_utf8(out[..length].to_vec()).unwrap()
}

#[test]
fn a_given_diagram() {
    let (s0, s1) = ([1, 3, 4, 2], [2, 1, 3, 4]);
    let (mut t0, mut t1, mut word) = ([7; 5], [7; 5], [7; 6]);
    assert_eq!(relabel(&s0, &s1, 3, &mut t0, &mut t1, &mut word), Ok(4));
    assert_eq!((t0, t1, word, text(&word[..4])), ([2, 3, 1, 4, 7], [1, 2, 4, 3, 7], [1, 2, 0, 0, 7, 7], "TBWW".to_string()));
    assert_eq!(compare_rooted(&s0, &s1, 3, &t0[..4], &t1[..4], 1), Ok(true));
    assert_eq!((compare_rooted(&s0, &s1, 2, &t0[..4], &t1[..4], 1), compare_unrooted(&s0, &s1, 2, &t0[..4], &t1[..4], 1)), (Ok(false), Ok(true)));
    assert_eq!(compare_rooted(&s0, &s1, 3, &t0, &t1, 1), Err(Sided { side: Side::Second, refusal: Refusal::BlackEntryOutside }));
    assert_eq!((symmetries(&s0, &s1, 3), kept(&s0, &s1, 3), position(&s0, &s1, 3)), (Ok(1), Ok(false), Ok(5)));
    assert_eq!(invariants(&s0, &s1, 3), Ok(Invariants { e2: 2, e3: 1, c: 1, t: 0, level: 4 }));
    assert_eq!((check(&[1, 2], &[1, 2], 1), check(&[1], &[1], 65_537)), (Err(Refusal::NotConnected), Err(Refusal::RootOutside)));
    assert!(all_reached(&[]) && all_reached(&[1, 1]) && !all_reached(&[1, 2]));
}

/// The diagram of a word.
fn read(word: &[u16]) -> (Vec<u16>, Vec<u16>) {
    let (mut s0, mut s1) = (vec![0; 1024], vec![0; 1024]);
    let size = read_word(word, &mut s0, &mut s1).unwrap();
    s0.truncate(size);
    s1.truncate(size);
    (s0, s1)
}

/// Cycles of 3 and 4 edges, of 2 and 5, and of 1, 2, 3 and 6.
#[test]
fn levels() {
    let level = |word: &[u16]| {
        let (s0, s1) = read(word);
        invariants(&s0, &s1, 1).map(|given| (given.c, given.level))
    };
    assert_eq!((level(&[0, 1, 1, 4, 0]), level(&[0, 1, 1, 0, 3])), (Ok((2, 12)), Ok((2, 10))));
    assert_eq!(level(&[1, 1, 1, 1, 3, 5, 3]), Ok((4, 6)));
}

/// The product of the odd primes to 53 fits 64 bits, twice it does not: a cycle of 258 edges brings the factor 2, one of 259 brings none.
#[test]
fn levels_on_either_side_of_64_bits() {
    let product: u128 = ODD_PRIMES.iter().map(|prime| u128::from(*prime)).product();
    let ((s0, s1), (t0, t1)) = (read(&chain(&ODD_PRIMES, 2)), read(&chain(&ODD_PRIMES, 0)));
    let given = invariants(&s0, &s1, 1).unwrap();
    assert_eq!((s0.len(), given.c, u128::from(given.level)), (638, 16, product));
    assert_eq!((t0.len(), invariants(&t0, &t1, 1)), (637, Err(Refusal::LevelOutside)));
    assert!(product < 1 << 64 && 2 * product > 1 << 64);
    assert_eq!((invariants(&t0, &t1, 0), invariants(&t0, &t1[1..], 1)), (Err(Refusal::RootOutside), Err(Refusal::LengthsDiffer)));
}

#[test]
fn words() {
    let (mut s0, mut s1) = ([7; 4], [7; 4]);
    assert_eq!(read_word(&[1, 4, 0], &mut s0, &mut s1), Ok(3));
    assert_eq!((s0, s1), ([2, 3, 1, 7], [3, 2, 1, 7]));
    assert_eq!(read_word(&[1, 0], &mut s0, &mut s1), Err(Refusal::EdgesPending));
    let (a, b) = ([1, 2], [1, 2, 0]);
    assert!(std::ptr::eq(lesser(&a, &b), &a[..]) && std::ptr::eq(lesser(&b, &a), &a[..]));
    assert_eq!(letters(&[1, 13, 1, 2, 0], &mut [0; 6]), Err(Refusal::OutputShort));
    assert_eq!(text(&[1, 13, 1, 2, 0]), "TJ10FBW");
}

#[test]
fn a_whole_run() {
    let mut run = Run::begin(4).unwrap();
    let (mut s0, mut s1, mut word) = ([0; 4], [0; 4], [0; 5]);
    let mut given = vec![];
    while let Some(length) = run.step(&mut s0, &mut s1, &mut word).unwrap() {
        given.push(text(&word[..length]));
        assert_eq!(position(&s0, &s1, 1), Ok(given.len() as u64));
    }
    assert_eq!(given, ["UFWW", "UFJ0", "TWWB", "TWBW", "TBWW", "TBJ0", "TJ0B", "TJ1B"]);
    assert_eq!((run.step(&mut [], &mut [], &mut []), run.stage), (Ok(None), 2));
    assert_eq!((count(4), count(50), count(51)), (Ok(8), Ok(499877970985660), Err(Refusal::ListedSizeOutside)));
    assert_eq!((diagram_at(4, 8, &mut s0, &mut s1, &mut word), text(&word[..3])), (Ok(3), "TJ1B".to_string()));
    assert_eq!(diagram_at(4, 9, &mut s0, &mut s1, &mut word), Err(Refusal::PositionOutside));
    let mut words = [9; 1025];
    assert_eq!((plain_walk(3, &mut words), &words[..14]), (Ok(13), &[1, 0, 0, 0, 1, 0, 3, 1, 3, 0, 1, 4, 0, 9][..]));
}

/// The published numbers of classes without a root, of sizes 1, 2, 3 and so on.
#[test]
fn kept_counts() {
    for (size, classes) in (1..).zip([1, 1, 2, 2, 1, 8, 6, 7, 14, 27, 26, 80, 133, 170]) {
        assert_eq!(kept_count(size), Ok(classes));
    }
    for size in [0, 51, 1 << 32 | 3, u64::MAX] {
        assert_eq!(kept_count(size), Err(Refusal::ListedSizeOutside));
    }
}

/// How many of a whole run's rows are kept, so many rows at a time.
fn kept_rows(size: u64, rows: usize) -> u64 {
    let (mut run, mut bytes, mut kept) = (Run::begin(size).unwrap(), vec![0; rows * row_bytes(size as usize)], 0);
    loop {
        let given = run.rows(rows as u64, &mut bytes).unwrap();
        kept += given.kept;
        if given.rows < rows as u64 {
            return kept;
        }
    }
}

/// How many of a whole run's marks are 1, so many diagrams at a time.
fn kept_marks(size: u64, rows: usize) -> u64 {
    let (mut run, entries, mut kept) = (Run::begin(size).unwrap(), rows * size as usize, 0);
    let (mut s0, mut s1, mut words) = (vec![0; entries], vec![0; entries], vec![0; entries + rows]);
    let (mut lengths, mut marks) = (vec![0; rows], vec![0; rows]);
    while run.stage != 2 {
        let given = run.list_marked(rows as u64, &mut s0, &mut s1, &mut words, &mut lengths, &mut marks).unwrap();
        kept += marks[..given as usize].iter().map(|mark| u64::from(*mark)).sum::<u64>();
    }
    kept
}

#[test]
fn kept_counts_are_those_of_whole_runs() {
    for size in 1..=17 {
        let kept = Ok(kept_rows(size, 40));
        assert_eq!((kept_count(size), Ok(kept_marks(size, 300))), (kept, kept), "size {size}");
    }
}

#[test]
fn a_run_from_each_position() {
    let mut run = Run::begin(4).unwrap();
    let (mut s0, mut s1, mut word) = ([0; 4], [0; 4], [0; 5]);
    for position in 0..=8 {
        assert_eq!(Run::begin_at(4, position).as_ref(), Ok(&run));
        run.step(&mut s0, &mut s1, &mut word).unwrap();
    }
    assert_eq!(run.stage, 2);
    assert_eq!((Run::begin_at(4, 9), Run::begin_at(51, 0)), (Err(Refusal::PositionOutside), Err(Refusal::ListedSizeOutside)));
    let mut late = Run::begin_at(4, 7).unwrap();
    assert_eq!((late.step(&mut s0, &mut s1, &mut word), text(&word[..3])), (Ok(Some(3)), "TJ1B".to_string()));
    assert_eq!(late.step(&mut s0, &mut s1, &mut word), Ok(None));
}

#[test]
fn a_run_in_blocks() {
    let (mut plain, mut marked) = (Run::begin(4).unwrap(), Run::begin(4).unwrap());
    let (mut words_given, mut marks_given) = (vec![], vec![]);
    for rows in [3, 3, 2, 0] {
        let (mut s0, mut s1, mut words, mut lengths, mut marks) = ([7; 13], [7; 13], [7; 16], [7; 4], [7; 4]);
        assert_eq!(plain.list(3, &mut s0, &mut s1, &mut words, &mut lengths), Ok(rows as u64));
        let written = (s0, s1, words, lengths);
        assert_eq!(marked.list_marked(3, &mut s0, &mut s1, &mut words, &mut lengths, &mut marks), Ok(rows as u64));
        assert_eq!(((s0, s1, words, lengths), &marked), (written, &plain));
        let mut at = 0;
        for row in 0..rows {
            let end = at + usize::from(lengths[row]);
            words_given.push(text(&words[at..end]));
            assert_eq!(position(&s0[4 * row..][..4], &s1[4 * row..][..4], 1), Ok(words_given.len() as u64));
            assert_eq!(kept(&s0[4 * row..][..4], &s1[4 * row..][..4], 1), Ok(marks[row] == 1));
            at = end;
        }
        marks_given.extend_from_slice(&marks[..rows]);
        // What lies behind the rows written is as it was.
        let rest = [&s0[4 * rows..], &s1[4 * rows..], &words[at..], &lengths[rows..]].concat();
        assert!(rest.iter().all(|x| *x == 7) && marks[rows..].iter().all(|x| *x == 7));
    }
    assert_eq!(words_given, ["UFWW", "UFJ0", "TWWB", "TWBW", "TBWW", "TBJ0", "TJ0B", "TJ1B"]);
    assert_eq!((marks_given, plain.stage), (vec![1, 1, 0, 0, 0, 0, 0, 0], 2));
}

#[test]
fn rows_of_a_block() {
    let mut run = Run::begin(4).unwrap();
    // No rows: the run is not moved. All that are left: it stands at the last diagram, and is finished with the next call.
    assert_eq!((run.list(0, &mut [], &mut [], &mut [], &mut []), &run), (Ok(0), &Run::begin(4).unwrap()));
    let (mut s0, mut s1, mut words, mut lengths) = ([0; 32], [0; 32], [0; 40], [0; 8]);
    assert_eq!((run.list(8, &mut s0, &mut s1, &mut words, &mut lengths), run.stage), (Ok(8), 1));
    assert_eq!(run.list(9, &mut s0, &mut s1, &mut words, &mut lengths), Err(Refusal::OutputShort));
    assert_eq!((run.list(0, &mut [], &mut [], &mut [], &mut []), run.stage), (Ok(0), 1));
    assert_eq!((run.list(1, &mut s0, &mut s1, &mut words, &mut lengths), run.stage), (Ok(0), 2));
    assert_eq!(run.list_marked(u64::MAX, &mut [], &mut [], &mut [], &mut [], &mut []), Ok(0));
}

/// The rows of size 3, from 01.
const ROWS_OF_3: [&str; 4] = [
    "1 TWWW 2,3,1 1,2,3 3 0 1 0 3 K\n",
    "2 TWJ0 2,3,1 2,1,3 1 0 2 0 2 K\n",
    "3 TJ0W 2,3,1 1,3,2 1 0 2 0 2 -\n",
    "4 TJ1W 2,3,1 3,2,1 1 0 2 0 2 -\n",
];

/// Calls rows with so many bytes that are all a full stop, and returns the answer and what they hold after it.
fn rows_of(run: &mut Run, rows: u64, room: usize) -> (Result<Rows, Refusal>, String) {
    let mut bytes = vec![b'.'; room];
    let answer = run.rows(rows, &mut bytes);
    (answer, String::from_utf8(bytes).unwrap())
}

#[test]
fn rows_as_text() {
    let whole = ROWS_OF_3.concat();
    let room = 4 * row_bytes(3);
    let rest = |bytes: usize| ".".repeat(room - bytes);
    // All that there are, in one call; the run stands at its last diagram, as after four steps, and gives no more.
    let mut run = Run::begin(3).unwrap();
    assert_eq!(rows_of(&mut run, 4, room), (Ok(Rows { rows: 4, bytes: 124, kept: 2 }), whole.clone() + &rest(124)));
    assert_eq!(run, Run::begin_at(3, 4).unwrap());
    assert_eq!((rows_of(&mut run, 4, room), &run), ((Ok(Rows { rows: 0, bytes: 0, kept: 0 }), rest(0)), &Run::begin_at(3, 4).unwrap()));
    // From each position, some of them or all that are left.
    for first in 0..4 {
        for asked in 0..=4 {
            let mut run = Run::begin_at(3, first as u64).unwrap();
            let text = ROWS_OF_3[first..4.min(first + asked)].concat();
            let given = Rows { rows: text.lines().count() as u64, bytes: text.len(), kept: text.matches('K').count() as u64 };
            assert_eq!(rows_of(&mut run, asked as u64, room), (Ok(given), text + &rest(given.bytes)));
            assert_eq!(run, Run::begin_at(3, first as u64 + given.rows).unwrap());
        }
    }
}

#[test]
fn rows_refused_or_none() {
    // One byte less than 9 n + 40 for each row asked for, also where fewer are left; no rows need none.
    for position in 0..=4 {
        let run = Run::begin_at(3, position).unwrap();
        for (asked, room) in [(1, 66), (2, 133), (5, 334), (1, 0), (u64::MAX / 67 + 1, 335), (u64::MAX, 335)] {
            let mut short = run.clone();
            assert_eq!((rows_of(&mut short, asked, room), &short), ((Err(Refusal::OutputShort), ".".repeat(room)), &run));
        }
        let mut none = run.clone();
        assert_eq!((rows_of(&mut none, 0, 0), &none), ((Ok(Rows { rows: 0, bytes: 0, kept: 0 }), String::new()), &run));
    }
    // A finished run gives none, however short the list.
    let finished = Run { size: 3, stage: 2, length: 0, items: [0; 51] };
    let mut run = finished.clone();
    for (asked, room) in [(0, 0), (1, 0), (u64::MAX, 3), (4, 268)] {
        assert_eq!((rows_of(&mut run, asked, room), &run), ((Ok(Rows { rows: 0, bytes: 0, kept: 0 }), ".".repeat(room)), &finished));
    }
    // Neither fresh, nor at a diagram, nor finished; asked before the length of the list is.
    let mut damaged = Run::begin_at(3, 2).unwrap();
    damaged.items[50] = 1;
    for before in [damaged, Run { stage: 3, ..finished.clone() }, Run { size: 0, ..finished.clone() }, Run { size: 51, ..finished }] {
        for (asked, room) in [(1, 67), (1, 0), (0, 0)] {
            let mut run = before.clone();
            assert_eq!((rows_of(&mut run, asked, room), &run), ((Err(Refusal::RunInvalid), ".".repeat(room)), &before));
        }
    }
}

/// The ninth field is the level: cycles of 3 and 4 edges.
#[test]
fn a_row_with_its_level() {
    let (answer, bytes) = rows_of(&mut Run::begin_at(7, 5).unwrap(), 1, row_bytes(7));
    assert_eq!(&bytes[..answer.unwrap().bytes], "6 UFFJ1W 1,3,4,2,6,7,5 2,1,7,5,4,6,3 1 1 2 0 12 K\n");
}

/// The least bytes that are enough by the bound, at the last rows of the largest size.
#[test]
fn rows_of_the_largest_size() {
    let last = count(50).unwrap();
    let mut run = Run::begin_at(50, last - 3).unwrap();
    let (answer, bytes) = rows_of(&mut run, 3, 3 * row_bytes(50));
    let given = answer.unwrap();
    let text = &bytes[..given.bytes];
    assert_eq!((given.rows, text.lines().count(), run), (3, 3, Run::begin_at(50, last).unwrap()));
    for (line, place) in text.lines().zip(last - 2..) {
        assert_eq!((line.split(' ').next().unwrap(), line.split(' ').count()), (&place.to_string()[..], 10));
        assert!(line.len() < row_bytes(50));
    }
    assert!(bytes[given.bytes..].bytes().all(|byte| byte == b'.'));
}

#[test]
fn a_book_to_its_end() {
    let mut book = Book::blank();
    assert_eq!(book.report(), Err(Refusal::BookInvalid));
    book.open(4, 3).unwrap();
    assert_eq!((book.size, book.shares, &book.next[..4]), (4, 3, &[1, 3, 6, 0][..]));
    let (mut s0, mut s1, mut word) = ([0; 4], [0; 4], [0; 5]);
    // A session that claims share 2 and wakes at its expiry.
    let late = book.claim(0, 2, 10).unwrap();
    assert_eq!((book.commit(9, late, 3), book.commit(10, late, 4)), (Ok(()), Err(Refusal::TicketLapsed)));
    for share in 1..=3 {
        let ticket = book.claim(10, share, 10).unwrap();
        while let Ok(taken) = book.take(10, ticket, &mut s0, &mut s1, &mut word) {
            assert_eq!((taken.share, position(&s0, &s1, 1)), (share, Ok(taken.position)));
            assert_eq!(read_word(&word[..taken.length], &mut [0; 4], &mut [0; 4]), Ok(4));
            book.commit(10, ticket, taken.position).unwrap();
        }
    }
    assert_eq!(book.commit(11, late, 4), Err(Refusal::TicketAbsent));
    assert_eq!(book.report(), Ok(Report { committed: 8, complete: true }));
}

#[test]
fn ranges_of_commits() {
    let mut book = Book::blank();
    book.open(4, 3).unwrap();
    let ticket = book.claim(0, 2, 10).unwrap();
    let before = book.clone();
    // Share 2 holds 3 to 5. Past its end a commit finds the ticket ended.
    assert_eq!((book.commit_range(1, ticket, 3, 6), book.commit_range(1, ticket, 4, 5)), (Err(Refusal::TicketAbsent), Err(Refusal::PositionNotNext)));
    assert_eq!((book.commit_range(1, ticket, 3, 2), book.commit_range(10, ticket, 3, 4)), (Err(Refusal::PositionNotNext), Err(Refusal::TicketLapsed)));
    assert_eq!(book, before);
    // As two commits would.
    let mut other = book.clone();
    assert_eq!((other.commit(2, ticket, 3), other.commit(2, ticket, 4)), (Ok(()), Ok(())));
    assert_eq!((book.commit_range(2, ticket, 3, 4), &book), (Ok(()), &other));
    // To the share's last position: the ticket ends.
    assert_eq!((book.commit_range(3, ticket, 5, 5), book.ticket[1], book.next[1]), (Ok(()), 0, 6));
    assert_eq!(book.report(), Ok(Report { committed: 3, complete: false }));
}
