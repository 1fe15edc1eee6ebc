//! The share book by hand: 01's cases, and each condition of 50.
use reference::*;

const ROOMY: Rooms = [50, 50, 51];

fn opened(size: u64, shares: u64) -> Book {
    let mut book = Book::blank();
    book.open(size, shares).unwrap();
    book
}

#[test]
fn shares_of_01() {
    assert_eq!(opened(4, 3).next[..4], [1, 3, 6, 0]);
    let single = opened(1, 32);
    assert_eq!(single.next, [1; 32]);
    assert_eq!(single.report(), Ok(Report { committed: 0, complete: false }));
    let mut single = single;
    assert_eq!((single.claim(0, 31, 1), single.claim(0, 32, 1)), (Err(55), Ok(1)));
    assert_eq!(single.commit(0, 1, 1), Ok(()));
    assert_eq!(single.report(), Ok(Report { committed: 1, complete: true }));
    assert_eq!((Book::blank().open(51, 0), Book::blank().open(50, 33), Book::blank().open(50, 0)), (Err(31), Err(51), Err(51)));
}

#[test]
fn a_ticket_holds_until_its_expiry() {
    let mut book = opened(4, 3);
    assert_eq!(book.claim(10, 2, 5), Ok(1));
    assert_eq!((book.claim(14, 2, 5), book.claim(14, 4, 0), book.claim(14, 2, 65_536)), (Err(56), Err(53), Err(54)));
    assert_eq!((book.commit(14, 1, 3), book.commit(15, 1, 4)), (Ok(()), Err(59)));
    assert_eq!((book.take(13, 1, ROOMY), book.take(15, 1, ROOMY), book.release(15, 1)), (Err(52), Err(59), Err(59)));
    assert_eq!((book.claim(15, 2, 5), book.commit(15, 1, 4)), (Ok(2), Err(58)));
    assert_eq!(book.take(15, 2, [4, 4, 4]), Err(9));
    let taken = book.take(16, 2, ROOMY).unwrap();
    assert_eq!((taken.share, taken.position, &taken.written.word[..]), (2, 4, &[1, 0, 2, 0][..]));
    assert_eq!((book.commit(16, 2, 5), book.commit(16, 2, 4), book.release(17, 2), book.release(17, 2)), (Err(60), Ok(()), Ok(()), Err(58)));
    assert_eq!((book.latest, book.next[1], book.ticket[1], book.expiry[1]), (17, 5, 0, 0));
}

#[test]
fn a_range_is_its_commits() {
    let mut book = opened(7, 2);
    assert_eq!((book.next[..2].to_vec(), book.claim(0, 1, 9)), (vec![1, 22], Ok(1)));
    let before = book.clone();
    assert_eq!((book.commit_range(1, 1, 1, 22), book.commit_range(1, 1, 2, 3), book.commit_range(1, 1, 2, 1)), (Err(58), Err(60), Err(60)));
    assert_eq!((book.commit_range(9, 1, 2, 1), book.commit_range(1, 2, 2, 1), &book), (Err(59), Err(58), &before));
    let mut other = book.clone();
    (1..=4).for_each(|position| other.commit(1, 1, position).unwrap());
    assert_eq!((book.commit_range(1, 1, 1, 4), &book), (Ok(()), &other));
    assert_eq!((book.commit_range(1, 1, 5, 21), book.next[0], book.ticket[0]), (Ok(()), 22, 0));
    // A range too long to be walked through.
    let mut large = opened(50, 1);
    large.claim(0, 1, 9).unwrap();
    assert_eq!((large.commit_range(0, 1, 1, u64::MAX), large.commit_range(0, 1, 1, 1 << 40), large.next[0]), (Err(58), Ok(()), (1 << 40) + 1));
}

type Edit = fn(&mut Book);

#[test]
fn each_condition_of_50() {
    let mut valid = opened(4, 3);
    valid.claim(100, 1, 65_535).unwrap();
    valid.claim(100, 2, 1).unwrap();
    let edits: [(&str, Edit); 16] = [
        ("size 0", |book| book.size = 0),
        ("size 51", |book| book.size = 51),
        ("no shares", |book| book.shares = 0),
        ("33 shares", |book| book.shares = 33),
        ("next before its share", |book| book.next[1] = 2),
        ("next past the place past its share", |book| book.next[1] = 7),
        ("a finished share with a ticket", |book| book.next[1] = 6),
        ("equal tickets", |book| book.ticket[1] = 1),
        ("a ticket above those issued", |book| book.ticket[1] = 3),
        ("too many issued", |book| book.issued = 65_536),
        ("too late a tick", |book| book.latest = 1 << 48),
        ("an expiry without a ticket", |book| book.expiry[2] = 1),
        ("an expiry too far ahead", |book| book.expiry[0] += 1),
        ("an unused next", |book| book.next[3] = 1),
        ("an unused ticket", |book| book.ticket[31] = 2),
        ("an unused expiry", |book| book.expiry[31] = 1),
    ];
    for (name, edit) in edits {
        let mut book = valid.clone();
        assert!(book.report().is_ok());
        edit(&mut book);
        assert_eq!(book.report(), Err(50), "{name}");
        assert_eq!(book.claim(0, 0, 0), Err(50), "{name}");
    }
    valid.issued = 65_535;
    assert_eq!(valid.claim(101, 2, 1), Err(57));
}
