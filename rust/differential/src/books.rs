//! Share books: random lists of calls from sessions that wake late, and damaged books. Every answer and the whole book are compared after
//! every call.
use crate::given::{accepted, outcome};
use crate::lists::Lists;
use crate::random::Random;
use crate::outcomes::{Compared, Difference, OutcomeCounts};
use kaldvemir::Refusal;
use reference::Book;

fn library_book(book: &Book) -> kaldvemir::Book {
    let Book { size, shares, latest, issued, next, ticket, expiry } = *book;
    kaldvemir::Book { size, shares, latest, issued, next, ticket, expiry }
}

fn reference_book(book: &kaldvemir::Book) -> Book {
    let kaldvemir::Book { size, shares, latest, issued, next, ticket, expiry } = *book;
    Book { size, shares, latest, issued, next, ticket, expiry }
}

/// One call of the first list of demand 3.
#[derive(Clone, Debug)]
enum Call {
    Claim { tick: u64, share: u64, length: u64 },
    Take { tick: u64, ticket: u64, lists: Lists },
    Commit { tick: u64, ticket: u64, position: u64 },
    CommitRange { tick: u64, ticket: u64, first: u64, last: u64 },
    Release { tick: u64, ticket: u64 },
    Report,
}

/// What the accepted calls gave, as the sessions remember it.
#[derive(Clone, Copy, Debug, PartialEq)]
enum Given {
    Ticket(u64),
    Position(u64, u64, usize),
    Report(u64, bool),
    Done,
}

/// An answer, and for a take the lists after it.
type Answered = (Result<Given, u16>, Option<Lists>);

fn by_library(book: &mut kaldvemir::Book, call: &Call) -> Answered {
    let mut lists = None;
    let answer = match call {
        Call::Claim { tick, share, length } => book.claim(*tick, *share, *length).map(Given::Ticket),
        Call::Take { tick, ticket, lists: lent } => {
            let lists = lists.insert(lent.clone());
            let taken = book.take(*tick, *ticket, &mut lists.s0, &mut lists.s1, &mut lists.word);
            taken.map(|taken| Given::Position(taken.share, taken.position, taken.length))
        }
        Call::Commit { tick, ticket, position } => book.commit(*tick, *ticket, *position).map(|()| Given::Done),
        Call::CommitRange { tick, ticket, first, last } => book.commit_range(*tick, *ticket, *first, *last).map(|()| Given::Done),
        Call::Release { tick, ticket } => book.release(*tick, *ticket).map(|()| Given::Done),
        Call::Report => book.report().map(|report| Given::Report(report.committed, report.complete)),
    };
    (answer.map_err(Refusal::number), lists)
}

fn by_reference(book: &mut Book, call: &Call) -> Answered {
    let mut lists = None;
    let answer = match call {
        Call::Claim { tick, share, length } => book.claim(*tick, *share, *length).map(Given::Ticket),
        Call::Take { tick, ticket, lists: lent } => {
            let taken = book.take(*tick, *ticket, lent.rooms());
            lists = Some(lent.after(&taken.as_ref().map(|taken| Some(&taken.written))));
            taken.map(|taken| Given::Position(taken.share, taken.position, taken.written.word.len()))
        }
        Call::Commit { tick, ticket, position } => book.commit(*tick, *ticket, *position).map(|()| Given::Done),
        Call::CommitRange { tick, ticket, first, last } => book.commit_range(*tick, *ticket, *first, *last).map(|()| Given::Done),
        Call::Release { tick, ticket } => book.release(*tick, *ticket).map(|()| Given::Done),
        Call::Report => book.report().map(|report| Given::Report(report.committed, report.complete)),
    };
    (answer, lists)
}

/// Makes a call on both books and compares the answers, the lists and the books; returns what an accepted call gave.
fn call(book: &mut Book, call: &Call, counts: &mut OutcomeCounts) -> Result<Option<Given>, Box<Difference>> {
    let name = match call {
        Call::Claim { .. } => "claim",
        Call::Take { .. } => "take",
        Call::Commit { .. } => "commit",
        Call::CommitRange { first, last, .. } if first > last => "empty range",
        Call::CommitRange { ticket, first, last, .. } if past_end(book, *ticket, *first, *last) => "range past end",
        Call::CommitRange { .. } => "commit range",
        Call::Release { .. } => "release",
        Call::Report => "report",
    };
    named_call(name, book, call, counts)
}

/// The same, counted by a name.
fn named_call(name: &'static str, book: &mut Book, call: &Call, counts: &mut OutcomeCounts) -> Result<Option<Given>, Box<Difference>> {
    let before = book.clone();
    let mut other = library_book(book);
    let library = by_library(&mut other, call);
    let reference = by_reference(book, call);
    let kind = outcome(&reference.0, |given| match given {
        Given::Report(_, true) => "complete",
        Given::Report(_, false) => "open",
        _ => "accepted",
    });
    counts.compare(name, kind, &(&library, &reference_book(&other)), &(&reference, book), &(&before, call))?;
    Ok(reference.0.ok())
}

/// The share where a ticket stands.
fn standing(book: &Book, ticket: u64) -> Option<usize> {
    (0..32).find(|j| ticket != 0 && book.ticket[*j] == ticket)
}

/// The last position of a share of an opened book.
fn last_of(book: &Book, share: u64) -> u64 {
    let count = u128::from(reference::count(book.size).expect("an opened book"));
    (u128::from(share) * count / u128::from(book.shares)) as u64
}

/// A range from the next position of the ticket's share on goes past the share's end.
fn past_end(book: &Book, ticket: u64, first: u64, last: u64) -> bool {
    let opened = reference::count(book.size).is_ok() && (1..=32).contains(&book.shares);
    opened && standing(book, ticket).is_some_and(|j| first == book.next[j] && last > last_of(book, j as u64 + 1))
}

/// A book with anything in it, opened: a refused opening leaves it.
pub fn open(random: &mut Random, counts: &mut OutcomeCounts) -> Compared {
    let size = if random.percent(70) { random.between(1, 50) } else { random.near(&[0, 1, 50]) };
    let shares = if random.percent(70) { random.between(1, 32) } else { random.near(&[0, 1, 32]) };
    let mut book = Book::blank();
    if random.percent(80) {
        [book.size, book.shares, book.latest, book.issued] = [random.any_width(), random.any_width(), random.any_width(), random.any_width()];
        for list in [&mut book.next, &mut book.ticket, &mut book.expiry] {
            list.iter_mut().for_each(|entry| *entry = random.any_width());
        }
    }
    opened(&mut book, size, shares, counts)
}

fn opened(book: &mut Book, size: u64, shares: u64, counts: &mut OutcomeCounts) -> Compared {
    let before = book.clone();
    let mut other = library_book(book);
    let library = other.open(size, shares).map_err(Refusal::number);
    let reference = book.open(size, shares);
    let kind = outcome(&reference, accepted);
    counts.compare("open", kind, &(library, reference_book(&other)), &(reference, book.clone()), &(&before, size, shares))
}

/// A session: the tickets it was ever given and the last position it took, which it holds to however late it wakes.
#[derive(Default)]
struct Session {
    tickets: Vec<u64>,
    position: u64,
}

/// A book from its opening until some calls after it is complete, or for many calls.
pub fn life(random: &mut Random, counts: &mut OutcomeCounts) -> Compared {
    let size = if random.percent(85) { random.between(1, 7) } else { random.between(1, 50) };
    let shares = if random.percent(75) { random.between(1, 5) } else { random.between(1, 32) };
    let mut book = Book::blank();
    opened(&mut book, size, shares, counts)?;
    if random.percent(10) {
        book.issued = 65_535 - random.between(0, 12);
    }
    if random.percent(10) {
        book.latest = (1 << 48) - random.between(1, 300);
    }
    let crew = 1 + random.below(6);
    let mut sessions: Vec<Session> = (0..crew).map(|_| Session::default()).collect();
    let patience = random.choose(&[1, 4, 40, 2000]);
    let mut left = 40 + random.below(300);
    while left > 0 {
        if book.report().is_ok_and(|report| report.complete) {
            left = left.min(12);
        }
        left -= 1;
        let session = &mut sessions[random.below(crew)];
        let next = next_call(random, &book, session, patience);
        if random.percent(8) {
            let mut copy = book.clone();
            damage(random, &mut copy);
            call(&mut copy, &next, counts)?;
            call(&mut copy, &Call::Report, counts)?;
        }
        match call(&mut book, &next, counts)? {
            Some(Given::Ticket(ticket)) => session.tickets.push(ticket),
            Some(Given::Position(_, position, _)) => session.position = position,
            _ => (),
        }
    }
    Ok(())
}

/// Calls with a book whose tickets are old and far apart, as where shares were claimed long ago and others since again and again: several are equal modulo
/// 128, some shares have none. In a copy of the book two tickets are equal, whether or not others are alike.
pub fn old_tickets(random: &mut Random, counts: &mut OutcomeCounts) -> Compared {
    let mut book = Book::blank();
    book.open(random.between(8, 50), random.between(3, 32)).expect("a size and shares in range");
    let (far, first) = (random.choose(&[64, 128, 128, 256]), random.between(1, 70));
    let shares = book.shares as usize;
    let patience = random.choose(&[1, 40, 2000]);
    book.latest = random.between(0, 100_000);
    for (rank, share) in random.order(shares).into_iter().enumerate() {
        if rank < 2 || random.percent(80) {
            book.ticket[share] = first + far * rank as u64;
            book.expiry[share] = (book.latest + random.between(0, 2 * patience)).saturating_sub(patience / 2);
        }
    }
    book.issued = first + far * 32 + random.between(0, 3);
    let session = Session { tickets: book.ticket.into_iter().filter(|ticket| *ticket != 0).collect(), position: book.next[0] };
    for _ in 0..4 {
        let next = next_call(random, &book, &session, patience);
        named_call("tickets modulo 128", &mut book.clone(), &next, counts)?;
        let mut copy = book.clone();
        // Tickets that differ modulo 128 but for two that are equal, or the same ones with two equal.
        if random.percent(50) {
            copy.ticket.iter_mut().filter(|ticket| **ticket != 0).for_each(|ticket| *ticket = 1 + (*ticket - first) / far);
        }
        let held: Vec<usize> = random.order(shares).into_iter().filter(|share| copy.ticket[*share] != 0).collect();
        copy.ticket[held[0]] = copy.ticket[held[1]];
        named_call("equal tickets", &mut copy, &next, counts)?;
    }
    Ok(())
}

/// The next call of a session: mostly the sensible one, sometimes late, and sometimes with anything for an argument.
fn next_call(random: &mut Random, book: &Book, session: &Session, patience: u64) -> Call {
    let tick = tick(random, book, patience);
    let newest = session.tickets.last().copied().unwrap_or(0);
    let ticket = match random.below(12) {
        0 if !session.tickets.is_empty() => session.tickets[random.below(session.tickets.len())],
        1 => random.near(&[0, newest, book.issued]),
        2 => book.ticket[random.below(32)],
        _ => newest,
    };
    let stands = standing(book, ticket);
    match random.weighted(if stands.is_none() { &[8, 1, 2, 1, 1, 1] } else { &[1, 3, 5, 1, 1, 3] }) {
        0 => Call::Claim { tick, share: share(random, book), length: length(random, patience) },
        1 => Call::Take { tick, ticket, lists: Lists::any(random, book.size as usize) },
        2 => {
            let position = position(random, book, session, stands);
            Call::Commit { tick, ticket, position }
        }
        3 => Call::Release { tick, ticket },
        4 => Call::Report,
        _ => {
            let first = position(random, book, session, stands);
            let end = stands.map_or(first, |j| last_of(book, j as u64 + 1));
            let last = match random.below(10) {
                0 => random.near(&[first, end]),
                1 => first.saturating_sub(random.between(1, 3)),
                2 => end.wrapping_add(random.between(1, 3)),
                3 | 4 => end,
                _ => first.wrapping_add(random.between(0, 3)),
            };
            Call::CommitRange { tick, ticket, first, last }
        }
    }
}

/// The position of a commit, or the first one of a range: mostly the next one of the ticket's share.
fn position(random: &mut Random, book: &Book, session: &Session, stands: Option<usize>) -> u64 {
    match (random.below(8), stands) {
        (0, _) => random.near(&[session.position, session.position + 1]),
        (1, Some(j)) => random.near(&[book.next[j]]),
        (2, _) | (_, None) => session.position,
        (_, Some(j)) => book.next[j],
    }
}

/// A tick: mostly now or soon, sometimes after tickets have lapsed, at an expiry or one before it, sometimes past.
fn tick(random: &mut Random, book: &Book, patience: u64) -> u64 {
    let latest = book.latest;
    match random.below(40) {
        0 => random.near(&[latest, 1 << 48]),
        1 | 2 => latest.saturating_sub(1 + random.between(0, 3)),
        3 | 4 => latest + random.between(0, 2 * patience),
        5..=8 => {
            let expiry = book.expiry[random.below(book.shares as usize)];
            expiry.saturating_sub(random.between(0, 2)).max(latest)
        }
        9 => latest + patience,
        10..=15 => latest + 1,
        _ => latest,
    }
}

/// A share: mostly one that is free and not finished.
fn share(random: &mut Random, book: &Book) -> u64 {
    let place = |share: u64| share as usize - 1;
    let free = |share: &u64| book.ticket[place(*share)] == 0 && book.next[place(*share)] <= last_of(book, *share);
    let free: Vec<u64> = (1..=book.shares).filter(free).collect();
    match random.below(12) {
        0 => random.near(&[0, book.shares]),
        1 | 2 => random.between(1, book.shares),
        _ if free.is_empty() => random.between(1, book.shares),
        _ => random.choose(&free),
    }
}

fn length(random: &mut Random, patience: u64) -> u64 {
    match random.below(16) {
        0 => random.near(&[0, 1, 65_535]),
        1 => random.between(1, 65_535),
        _ => random.between(1, patience),
    }
}

/// Alters one to three fields, often to an edge of what is valid.
fn damage(random: &mut Random, book: &mut Book) {
    for _ in 0..1 + random.weighted(&[5, 2, 1]) {
        let (one, other) = (random.below(32), random.below(32));
        let used = random.below(book.shares.clamp(1, 32) as usize);
        let j = if random.percent(70) { used } else { one };
        match random.below(10) {
            0 => book.size = random.near(&[0, 50, book.size]),
            1 => book.shares = random.near(&[0, 32, book.shares]),
            2 => book.latest = random.near(&[1 << 48, book.latest, book.expiry[j].saturating_sub(65_535)]),
            3 => book.issued = random.near(&[65_535, book.issued, book.ticket[j]]),
            4 | 5 => book.next[j] = random.near(&[book.next[j], book.next[other], book.next[j].div_ceil(2)]),
            6 => book.ticket[j] = random.near(&[0, book.issued, book.ticket[j]]),
            7 => book.ticket[j] = book.ticket[other],
            8 => book.expiry[j] = random.near(&[0, book.latest.wrapping_add(65_535), book.expiry[j]]),
            _ => book.expiry[j] = book.expiry[other],
        }
    }
}
