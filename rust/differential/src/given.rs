//! Given diagrams and words: check, all reached, relabel, compare, symmetries, kept, invariants, read word, lesser, letters.
use crate::diagrams::{any, carried, damage, grown, in_parts, mirror, reconnect, Diagram, Mix, EVERY, FEW_LARGE};
use crate::levels;
use crate::listed::position_of;
use crate::lists::{any_word, overwritten, pair, room, tall_word, Lists};
use crate::random::Random;
use crate::outcomes::{Compared, Outcome, OutcomeCounts};
use kaldvemir::{Refusal, Side, Sided};

/// The outcome of an answer, whose acceptance is of the kind named.
pub fn outcome<T>(answer: &Result<T, u16>, kind: impl FnOnce(&T) -> &'static str) -> Outcome {
    match answer {
        Ok(value) => Outcome::Accepted(kind(value)),
        Err(number) => Outcome::Refused(0, *number),
    }
}

pub fn accepted<T>(_: &T) -> &'static str {
    "accepted"
}

fn yes_or_no(yes: &bool) -> &'static str {
    if *yes { "yes" } else { "no" }
}

/// A diagram, in half the cases damaged.
fn lent(random: &mut Random, mix: Mix) -> Diagram {
    let diagram = any(random, mix);
    damaged_or_not(random, diagram)
}

fn damaged_or_not(random: &mut Random, mut diagram: Diagram) -> Diagram {
    if random.percent(50) {
        damage(random, &mut diagram);
    }
    diagram
}

pub fn check(random: &mut Random, counts: &mut OutcomeCounts) -> Compared {
    check_of("check", &lent(random, EVERY), counts)
}

fn check_of(name: &'static str, lent: &Diagram, counts: &mut OutcomeCounts) -> Compared {
    let Diagram { s0, s1, root } = lent;
    let library = kaldvemir::check(s0, s1, *root).map_err(Refusal::number);
    let reference = reference::check(s0, s1, *root);
    counts.compare(name, outcome(&reference, accepted), &library, &reference, lent)
}

pub fn all_reached(random: &mut Random, counts: &mut OutcomeCounts) -> Compared {
    let length = if random.percent(95) { random.below(40) } else { random.below(1100) };
    let mut marks = vec![1; length];
    for _ in 0..random.below(3) {
        if length > 0 {
            marks[random.below(length)] = random.choose(&[0, 1, 2, 3, 129, 255]);
        }
    }
    let (library, reference) = (kaldvemir::all_reached(&marks), reference::all_reached(&marks));
    counts.compare("all reached", Outcome::Accepted(yes_or_no(&reference)), &library, &reference, &marks)
}

pub fn relabel(random: &mut Random, counts: &mut OutcomeCounts) -> Compared {
    let lent = lent(random, EVERY);
    let lists = Lists::any(random, lent.s0.len());
    relabel_of("relabel", "accepted", &lent, &lists, counts)
}

fn relabel_of(name: &'static str, kind: &'static str, lent: &Diagram, before: &Lists, counts: &mut OutcomeCounts) -> Compared {
    let Diagram { s0, s1, root } = lent;
    let mut lists = before.clone();
    let library = kaldvemir::relabel(s0, s1, *root, &mut lists.s0, &mut lists.s1, &mut lists.word).map_err(Refusal::number);
    let reference = reference::relabel(s0, s1, *root, before.rooms());
    let after = before.after(&reference.as_ref().map(Some));
    let expected = reference.as_ref().map(|written| written.word.len()).map_err(|number| *number);
    counts.compare(name, outcome(&reference, |_| kind), &(library, lists), &(expected, after), &(lent, before))
}

/// A second diagram to compare with the first: renamed, with its root or another, mirrored, with two white vertices changed, or any other.
fn second(random: &mut Random, first: &Diagram, mix: Mix) -> Diagram {
    let mut second = match random.below(8) {
        0..=2 => carried(random, first).0,
        3 => carried(random, &mirror(first)).0,
        4 => {
            let mut second = carried(random, first).0;
            reconnect(random, &mut second);
            second
        }
        5 => grown(random, first.s0.len()),
        6 => first.clone(),
        _ => any(random, mix),
    };
    if random.percent(25) {
        second.root = random.between(1, second.s0.len() as u64);
    }
    second
}

/// The answer of a compare in the reference's form: the number and the side.
fn sided(sided: Sided) -> (u16, u8) {
    let side = match sided.side {
        Side::First => 1,
        Side::Second => 2,
    };
    (sided.refusal.number(), side)
}

type Answer = Result<bool, (u16, u8)>;

/// Two diagrams to compare, each of them damaged now and then.
fn two(random: &mut Random, mix: Mix) -> (Diagram, Diagram) {
    let mut first = any(random, mix);
    let mut second = second(random, &first, mix);
    if random.percent(30) {
        damage(random, &mut first);
    }
    if random.percent(30) {
        damage(random, &mut second);
    }
    (first, second)
}

fn compared(answer: &Answer) -> Outcome {
    match answer {
        Ok(same) => Outcome::Accepted(if *same { "same" } else { "different" }),
        Err((number, side)) => Outcome::Refused(*side, *number),
    }
}

pub fn compare_rooted(random: &mut Random, counts: &mut OutcomeCounts) -> Compared {
    compare_rooted_of("compare rooted", &two(random, EVERY), counts)
}

fn compare_rooted_of(name: &'static str, both: &(Diagram, Diagram), counts: &mut OutcomeCounts) -> Compared {
    let (a, b) = both;
    let library = kaldvemir::compare_rooted(&a.s0, &a.s1, a.root, &b.s0, &b.s1, b.root).map_err(sided);
    let reference = reference::compare_rooted((&a.s0, &a.s1, a.root), (&b.s0, &b.s1, b.root));
    counts.compare(name, compared(&reference), &library, &reference, both)
}

pub fn compare_unrooted(random: &mut Random, counts: &mut OutcomeCounts) -> Compared {
    compare_unrooted_of("compare unrooted", &two(random, FEW_LARGE), counts)
}

fn compare_unrooted_of(name: &'static str, both: &(Diagram, Diagram), counts: &mut OutcomeCounts) -> Compared {
    let (a, b) = both;
    let library = kaldvemir::compare_unrooted(&a.s0, &a.s1, a.root, &b.s0, &b.s1, b.root).map_err(sided);
    let reference = reference::compare_unrooted((&a.s0, &a.s1, a.root), (&b.s0, &b.s1, b.root));
    counts.compare(name, compared(&reference), &library, &reference, both)
}

/// How the word of an accepted diagram begins: with U; with T although s0 fixes some edge, so that other rootings begin with U; or with T as all do.
fn beginning(Diagram { s0, root, .. }: &Diagram) -> Beginning {
    let fixed = |edge: u64| u64::from(s0[edge as usize - 1]) == edge;
    match (1..=s0.len() as u64).any(fixed) {
        _ if fixed(*root) => Beginning::U,
        true => Beginning::TBesideU,
        false => Beginning::T,
    }
}

enum Beginning {
    U,
    TBesideU,
    T,
}

pub fn symmetries(random: &mut Random, counts: &mut OutcomeCounts) -> Compared {
    symmetries_of("symmetries", &lent(random, FEW_LARGE), counts)
}

fn symmetries_of(name: &'static str, lent: &Diagram, counts: &mut OutcomeCounts) -> Compared {
    let Diagram { s0, s1, root } = lent;
    let library = kaldvemir::symmetries(s0, s1, *root).map_err(Refusal::number);
    let reference = reference::symmetries(s0, s1, *root);
    let outcome = outcome(&reference, |count| match (beginning(lent), count) {
        (Beginning::U, 1) => "U, one",
        (Beginning::U, _) => "U, more",
        (Beginning::TBesideU, 1) => "T beside U, one",
        (Beginning::TBesideU, _) => "T beside U, more",
        (Beginning::T, 1) => "T, one",
        (Beginning::T, _) => "T, more",
    });
    counts.compare(name, outcome, &library, &reference, lent)
}

/// Half the diagrams get the least of some words as their root's, so that many are kept.
pub fn kept(random: &mut Random, counts: &mut OutcomeCounts) -> Compared {
    let mut lent = lent(random, FEW_LARGE);
    if random.percent(40) && reference::check(&lent.s0, &lent.s1, 1).is_ok() {
        let n = lent.s0.len();
        let word = |root: u64| reference::relabel(&lent.s0, &lent.s1, root, [n, n, n + 1]).map(|written| written.word);
        lent.root = (1..=n.min(60) as u64).min_by_key(|root| word(*root)).unwrap_or(1);
    }
    kept_of("kept", &lent, counts)
}

fn kept_of(name: &'static str, lent: &Diagram, counts: &mut OutcomeCounts) -> Compared {
    let library = kaldvemir::kept(&lent.s0, &lent.s1, lent.root).map_err(Refusal::number);
    let reference = reference::kept(&lent.s0, &lent.s1, lent.root);
    let outcome = outcome(&reference, |yes| match (beginning(lent), yes) {
        (Beginning::U, true) => "U, yes",
        (Beginning::U, false) => "U, no",
        (Beginning::TBesideU, true) => "T beside U, yes",
        (Beginning::TBesideU, false) => "T beside U, no",
        (Beginning::T, true) => "T, yes",
        (Beginning::T, false) => "T, no",
    });
    counts.compare(name, outcome, &library, &reference, lent)
}

/// Some of the diagrams have many cycles, so that their levels go up to 2^64 and past it.
pub fn invariants(random: &mut Random, counts: &mut OutcomeCounts) -> Compared {
    let diagram = if random.percent(20) { levels::chain(random) } else { any(random, EVERY) };
    let lent = damaged_or_not(random, diagram);
    let Diagram { s0, s1, root } = &lent;
    match reference::invariants(s0, s1, *root) {
        Ok(_) | Err(62) if levels::near_limit(&lent) => invariants_of("level near 2^64", "below", &lent, counts),
        _ => invariants_of("invariants", "accepted", &lent, counts),
    }
}

fn invariants_of(name: &'static str, kind: &'static str, lent: &Diagram, counts: &mut OutcomeCounts) -> Compared {
    let Diagram { s0, s1, root } = lent;
    let library = kaldvemir::invariants(s0, s1, *root).map_err(Refusal::number).map(|given| reference::Invariants {
        e2: given.e2.into(),
        e3: given.e3.into(),
        c: given.c.into(),
        t: given.t.into(),
        level: given.level,
    });
    let reference = reference::invariants(s0, s1, *root);
    counts.compare(name, outcome(&reference, |_| kind), &library, &reference, lent)
}

/// A diagram in parts in every operation on given diagrams. Whether it is connected may be found by the labelling itself, up to 64 edges, and by a
/// search above; either way 8 comes before 9, and before anything is written, so that relabel often gets short lists.
pub fn parts(random: &mut Random, counts: &mut OutcomeCounts) -> Compared {
    let n = match random.below(4) {
        0 => 2 + random.below(9),
        1 => 2 + random.below(63),
        2 => 62 + random.below(8),
        _ => 65 + random.below(140),
    };
    let lent = in_parts(random, n);
    let (name, compare) = match lent.s0.len() {
        0..=64 => ("parts up to 64", "compare parts up to 64"),
        _ => ("parts above 64", "compare parts above 64"),
    };
    let room = random.choose(&[lent.s0.len(), lent.s0.len() / 2]);
    let lists = Lists::any(random, room);
    relabel_of(name, "accepted", &lent, &lists, counts)?;
    check_of(name, &lent, counts)?;
    kept_of(name, &lent, counts)?;
    symmetries_of(name, &lent, counts)?;
    invariants_of(name, "accepted", &lent, counts)?;
    position_of(name, &lent, counts)?;
    let whole = grown(random, n);
    for both in [(lent.clone(), whole.clone()), (whole, lent.clone()), (lent.clone(), lent)] {
        compare_rooted_of(compare, &both, counts)?;
        compare_unrooted_of(compare, &both, counts)?;
    }
    Ok(())
}

/// Words with many labels pending, whose joins reach to one kind of place in the stack, and the diagrams that they spell, renamed: the ring may be walked
/// from its nearer end, and a place in it looked for from both.
pub fn tall(random: &mut Random, counts: &mut OutcomeCounts) -> Compared {
    let (word, reach) = tall_word(random);
    read_word_of("read tall word", reach, &word, random, counts)?;
    let Ok((s0, s1)) = reference::read_word(&word, [usize::MAX; 2]) else {
        return Ok(());
    };
    let lent = carried(random, &Diagram { s0, s1, root: 1 }).0;
    let lists = Lists::any(random, lent.s0.len());
    relabel_of("relabel tall", reach, &lent, &lists, counts)
}

pub fn read_word(random: &mut Random, counts: &mut OutcomeCounts) -> Compared {
    let word = any_word(random);
    read_word_of("read word", "accepted", &word, random, counts)
}

fn read_word_of(name: &'static str, kind: &'static str, word: &[u16], random: &mut Random, counts: &mut OutcomeCounts) -> Compared {
    let n = reference::read_word(word, [usize::MAX; 2]).map_or(random.below(30), |(s0, _)| s0.len());
    let rooms = [room(random, n), room(random, n)];
    let before = (random.list(rooms[0]), random.list(rooms[1]));
    let (mut s0, mut s1) = before.clone();
    let library = kaldvemir::read_word(word, &mut s0, &mut s1).map_err(Refusal::number);
    let reference = reference::read_word(word, rooms);
    let (size, after) = match &reference {
        Ok((t0, t1)) => (Ok(t0.len()), (overwritten(&before.0, t0), overwritten(&before.1, t1))),
        Err(number) => (Err(*number), before.clone()),
    };
    counts.compare(name, outcome(&reference, |_| kind), &(library, (s0, s1)), &(size, after), &(word, &before))
}

/// The list handed back is the very list that was lent, not only an equal one; both stand in one list, so that also empty ones are told apart.
pub fn lesser(random: &mut Random, counts: &mut OutcomeCounts) -> Compared {
    let (first, second) = pair(random);
    let both = [&first[..], &[0], &second[..]].concat();
    let (a, b) = (&both[..first.len()], &both[first.len() + 1..]);
    let given = kaldvemir::lesser(a, b);
    let library = (std::ptr::eq(given, a), std::ptr::eq(given, b));
    let second_is_less = reference::second_is_less(a, b);
    let outcome = Outcome::Accepted(if second_is_less { "second" } else { "first" });
    counts.compare("lesser", outcome, &library, &(!second_is_less, second_is_less), &(&first, &second))
}

pub fn letters(random: &mut Random, counts: &mut OutcomeCounts) -> Compared {
    let word = if random.percent(80) { any_word(random) } else { pair(random).0 };
    let length = reference::letters(&word, usize::MAX).map_or(random.below(30), |letters| letters.len());
    let room = room(random, length);
    let before: Vec<u8> = random.list(room).iter().map(|item| *item as u8).collect();
    let mut out = before.clone();
    let library = kaldvemir::letters(&word, &mut out).map_err(Refusal::number);
    let reference = reference::letters(&word, before.len());
    let (length, after) = match &reference {
        Ok(letters) => (Ok(letters.len()), overwritten(&before, letters)),
        Err(number) => (Err(*number), before.clone()),
    };
    counts.compare("letters", outcome(&reference, accepted), &(library, out), &(length, after), &(&word, &before))
}
