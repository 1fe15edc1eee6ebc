//! Listed diagrams: count, kept count, diagram at a position, position, plain walk.
use crate::diagrams::{any, damage, Diagram, Mix};
use crate::given::{accepted, outcome};
use crate::lists::{overwritten, Lists};
use crate::random::Random;
use crate::outcomes::{Compared, OutcomeCounts};
use kaldvemir::Refusal;

/// A size, mostly from 1 to 50.
fn size(random: &mut Random) -> u64 {
    if random.percent(75) { random.between(1, 50) } else { random.near(&[0, 1, 50]) }
}

pub fn count(random: &mut Random, counts: &mut OutcomeCounts) -> Compared {
    let size = size(random);
    let library = kaldvemir::count(size).map_err(Refusal::number);
    let reference = reference::count(size);
    counts.compare("count", outcome(&reference, accepted), &library, &reference, &size)
}

/// The largest size whose kept count is asked for at random: the library counts by listing, so that a large size takes it long.
const SMALL: u64 = 10;

/// The kept count of a small size or of one outside 1 to 50.
pub fn kept_count(random: &mut Random, counts: &mut OutcomeCounts) -> Compared {
    let size = random.near(&[0, 3, 51]);
    if (SMALL..=50).contains(&size) || random.percent(50) {
        return kept_count_of(random.between(1, SMALL), counts);
    }
    kept_count_of(size, counts)
}

/// The kept count of a size.
pub fn kept_count_of(size: u64, counts: &mut OutcomeCounts) -> Compared {
    let library = kaldvemir::kept_count(size).map_err(Refusal::number);
    let reference = reference::kept_count(size);
    let kind = outcome(&reference, |_| if size <= SMALL { "small" } else { "larger" });
    counts.compare("kept count", kind, &library, &reference, &size)
}

pub fn diagram_at(random: &mut Random, counts: &mut OutcomeCounts) -> Compared {
    let size = size(random);
    let count = reference::count(size).unwrap_or(1000);
    let position = if random.percent(70) { random.between(1, count) } else { random.near(&[0, 1, count]) };
    let before = Lists::any(random, size.min(60) as usize);
    let mut lists = before.clone();
    let library = kaldvemir::diagram_at(size, position, &mut lists.s0, &mut lists.s1, &mut lists.word).map_err(Refusal::number);
    let reference = reference::diagram_at(size, position, before.rooms());
    let after = before.after(&reference.as_ref().map(Some));
    let length = reference.as_ref().map(|written| written.word.len()).map_err(|number| *number);
    counts.compare("diagram at", outcome(&reference, accepted), &(library, lists), &(length, after), &(size, position, &before))
}

pub fn position(random: &mut Random, counts: &mut OutcomeCounts) -> Compared {
    let mut lent = any(random, Mix { middling: 150, large: 10 });
    if random.percent(50) {
        damage(random, &mut lent);
    }
    position_of("position", &lent, counts)
}

pub fn position_of(name: &'static str, lent: &Diagram, counts: &mut OutcomeCounts) -> Compared {
    let Diagram { s0, s1, root } = lent;
    let library = kaldvemir::position(s0, s1, *root).map_err(Refusal::number);
    let reference = reference::position(s0, s1, *root);
    counts.compare(name, outcome(&reference, accepted), &library, &reference, lent)
}

pub fn plain_walk(random: &mut Random, counts: &mut OutcomeCounts) -> Compared {
    let size = if random.percent(80) { random.between(1, 9) } else { random.near(&[0, 1, 9]) };
    let room = match random.below(8) {
        0 => 1023,
        1 => random.below(1024),
        2 => 1024 + random.below(200),
        3 => 1025,
        _ => 1024,
    };
    let before = random.list(room);
    let mut words = before.clone();
    let library = kaldvemir::plain_walk(size, &mut words).map_err(Refusal::number);
    let reference = reference::plain_walk(size, room);
    let (length, after) = match &reference {
        Ok(written) => (Ok(written.len()), overwritten(&before, written)),
        Err(number) => (Err(*number), before.clone()),
    };
    counts.compare("plain walk", outcome(&reference, accepted), &(library, words), &(length, after), &(size, &before))
}
