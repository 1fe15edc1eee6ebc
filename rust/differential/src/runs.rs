//! Runs: beginnings, steps from any place, damaged runs, and whole runs to the end.
use crate::given::{accepted, outcome};
use crate::lists::Lists;
use crate::outcomes::{Compared, Difference, OutcomeCounts};
use crate::random::Random;
use kaldvemir::Refusal;
use reference::{Run, Written};
use std::sync::OnceLock;

pub fn library_run(run: &Run) -> kaldvemir::Run {
    kaldvemir::Run { size: run.size, stage: run.stage, length: run.length, items: run.items }
}

pub fn reference_run(run: &kaldvemir::Run) -> Run {
    Run { size: run.size, stage: run.stage, length: run.length, items: run.items }
}

pub fn begin(random: &mut Random, counts: &mut OutcomeCounts) -> Compared {
    let size = if random.percent(70) { random.between(1, 50) } else { random.near(&[0, 1, 50]) };
    let library = kaldvemir::Run::begin(size).map_err(Refusal::number).map(|run| reference_run(&run));
    let reference = Run::begin(size);
    counts.compare("begin", outcome(&reference, accepted), &library, &reference, &size)
}

/// A beginning at a position, often near the ends of the listing, and a few steps of an accepted one.
pub fn begin_at(random: &mut Random, counts: &mut OutcomeCounts) -> Compared {
    let size = if random.percent(85) { random.between(1, 50) } else { random.near(&[0, 1, 50]) };
    let count = reference::count(size).unwrap_or(1000);
    let position = if random.percent(50) { random.between(0, count) } else { random.near(&[0, 1, count]) };
    let library = kaldvemir::Run::begin_at(size, position).map_err(Refusal::number).map(|run| reference_run(&run));
    let reference = Run::begin_at(size, position);
    let kind = outcome(&reference, |run| if run.stage == 0 { "fresh" } else { "at a diagram" });
    counts.compare("begin at", kind, &library, &reference, &(size, position))?;
    if let Ok(mut run) = reference {
        for _ in 0..random.below(3) {
            let lists = Lists::any(random, run.size.into());
            step(&mut run, &lists, counts)?;
        }
    }
    Ok(())
}

/// One step of both from the same run: compares the answers, the runs and the lists after it, and returns what an accepted step answered.
fn step(run: &mut Run, before: &Lists, counts: &mut OutcomeCounts) -> Result<Option<Option<Written>>, Box<Difference>> {
    let input = (run.clone(), before);
    let (mut other, mut lists) = (library_run(run), before.clone());
    let library = other.step(&mut lists.s0, &mut lists.s1, &mut lists.word).map_err(Refusal::number);
    let reference = run.step(before.rooms());
    let after = before.after(&reference.as_ref().map(Option::as_ref));
    let length = reference.as_ref().map(|written| written.as_ref().map(|written| written.word.len())).map_err(|number| *number);
    let kind = outcome(&reference, |written| if written.is_some() { "diagram" } else { "end" });
    counts.compare("step", kind, &(library, reference_run(&other), lists), &(length, run.clone(), after), &input)?;
    Ok(reference.ok())
}

/// A few steps from anywhere, with damage now and then; a damaged run that is still valid goes on.
pub fn steps(random: &mut Random, counts: &mut OutcomeCounts) -> Compared {
    let mut run = anywhere(random, 40);
    for _ in 0..1 + random.below(6) {
        if random.percent(25) {
            damage(random, &mut run);
        }
        let lists = Lists::any(random, run.size.min(60).into());
        step(&mut run, &lists, counts)?;
    }
    Ok(())
}

/// How many words of a size begin with U; they come first.
fn single_roots(size: u16) -> u64 {
    static FOUND: [OnceLock<u64>; 51] = [const { OnceLock::new() }; 51];
    *FOUND[usize::from(size)].get_or_init(|| {
        let begins_with_t = |position| reference::diagram_at(size.into(), position, [50, 50, 51]).expect("a position in range").word[0] == 1;
        let (mut low, mut high) = (0, reference::count(size.into()).expect("a size in range"));
        while low < high {
            let middle = low + (high - low).div_ceil(2);
            if begins_with_t(middle) { high = middle - 1 } else { low = middle }
        }
        low
    })
}

/// A valid run: fresh, finished, or at a diagram; often near the ends of the listing or where U gives way to T, and of a size up to 9 in so many of a
/// hundred cases.
pub fn anywhere(random: &mut Random, small: usize) -> Run {
    let size = if random.percent(small) { random.between(1, 9) } else { random.between(1, 50) } as u16;
    let count = reference::count(size.into()).expect("a size in range");
    let position = match random.below(11) {
        0 => return Run { size, stage: 0, length: 0, items: [0; 51] },
        1 => return Run { size, stage: 2, length: 0, items: [0; 51] },
        2 => 1,
        3 => count,
        4 => count.saturating_sub(random.between(0, 4)).max(1),
        5 => (single_roots(size) + random.between(0, 1)).saturating_sub(random.between(0, 4)).clamp(1, count),
        _ => random.between(1, count),
    };
    Run::at(size, position)
}

pub fn damage(random: &mut Random, run: &mut Run) {
    let used = usize::from(run.length).min(50);
    match random.below(8) {
        0 => run.size = random.near(&[0, 50, run.size.into()]) as u16,
        1 => run.stage = random.near(&[0, 1, 2]) as u16,
        2 => run.length = random.near(&[0, 50, run.length.into()]) as u16,
        3 => run.items[used] = random.near(&[0, 1]) as u16,
        4 => run.items[random.below(51)] = random.below(6) as u16,
        5 => run.items[random.below(51)] = random.near(&[0, 3]) as u16,
        6 => run.items[random.below(used + 1)] = random.below(8) as u16,
        // The item that ends the word lies outside it, or one more is in it.
        _ => run.length = run.length.wrapping_add(random.choose(&[1, u16::MAX])),
    }
}

/// A whole run of a size against the listing, with refused steps and steps of damaged copies in between, and to "end" more than once.
pub fn whole(size: u16, random: &mut Random, counts: &mut OutcomeCounts) -> Compared {
    let n = usize::from(size);
    let mut run = Run::begin(size.into()).expect("a size in range");
    let mut given = vec![];
    let mut ends = 0;
    while ends < 3 {
        if random.percent(30) {
            let mut copy = run.clone();
            damage(random, &mut copy);
            let lists = Lists::any(random, n);
            step(&mut copy, &lists, counts)?;
        }
        let lists = Lists::any(random, n);
        match step(&mut run, &lists, counts)? {
            Some(Some(written)) => given.push(written.word),
            Some(None) => ends += 1,
            None => (),
        }
    }
    let listing = reference::all_words(n);
    if given != listing {
        let (library, reference) = (format!("{given:?}"), format!("{listing:?}"));
        return Err(Box::new(Difference { operation: "step", input: format!("a whole run of size {size}"), library, reference }));
    }
    Ok(())
}
