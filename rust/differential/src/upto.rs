//! Runs through all sizes up to a bound: beginnings, steps from any place, damaged runs, wrong visits, and whole runs to the end.
use crate::given::{accepted, outcome};
use crate::lists::{word, Lists};
use crate::outcomes::{Compared, Difference, OutcomeCounts};
use crate::random::Random;
use crate::runs;
use kaldvemir::{Refusal, Stepped};
use reference::{Rooms, Run, UptoRun, Written};

/// Lists that are long enough for every listed size.
const ROOMY: Rooms = [50, 50, 51];

fn library_run(UptoRun { run, visits }: &UptoRun) -> kaldvemir::UptoRun {
    kaldvemir::UptoRun { bound: run.size, stage: run.stage, length: run.length, items: run.items, visits: *visits }
}

fn reference_run(run: &kaldvemir::UptoRun) -> UptoRun {
    UptoRun { run: Run { size: run.bound, stage: run.stage, length: run.length, items: run.items }, visits: run.visits }
}

pub fn begin(random: &mut Random, counts: &mut OutcomeCounts) -> Compared {
    let bound = if random.percent(70) { random.between(0, 60) } else { random.near(&[0, 1, 50]) };
    let library = kaldvemir::UptoRun::begin(bound).map_err(Refusal::number).map(|run| reference_run(&run));
    let reference = UptoRun::begin(bound);
    counts.compare("upto begin", outcome(&reference, accepted), &library, &reference, &bound)
}

/// One step of both from the same run: compares the answers, the runs and the lists after it, and returns what an accepted step answered.
fn step(
    operation: &'static str, run: &mut UptoRun, random: &mut Random, counts: &mut OutcomeCounts,
) -> Result<Option<Option<Written>>, Box<Difference>> {
    // Lists for the diagram that comes, or of any length where none does.
    let comes = run.clone().step(ROOMY);
    let n = if let Ok(Some(written)) = comes { written.s0.len() } else { random.below(5) };
    let before = Lists::any(random, n);
    let input = (run.clone(), &before);
    let (mut other, mut lists) = (library_run(run), before.clone());
    let library = other.step(&mut lists.s0, &mut lists.s1, &mut lists.word).map_err(Refusal::number);
    let reference = run.step(before.rooms());
    let after = before.after(&reference.as_ref().map(Option::as_ref));
    let stepped = |written: &Written| Stepped { size: written.s0.len(), length: written.word.len(), visits: run.visits };
    let told = reference.as_ref().map(|written| written.as_ref().map(stepped)).map_err(|number| *number);
    let roomless = before.s0.is_empty() || before.s1.is_empty() || before.word.len() < 2;
    let kind = outcome(&reference, |written| match written {
        Some(_) => "diagram",
        None if roomless => "end without room",
        None => "end",
    });
    counts.compare(operation, kind, &(library, reference_run(&other), lists), &(told, run.clone(), after), &input)?;
    Ok(reference.ok())
}

/// A few steps from anywhere, and in between steps of copies that are damaged, or whose visits are.
pub fn steps(random: &mut Random, counts: &mut OutcomeCounts) -> Compared {
    let mut run = anywhere(random);
    for _ in 0..1 + random.below(6) {
        damaged_step(&run, random, counts)?;
        step("upto step", &mut run, random, counts)?;
    }
    Ok(())
}

/// A valid run: fresh, finished, or at a diagram; often near the end of the list, and of a bound up to 9 or of 25 or 50 in many cases.
fn anywhere(random: &mut Random) -> UptoRun {
    let bound = match random.below(10) {
        0..=3 => random.between(1, 9),
        4 => 25,
        5 => 50,
        _ => random.between(1, 50),
    };
    let at = |word: &[u16]| UptoRun::at(bound as u16, word);
    match random.below(10) {
        0 => UptoRun::begin(bound).expect("a bound in range"),
        1 => UptoRun::finished(bound as u16),
        2 => at(&late_word(random, bound as usize, 3)),
        3..=5 => at(&late_word(random, bound as usize, 30)),
        // One of its size's list, any of them as likely, or one with a texture of its own.
        6 | 7 => {
            let size = random.between(1, bound);
            let position = random.between(1, reference::count(size).expect("a size in range"));
            at(&reference::diagram_at(size, position, ROOMY).expect("a position in range").word)
        }
        _ => {
            let size = random.between(1, bound) as usize;
            at(&word(random, size))
        }
    }
}

/// A word of a size up to the bound, whose items from one of the first places on, so many of them, are the greatest that can stand there: the item
/// before these is often the one that a step raises. With few such places the word is near the end of the list.
fn late_word(random: &mut Random, bound: usize, places: usize) -> Vec<u16> {
    let (late, forks) = (random.below(places), random.choose(&[20, 50, 80, 95]));
    let triple = bound >= 3 && (late == 0 || random.percent(70));
    let (mut word, mut height, mut free) = if triple { (vec![1], 3, bound - 3) } else { (vec![0], 1, bound - 1) };
    while height > 0 {
        let greatest = match (height, free) {
            (2.., _) => height + 1,
            (_, 1..) => 2,
            _ => 0,
        };
        let item = match word.len() {
            length if length > late => greatest,
            _ if free >= 3 && random.percent(forks) => 1,
            _ => random.below(greatest + 1),
        };
        match item {
            1 if free < 3 => continue,
            2 if free < 1 => continue,
            1 => (height, free) = (height + 1, free - 3),
            2 => (height, free) = (height - 1, free - 1),
            0 => height -= 1,
            _ => height -= 2,
        }
        word.push(item as u16);
    }
    word
}

/// Now and then a step of a copy of a valid run that is damaged, or of one that has wrong visits.
fn damaged_step(run: &UptoRun, random: &mut Random, counts: &mut OutcomeCounts) -> Compared {
    let mut copy = run.clone();
    match random.below(8) {
        0 | 1 => runs::damage(random, &mut copy.run),
        2 => {
            runs::damage(random, &mut copy.run);
            damage_visits(random, &mut copy);
        }
        3 => damage_visits(random, &mut copy),
        // Another stage, with the word or without it and with the visits of any.
        4 => {
            copy.visits = random.choose(&[0, run.visits, UptoRun::finished(run.run.size).visits]);
            copy.run.stage = random.below(3) as u16;
            if random.percent(50) {
                copy.run = Run { length: 0, items: [0; 51], ..copy.run };
            }
        }
        _ => return Ok(()),
    }
    let operation = if copy.run == run.run && copy.visits != run.visits { "wrong visits" } else { "upto step" };
    step(operation, &mut copy, random, counts)?;
    Ok(())
}

/// Visits near the right ones, those of a fresh or a finished run, or any.
fn damage_visits(random: &mut Random, run: &mut UptoRun) {
    let last = UptoRun::finished(run.run.size.clamp(1, 50)).visits;
    run.visits = random.near(&[0, 1, run.visits, run.visits, last]);
}

/// A whole run of a bound against the list, with refused steps and steps of damaged copies in between, and to "end" more than once.
pub fn whole(bound: u16, random: &mut Random, counts: &mut OutcomeCounts) -> Compared {
    let mut run = UptoRun::begin(bound.into()).expect("a bound in range");
    let mut given = vec![];
    let mut ends = 0;
    while ends < 3 {
        damaged_step(&run, random, counts)?;
        match step("upto step", &mut run, random, counts)? {
            Some(Some(written)) => given.push((written.word, run.visits)),
            Some(None) => ends += 1,
            None => (),
        }
    }
    let list = reference::list_upto(bound.into());
    if given != list {
        let (library, reference) = (format!("{given:?}"), format!("{list:?}"));
        return Err(Box::new(Difference { operation: "upto step", input: format!("a whole run of bound {bound}"), library, reference }));
    }
    Ok(())
}
