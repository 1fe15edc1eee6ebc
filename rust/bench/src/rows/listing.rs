//! Listed diagrams: positions, keep marks and runs.
use super::{given, row};
use crate::random::{Diagram, Random};
use kaldvemir::{Run, Stepped, UptoRun};
use crate::table::count_of;
use crate::timing::{Column, Row};
use crate::{library, same, tuned};
use std::hint::black_box;
use std::rc::Rc;

/// How many steps a piece of work makes.
const STEPS: u64 = 200_000;

type DiagramAt = fn(u64, u64, &mut [u16], &mut [u16], &mut [u16]) -> Result<usize, u16>;
type Position = fn(&[u16], &[u16], u64) -> Result<u64, u16>;
type Kept = fn(&[u16], &[u16], u64) -> Result<bool, u16>;
type Step = fn(&mut Run, &mut [u16], &mut [u16], &mut [u16]) -> Result<usize, u16>;
type UptoStep = fn(&mut UptoRun, &mut [u16], &mut [u16], &mut [u16]) -> Result<Option<Stepped>, u16>;

pub fn diagram_at() -> Row {
    let mut random = Random(3);
    let total = count_of(50);
    let inputs: Rc<Vec<u64>> = Rc::new((0..1000).map(|_| 1 + random.below(total)).collect());
    let work = |f: DiagramAt| {
        let inputs = inputs.clone();
        let (mut s0, mut s1, mut word) = ([0; 50], [0; 50], [0; 51]);
        move || {
            let mut sum = 0;
            for &position in inputs.iter() {
                sum += f(50, black_box(position), &mut s0, &mut s1, &mut word).unwrap();
                sum += black_box(&s1)[30] as usize;
            }
            sum as u64
        }
    };
    row(1000, work(library::diagram_at), work(same::positions::diagram_at), work(tuned::positions::diagram_at))
}

pub fn position() -> Row {
    let inputs = given::listed(1000);
    let work = |f: Position| {
        let inputs = inputs.clone();
        move || inputs.iter().fold(0u64, |sum, d| sum.wrapping_add(f(black_box(&d.s0), &d.s1, d.root).unwrap()))
    };
    row(1000, work(library::position), work(same::positions::position), work(tuned::positions::position))
}

fn at(size: usize, position: u64) -> Diagram {
    let mut d = Diagram { s0: vec![0; size], s1: vec![0; size], root: 1 };
    tuned::positions::diagram_at(size as u64, position, &mut d.s0, &mut d.s1, &mut vec![0; size + 1]).unwrap();
    d
}

fn kept(inputs: Vec<Diagram>) -> Row {
    let inputs = Rc::new(inputs);
    let work = |f: Kept| {
        let inputs = inputs.clone();
        move || inputs.iter().map(|d| f(black_box(&d.s0), &d.s1, d.root).unwrap() as u64).sum()
    };
    let calls = inputs.len() as u64;
    row(calls, work(library::kept), work(same::labelling::kept), work(tuned::labelling::kept))
}

pub fn kept_stretch() -> Row {
    kept((0..10_000).map(|i| at(24, 700_000 + i)).collect())
}

pub fn kept_random() -> Row {
    let mut random = Random(4);
    let total = count_of(24);
    kept((0..10_000).map(|_| at(24, 1 + random.below(total))).collect())
}

/// A run at a position.
pub fn run_at(size: usize, position: u64) -> Run {
    let mut items = [0; 51];
    let (mut s0, mut s1) = ([0; 50], [0; 50]);
    let length = tuned::positions::diagram_at(size as u64, position, &mut s0, &mut s1, &mut items).unwrap();
    Run { size: size as u16, stage: 1, length: length as u16, items }
}

pub fn steps() -> Row {
    let start = run_at(25, 2_000_000);
    let work = |f: Step| {
        let start = start.clone();
        let (mut s0, mut s1, mut word) = ([0; 25], [0; 25], [0; 26]);
        move || {
            let mut run = start.clone();
            let mut sum = 0;
            for _ in 0..STEPS {
                sum += f(&mut run, &mut s0, &mut s1, &mut word).unwrap() + black_box(&s1)[12] as usize;
            }
            sum as u64
        }
    };
    row(STEPS, work(library::step), work(same::run::step), work(tuned::run::step))
}

/// A run through all sizes up to a bound, at a word of one of them.
pub fn upto_run_at(bound: usize, size: usize, position: u64) -> UptoRun {
    let Run { stage, length, items, .. } = run_at(size, position);
    UptoRun { bound: bound as u16, stage, length, items, visits: same::upto::visits_of(&items[..length as usize], bound) }
}

/// Where the steps through all sizes up to 25 begin: at the diagram of size 25 where the steps of that size do.
fn upto_start() -> UptoRun {
    upto_run_at(25, 25, 2_000_000)
}

/// Steps of a run through all sizes up to 25, and a sum over what each gives and writes.
fn upto_work(f: UptoStep, sum: fn(Stepped, &[u16]) -> u64) -> impl FnMut() -> u64 {
    let (mut s0, mut s1, mut word) = ([0; 25], [0; 25], [0; 26]);
    move || {
        let mut run = upto_start();
        (0..STEPS).fold(0, |total: u64, _| {
            let stepped = f(&mut run, &mut s0, &mut s1, &mut word).unwrap().unwrap();
            total.wrapping_add(sum(stepped, black_box(&s1)))
        })
    }
}

pub fn upto_steps() -> Row {
    let sum = |stepped: Stepped, s1: &[u16]| stepped.length as u64 + stepped.visits + s1[stepped.size / 2] as u64;
    row(STEPS, upto_work(library::upto_step, sum), upto_work(same::upto::step, sum), upto_work(tuned::upto::step, sum))
}

/// The library's step through all sizes beside its own step of one size, from the same diagram on. The two give different diagrams, so the sums are
/// those of the steps.
pub fn upto_steps_to_steps() -> Row {
    let start = run_at(25, 2_000_000);
    let (mut s0, mut s1, mut word) = ([0; 25], [0; 25], [0; 26]);
    let plain = move || {
        let mut run = start.clone();
        (0..STEPS).map(|_| (library::step(&mut run, &mut s0, &mut s1, &mut word).unwrap() != 0 && black_box(&s1)[0] != 0) as u64).sum()
    };
    Row::new(STEPS, upto_work(library::upto_step, |_, s1| (s1[0] != 0) as u64)).beside(Column::Other, plain)
}

/// What the test of the visits costs, which condition 34 asks for and the step of one size has not: counting them, on its own, for the words that the
/// steps come to, beside those steps, both in plain Rust: about a seventh of a step. For information; neither side is the library's.
pub fn visit_tests() -> Row {
    let (mut run, mut s0, mut s1, mut word) = (upto_start(), [0; 25], [0; 25], [0; 26]);
    let words: Vec<Vec<u16>> = (0..STEPS)
        .map(|_| {
            let stepped = same::upto::step(&mut run, &mut s0, &mut s1, &mut word).unwrap().unwrap();
            word[..stepped.length].to_vec()
        })
        .collect();
    let counts = move || words.iter().fold(0, |sum: u64, word| sum.wrapping_add(same::upto::visits_of(black_box(word), 25)));
    Row::new(STEPS, counts).beside(Column::Other, upto_work(same::upto::step, |stepped, _| stepped.visits))
}
