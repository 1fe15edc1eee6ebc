//! Given diagrams: 1,024 edges, and 50.
use super::row;
use crate::{same, tuned};
use crate::random::{Diagram, Random};
use crate::table::count_of;
use crate::timing::Row;
use crate::library;
use kaldvemir::Invariants;
use std::hint::black_box;
use std::rc::Rc;

const LARGE: usize = 1024;

pub fn large(count: usize) -> Rc<Vec<Diagram>> {
    let mut random = Random(1);
    Rc::new((0..count).map(|_| random.diagram(LARGE)).collect())
}

/// Random diagrams of the list of 50, their edges numbered anew.
pub fn listed(count: usize) -> Rc<Vec<Diagram>> {
    let mut random = Random(2);
    let total = count_of(50);
    let drawn = (0..count).map(|_| {
        let mut d = Diagram { s0: vec![0; 50], s1: vec![0; 50], root: 1 };
        tuned::positions::diagram_at(50, 1 + random.below(total), &mut d.s0, &mut d.s1, &mut [0; 51]).unwrap();
        random.renumbered(&d)
    });
    Rc::new(drawn.collect())
}

type Check = fn(&[u16], &[u16], u64) -> Result<(), u16>;
type Relabel = fn(&[u16], &[u16], u64, &mut [u16], &mut [u16], &mut [u16]) -> Result<usize, u16>;
type Measure = fn(&[u16], &[u16], u64) -> Result<Invariants, u16>;
type ReadWord = fn(&[u16], &mut [u16], &mut [u16]) -> Result<usize, u16>;

pub fn check() -> Row {
    let inputs = large(64);
    let work = |f: Check| {
        let inputs = inputs.clone();
        move || inputs.iter().map(|d| f(black_box(&d.s0), &d.s1, d.root).is_ok() as u64).sum()
    };
    row(64, work(library::check), work(same::check::check), work(tuned::check::check))
}

/// Diagrams of some 650 edges with up to 18 cycles.
pub fn invariants() -> Row {
    let mut random = Random(3);
    let inputs: Rc<Vec<Diagram>> = Rc::new((0..64).map(|_| random.chain()).collect());
    let work = |f: Measure| {
        let inputs = inputs.clone();
        move || inputs.iter().map(|d| f(black_box(&d.s0), &d.s1, d.root).map_or(0, |x| x.level >> 16)).sum()
    };
    row(64, work(library::invariants), work(same::invariants::invariants), work(tuned::invariants::invariants))
}

pub fn relabel(inputs: Rc<Vec<Diagram>>) -> Row {
    let n = inputs[0].s0.len();
    let work = |f: Relabel| {
        let inputs = inputs.clone();
        let (mut t0, mut t1, mut word) = (vec![0; n], vec![0; n], vec![0; n + 1]);
        move || {
            let mut sum = 0;
            for d in inputs.iter() {
                sum += f(black_box(&d.s0), &d.s1, d.root, &mut t0, &mut t1, &mut word).unwrap();
                sum += black_box(&t1)[n / 2] as usize;
            }
            sum as u64
        }
    };
    let calls = inputs.len() as u64;
    row(calls, work(library::relabel), work(same::labelling::relabel), work(tuned::labelling::relabel))
}

pub fn words(inputs: &[Diagram]) -> Vec<Vec<u16>> {
    let word = |d: &Diagram| {
        let n = d.s0.len();
        let mut word = vec![0; n + 1];
        let length = tuned::labelling::relabel(&d.s0, &d.s1, d.root, &mut vec![0; n], &mut vec![0; n], &mut word).unwrap();
        word.truncate(length);
        word
    };
    inputs.iter().map(word).collect()
}

pub fn read_word() -> Row {
    let inputs = Rc::new(words(&large(64)));
    let work = |f: ReadWord| {
        let inputs = inputs.clone();
        let (mut s0, mut s1) = (vec![0; LARGE], vec![0; LARGE]);
        move || {
            let mut sum = 0;
            for word in inputs.iter() {
                sum += f(black_box(word), &mut s0, &mut s1).unwrap();
                sum += black_box(&s1)[LARGE / 2] as usize;
            }
            sum as u64
        }
    };
    row(64, work(library::read_word), work(same::reading::read_word), work(tuned::reading::read_word))
}
