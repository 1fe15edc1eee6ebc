//! The labelling with its word, straight from 01's rules over a stack; relabel, symmetries and kept.
use crate::diagrams::{at, check};
use crate::{short, Rooms, Written};

/// The edges in the order of their labels, and the word, of a diagram that check accepts.
fn labelled(s0: &[u16], s1: &[u16], root: usize) -> (Vec<usize>, Vec<u16>) {
    let mut edges = vec![root];
    let mut given = vec![false; s0.len() + 1];
    let mut stack = vec![root];
    let mut word = vec![0];
    if at(s0, root) != root {
        word[0] = 1;
        edges.extend([at(s0, root), at(s0, at(s0, root))]);
        stack = edges.clone();
    }
    edges.iter().for_each(|edge| given[*edge] = true);
    while let Some(k) = stack.pop() {
        let p = at(s1, k);
        if p == k {
            word.push(0);
        } else if given[p] {
            let place = stack.iter().rposition(|edge| *edge == p).expect("a labelled partner is pending");
            word.push(3 + (stack.len() - 1 - place) as u16);
            stack.remove(place);
        } else if at(s0, p) != p {
            let (q, r) = (at(s0, p), at(s0, at(s0, p)));
            word.push(1);
            edges.extend([p, q, r]);
            [p, q, r].iter().for_each(|edge| given[*edge] = true);
            stack.extend([q, r]);
        } else {
            word.push(2);
            edges.push(p);
            given[p] = true;
        }
    }
    (edges, word)
}

/// The word of a rooting of a diagram that check accepts.
fn word_of(s0: &[u16], s1: &[u16], root: usize) -> Vec<u16> {
    labelled(s0, s1, root).1
}

/// A diagram that check accepts, in characteristic labelling, with its word.
pub(crate) fn characteristic(s0: &[u16], s1: &[u16], root: u64) -> Written {
    let (edges, word) = labelled(s0, s1, root as usize);
    let mut label = vec![0; s0.len() + 1];
    for (place, edge) in edges.iter().enumerate() {
        label[*edge] = place as u16 + 1;
    }
    let carried = |list: &[u16]| edges.iter().map(|edge| label[at(list, *edge)]).collect();
    Written { s0: carried(s0), s1: carried(s1), word }
}

/// Relabel: 1 to 8; 9.
pub fn relabel(s0: &[u16], s1: &[u16], root: u64, rooms: Rooms) -> Result<Written, u16> {
    check(s0, s1, root)?;
    if short(s0.len(), rooms) {
        return Err(9);
    }
    Ok(characteristic(s0, s1, root))
}

/// Symmetries, by the words of all rootings: 1 to 8.
pub fn symmetries(s0: &[u16], s1: &[u16], root: u64) -> Result<u64, u16> {
    check(s0, s1, root)?;
    let own = word_of(s0, s1, root as usize);
    Ok((1..=s0.len()).filter(|edge| word_of(s0, s1, *edge) == own).count() as u64)
}

/// Kept, by the least of the words of all rootings: 1 to 8.
pub fn kept(s0: &[u16], s1: &[u16], root: u64) -> Result<bool, u16> {
    check(s0, s1, root)?;
    let least = (1..=s0.len()).map(|edge| word_of(s0, s1, edge)).min();
    Ok(least == Some(word_of(s0, s1, root as usize)))
}
