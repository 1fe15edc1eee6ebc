//! Sheets of words: good cells and damaged ones among them, sheets that end within a cell, and lists of any length. The sheets are the inputs that
//! are counted to a run's number; their cells are counted beside them, by their own answers.
use crate::given::outcome;
use crate::lists::{overwritten, room, word};
use crate::outcomes::{Compared, Outcome, OutcomeCounts};
use crate::random::Random;
use kaldvemir::{Refusal, CELL};
use reference::CellAnswers;

/// The output lists, with anything in them.
#[derive(Clone, Debug, PartialEq)]
struct Lists {
    refusals: Vec<u16>,
    positions: Vec<u64>,
}

impl Lists {
    fn any(random: &mut Random, cells: usize) -> Lists {
        let rooms = [room(random, cells), room(random, cells)];
        Lists { refusals: random.list(rooms[0]), positions: (0..rooms[1]).map(|_| random.bits()).collect() }
    }

    fn rooms(&self) -> [usize; 2] {
        [self.refusals.len(), self.positions.len()]
    }

    /// The lists with answers in their first places.
    fn with(&self, CellAnswers { refusals, positions }: &CellAnswers) -> Lists {
        Lists { refusals: overwritten(&self.refusals, refusals), positions: overwritten(&self.positions, positions) }
    }
}

pub fn sheet_positions(random: &mut Random, counts: &mut OutcomeCounts) -> Compared {
    let sheet = any_sheet(random);
    let before = Lists::any(random, sheet.len() / CELL);
    let mut lists = before.clone();
    let library = kaldvemir::sheet_positions(&sheet, &mut lists.refusals, &mut lists.positions).map_err(Refusal::number);
    let reference = reference::sheet_positions(&sheet, before.rooms());
    let after = reference.as_ref().map_or_else(|_| before.clone(), |answers| before.with(answers));
    let kind = outcome(&reference, |answers| match answers.refusals.len() {
        0 if before.rooms() == [0, 0] => "empty without room",
        0 => "empty",
        _ => "cells",
    });
    let answer = reference.as_ref().map(|_| ()).map_err(|number| *number);
    counts.compare("sheet positions", kind, &(library, &lists), &(answer, &after), &(&sheet, &before))?;
    reference.map_or(Ok(()), |answers| count_cells(&sheet, &lists, &answers, counts))
}

/// Compares the pair of each cell, so that its outcome is counted.
fn count_cells(sheet: &[u16], lists: &Lists, answers: &CellAnswers, counts: &mut OutcomeCounts) -> Compared {
    for (place, cell) in sheet.chunks_exact(CELL).enumerate() {
        let library = (lists.refusals[place], lists.positions[place]);
        let reference = (answers.refusals[place], answers.positions[place]);
        let outcome = if reference.0 == 0 { Outcome::Accepted("position") } else { Outcome::Refused(0, reference.0) };
        counts.compare("cell of a sheet", outcome, &library, &reference, &cell)?;
    }
    Ok(())
}

/// A sheet, mostly of a few cells, now and then of some hundred, with few damaged ones or many, and sometimes with a length that is no multiple of a
/// cell's.
fn any_sheet(random: &mut Random) -> Vec<u16> {
    let cells = match random.below(200) {
        0..=9 => 0,
        10..=119 => 1 + random.below(4),
        120..=193 => 5 + random.below(12),
        _ => 17 + random.below(284),
    };
    let damaged = random.choose(&[0, 10, 30, 80]);
    let mut sheet: Vec<u16> = (0..cells).flat_map(|_| any_cell(random, damaged)).collect();
    if random.percent(6) {
        let less = if random.percent(40) { 1 } else { random.below(2 * CELL) };
        sheet.truncate(sheet.len().saturating_sub(less));
    } else if random.percent(6) {
        let more = if random.percent(40) { 1 } else { random.below(2 * CELL) };
        sheet.extend((0..more).map(|_| random.below(3) as u16));
    }
    sheet
}

/// A cell with a word, in so many of a hundred cases damaged.
fn any_cell(random: &mut Random, damaged: usize) -> [u16; CELL] {
    let mut items = any_items(random);
    items.truncate(CELL - 1);
    let mut cell = cell(&items);
    if random.percent(damaged) {
        for _ in 0..1 + random.weighted(&[6, 3, 1]) {
            damage(random, &mut cell);
        }
    }
    cell
}

/// At most 51 items as a cell.
fn cell(items: &[u16]) -> [u16; CELL] {
    let mut cell = [0; CELL];
    cell[0] = items.len() as u16;
    cell[1..=items.len()].copy_from_slice(items);
    cell
}

/// Words of 1 to 50 edges, and of more than that, as far as a cell holds them; now and then a beginning of one, items of any kind, or none.
fn any_items(random: &mut Random) -> Vec<u16> {
    let n = match random.below(20) {
        0 => return wide(random),
        1 => return few(random),
        2 => 48 + random.below(6),
        3 => 51 + random.below(30),
        4..=11 => 1 + random.below(9),
        _ => 1 + random.below(50),
    };
    let mut items = word(random, n);
    if random.percent(4) {
        items.truncate(random.below(items.len()));
    }
    items
}

/// A word of many edges in few items, up to 100 in 51: forks, at most one join, and then mostly single edges.
fn wide(random: &mut Random) -> Vec<u16> {
    let forks = 8 + random.below(17);
    let (mut items, mut height) = (vec![1; 1 + forks], 3 + forks);
    if forks == 24 || random.percent(50) {
        items.push(3 + random.below(height - 1) as u16);
        height -= 2;
    }
    let singles = random.choose(&[50, 90, 100]);
    items.extend((0..height).map(|_| if random.percent(singles) { 2 } else { 0 }));
    items
}

/// Some items of any kind, mostly small, or none.
fn few(random: &mut Random) -> Vec<u16> {
    let length = random.below(CELL);
    let length = random.choose(&[0, 1, 2, 3, length]);
    (0..length).map(|_| if random.percent(95) { random.below(5) as u16 } else { random.bits() as u16 }).collect()
}

/// Alters the length, an item or the tail.
fn damage(random: &mut Random, cell: &mut [u16; CELL]) {
    let length = usize::from(cell[0]).min(CELL - 1);
    match random.below(10) {
        0 => cell[0] = cell[0].wrapping_add(1),
        1 => cell[0] = cell[0].wrapping_sub(1),
        2 => cell[0] = random.below(60) as u16,
        3 => cell[0] = random.near(&[0, 51, 52, cell[0].into()]) as u16,
        4 | 5 if length > 0 => cell[1 + random.below(length)] = item(random),
        // A number in the tail, often in its last place or its first.
        6 if length + 1 < CELL => {
            let any = length + 1 + random.below(CELL - 1 - length);
            cell[random.choose(&[length + 1, any, CELL - 1])] = item(random);
        }
        // One item more.
        7 if length + 1 < CELL => {
            cell[length + 1] = item(random);
            cell[0] = length as u16 + 1;
        }
        // A beginning of the word, with nothing left behind it.
        8 => {
            let length = random.below(length + 1);
            cell[0] = length as u16;
            cell[length + 1..].fill(0);
        }
        9 if random.percent(30) => *cell = [0; CELL],
        _ => cell[random.below(CELL)] = item(random),
    }
}

fn item(random: &mut Random) -> u16 {
    if random.percent(80) { random.below(6) as u16 } else { random.near(&[0, 3, 65_535]) as u16 }
}
