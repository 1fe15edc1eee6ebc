//! The words of a size, or of all sizes up to a bound: all of a size by plain recursion, and counts and positions by a table of the ways to end.
use crate::diagrams::check;
use crate::labelling::characteristic;
use crate::words::spelled;
use crate::{short, Rooms, Written};
use std::sync::OnceLock;

/// A word in the making: how many edges are pending, and how many labels are free.
#[derive(Clone, Copy)]
pub(crate) struct State {
    pub(crate) height: usize,
    pub(crate) free: usize,
}

/// The first items that a size allows, in order, each with the state after it.
pub(crate) fn beginnings(n: usize) -> Vec<(u16, State)> {
    let mut choices = vec![(0, State { height: 1, free: n - 1 })];
    if n >= 3 {
        choices.push((1, State { height: 3, free: n - 3 }));
    }
    choices
}

/// The kinds of items that a state with an edge pending allows, in order: the least item of the kind, how many there are, and the state after each.
pub(crate) fn kinds(State { height, free }: State) -> impl Iterator<Item = (u16, usize, State)> {
    let left = height - 1;
    let kinds = [
        Some((0, 1, State { height: left, free })),
        (free >= 3).then(|| (1, 1, State { height: left + 2, free: free - 3 })),
        (free >= 1).then(|| (2, 1, State { height: left, free: free - 1 })),
        (left >= 1).then(|| (3, left, State { height: left - 1, free })),
    ];
    kinds.into_iter().flatten()
}

/// The items that a state allows, in order, each with the state after it; none where no edge is pending.
pub(crate) fn events(state: State) -> Vec<(u16, State)> {
    if state.height == 0 {
        return vec![];
    }
    kinds(state).flat_map(|(least, times, after)| (0..times).map(move |more| (least + more as u16, after))).collect()
}

/// All words of size n in dictionary order: every choice at every item, and the words that end with labels free dropped at their end.
pub fn all_words(n: usize) -> Vec<Vec<u16>> {
    fn go_on(word: &mut Vec<u16>, state: State, found: &mut Vec<Vec<u16>>) {
        if state.height == 0 {
            if state.free == 0 {
                found.push(word.clone());
            }
            return;
        }
        for (item, after) in events(state) {
            word.push(item);
            go_on(word, after, found);
            word.pop();
        }
    }
    let mut found = vec![];
    for (item, after) in beginnings(n) {
        go_on(&mut vec![item], after, &mut found);
    }
    found
}

/// In how many ways a state can be ended with no label free: by the first event, for every state that sizes to 50 can meet.
fn ways(State { height, free }: State) -> u128 {
    static TABLE: OnceLock<Vec<Vec<u128>>> = OnceLock::new();
    let table = TABLE.get_or_init(|| {
        let mut table: Vec<Vec<u128>> = vec![];
        for free in 0..50_usize {
            // F goes to a row 3 before, one place to the right.
            let mut row = vec![u128::from(free == 0)];
            for height in 1..=20 + (50 - free) / 3 {
                let mut sum = row[height - 1];
                if free >= 3 {
                    sum += table[free - 3][height + 1];
                }
                if free >= 1 {
                    sum += table[free - 1][height - 1];
                }
                if height >= 2 {
                    sum += (height as u128 - 1) * row[height - 2];
                }
                row.push(sum);
            }
            table.push(row);
        }
        table
    });
    table[free][height]
}

/// In how many ways a state can be ended, whatever labels are left free.
fn ways_upto(State { height, free }: State) -> u128 {
    (0..=free).map(|used| ways(State { height, free: used })).sum()
}

/// A list of words in dictionary order: those of a size, or those of all sizes up to a bound.
#[derive(Clone, Copy)]
pub(crate) struct Words {
    /// The size or the bound, 1 to 50.
    labels: usize,
    /// In how many ways a state can be ended.
    ways: fn(State) -> u128,
}

impl Words {
    pub(crate) fn of_size(n: usize) -> Words {
        Words { labels: n, ways }
    }

    pub(crate) fn upto(n: usize) -> Words {
        Words { labels: n, ways: ways_upto }
    }

    /// How many there are.
    pub(crate) fn count(self) -> u64 {
        let sum: u128 = beginnings(self.labels).iter().map(|(_, state)| (self.ways)(*state)).sum();
        u64::try_from(sum).expect("counts to size 50 fit 64 bits")
    }

    /// The word at a position, 1 to the count.
    pub(crate) fn at(self, position: u64) -> Vec<u16> {
        let mut before = u128::from(position) - 1;
        let mut word = vec![];
        let mut choices = beginnings(self.labels);
        while !choices.is_empty() {
            let mut place = 0;
            while before >= (self.ways)(choices[place].1) {
                before -= (self.ways)(choices[place].1);
                place += 1;
            }
            let (item, state) = choices[place];
            word.push(item);
            choices = events(state);
        }
        word
    }

    /// The position of one of its words: the words with a lesser item at some place and the same items before it, and 1.
    pub(crate) fn position(self, word: &[u16]) -> u64 {
        let mut sum = 1;
        let mut choices = beginnings(self.labels);
        for item in word {
            sum += choices.iter().filter(|(lesser, _)| lesser < item).map(|(_, state)| (self.ways)(*state)).sum::<u128>();
            let (_, state) = *choices.iter().find(|(same, _)| same == item).expect("a word of this list");
            choices = events(state);
        }
        u64::try_from(sum).expect("positions to size 50 fit 64 bits")
    }
}

/// Count: 31.
pub fn count(size: u64) -> Result<u64, u16> {
    if (1..=50).contains(&size) {
        Ok(Words::of_size(size as usize).count())
    } else {
        Err(31)
    }
}

/// A word of the listing with its diagram.
pub(crate) fn written(word: Vec<u16>) -> Written {
    let (s0, s1) = spelled(&word).expect("a word of the listing spells a diagram");
    Written { s0, s1, word }
}

/// Diagram at a position: 31; 32; 9.
pub fn diagram_at(size: u64, position: u64, rooms: Rooms) -> Result<Written, u16> {
    let last = count(size)?;
    if position == 0 || position > last {
        return Err(32);
    }
    if short(size as usize, rooms) {
        return Err(9);
    }
    Ok(written(Words::of_size(size as usize).at(position)))
}

/// Position of a diagram: 1 to 8; 31.
pub fn position(s0: &[u16], s1: &[u16], root: u64) -> Result<u64, u16> {
    check(s0, s1, root)?;
    count(s0.len() as u64)?;
    Ok(Words::of_size(s0.len()).position(&characteristic(s0, s1, root).word))
}

/// Plain walk: 35; 9.
pub fn plain_walk(size: u64, room: usize) -> Result<Vec<u16>, u16> {
    if !(1..=9).contains(&size) {
        return Err(35);
    }
    if room < 1024 {
        return Err(9);
    }
    Ok(all_words(size as usize).concat())
}
