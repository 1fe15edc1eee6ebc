//! The run through all sizes up to a bound, as a place in the single list: its word's position, and 1, is the next. The branch visits are counted
//! anew for each word, length by length, without the table of the ways to end.
use crate::listing::{all_words, beginnings, count, events, kinds, written, State, Words};
use crate::runs::Run;
use crate::{short, Rooms, Written};
use std::collections::BTreeSet;

/// All words of the sizes 1 to n in dictionary order, each with the branch visits so far, straight from the request: how many different lists are a
/// beginning, non-empty and shorter than the word that it begins, of a word up to this one.
pub fn list_upto(n: usize) -> Vec<(Vec<u16>, u64)> {
    let mut words: Vec<_> = (1..=n).flat_map(all_words).collect();
    words.sort();
    let mut visited = BTreeSet::new();
    let visits_after = |word: Vec<u16>| {
        visited.extend((1..word.len()).map(|length| word[..length].to_vec()));
        (word, visited.len() as u64)
    };
    words.into_iter().map(visits_after).collect()
}

/// How many beginnings of a length there are in each state with an edge pending, by height and labels free. Bounds to 50 lead to heights to 18.
struct Beginnings([[u64; 50]; 19]);

impl Beginnings {
    fn none() -> Beginnings {
        Beginnings([[0; 50]; 19])
    }

    /// So many more in a state. Where no edge is pending they are words.
    fn add(&mut self, state: State, times: u64) {
        if state.height > 0 {
            self.0[state.height][state.free] += times;
        }
    }

    fn count(&self) -> u64 {
        self.0.iter().flatten().sum()
    }

    /// Those that are longer by one item.
    fn longer(&self) -> Beginnings {
        let mut longer = Beginnings::none();
        for (height, row) in self.0.iter().enumerate() {
            for (free, times) in row.iter().enumerate().filter(|(_, times)| **times > 0) {
                kinds(State { height, free }).for_each(|(_, items, after)| longer.add(after, times * items as u64));
            }
        }
        longer
    }
}

/// The branch visits at a word of the single list: the beginnings that come before it in dictionary order. Of each length these are those that
/// come before the word's own of that length, and that one where it is shorter than the word.
fn visits_at(bound: usize, word: &[u16]) -> u64 {
    let mut visits = 0;
    let mut earlier = Beginnings::none();
    let mut choices = beginnings(bound);
    for length in 1.. {
        earlier = earlier.longer();
        if let Some(item) = word.get(length - 1) {
            choices.iter().filter(|(lesser, _)| lesser < item).for_each(|(_, after)| earlier.add(*after, 1));
            let (_, own) = *choices.iter().find(|(same, _)| same == item).expect("a word of the single list");
            choices = events(own);
        }
        let count = earlier.count();
        if length >= word.len() && count == 0 {
            break;
        }
        visits += count + u64::from(length < word.len());
    }
    visits
}

/// A run through all sizes up to a bound.
#[derive(Clone, Debug, PartialEq, Eq)]
pub struct UptoRun {
    /// Its bound, in the place of a size, its stage and its word.
    pub run: Run,
    /// The branch visits so far.
    pub visits: u64,
}

impl UptoRun {
    /// Beginning: 31.
    pub fn begin(bound: u64) -> Result<UptoRun, u16> {
        Ok(UptoRun { run: Run::begin(bound)?, visits: 0 })
    }

    /// The run of a bound, 1 to 50, at a word of a size up to it.
    pub fn at(bound: u16, word: &[u16]) -> UptoRun {
        let mut run = Run { size: bound, stage: 0, length: 0, items: [0; 51] };
        run.go_to(word);
        UptoRun { run, visits: visits_at(bound.into(), word) }
    }

    /// The finished run of a bound, 1 to 50.
    pub fn finished(bound: u16) -> UptoRun {
        let words = Words::upto(bound.into());
        let mut last = UptoRun::at(bound, &words.at(words.count()));
        last.run.finish();
        last
    }

    fn is_valid(&self) -> bool {
        let bound = self.run.size;
        count(bound.into()).is_ok()
            && match self.run.stage {
                0 => self.run.has_no_word() && self.visits == 0,
                1 => {
                    self.run.diagram_size().is_some_and(|size| size <= bound.into())
                        && self.visits == visits_at(bound.into(), self.run.word())
                }
                2 => *self == UptoRun::finished(bound),
                _ => false,
            }
    }

    /// Step: the diagram written, or `None` at the end. 34; the end; 9, by the size of the diagram that comes.
    pub fn step(&mut self, rooms: Rooms) -> Result<Option<Written>, u16> {
        if !self.is_valid() {
            return Err(34);
        }
        let words = Words::upto(self.run.size.into());
        let given = match self.run.stage {
            0 => 0,
            1 => words.position(self.run.word()),
            _ => words.count(),
        };
        if given == words.count() {
            self.run.finish();
            return Ok(None);
        }
        let next = written(words.at(given + 1));
        if short(next.s0.len(), rooms) {
            return Err(9);
        }
        *self = UptoRun::at(self.run.size, &next.word);
        Ok(Some(next))
    }
}
