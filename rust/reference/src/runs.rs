//! The run, as a place in the order: its word's position, and 1, is the next.
use crate::labelling::kept;
use crate::listing::{count, written, Words};
use crate::rows::Rows;
use crate::words::spelled;
use crate::{short, Rooms, Written};

/// A run: stage 0 is fresh, 1 at a diagram, 2 finished.
#[derive(Clone, Debug, PartialEq, Eq)]
pub struct Run {
    /// The size of its diagrams.
    pub size: u16,
    /// Fresh, at a diagram, or finished.
    pub stage: u16,
    /// How many items of its word there are.
    pub length: u16,
    /// The items; unused ones are 0.
    pub items: [u16; 51],
}

impl Run {
    /// Beginning: 31.
    pub fn begin(size: u64) -> Result<Run, u16> {
        count(size)?;
        Ok(Run { size: size as u16, stage: 0, length: 0, items: [0; 51] })
    }

    /// Beginning at a position: 31; 32.
    pub fn begin_at(size: u64, position: u64) -> Result<Run, u16> {
        match position {
            _ if position > count(size)? => Err(32),
            0 => Run::begin(size),
            _ => Ok(Run::at(size as u16, position)),
        }
    }

    /// The run of a size, 1 to 50, at the diagram of a position, 1 to the count.
    pub fn at(size: u16, position: u64) -> Run {
        let mut run = Run { size, stage: 0, length: 0, items: [0; 51] };
        run.go_to(&Words::of_size(size.into()).at(position));
        run
    }

    /// Goes to a word.
    pub(crate) fn go_to(&mut self, word: &[u16]) {
        self.stage = 1;
        self.length = word.len() as u16;
        self.items = [0; 51];
        self.items[..word.len()].copy_from_slice(word);
    }

    /// Goes past the last word.
    pub(crate) fn finish(&mut self) {
        *self = Run { size: self.size, stage: 2, length: 0, items: [0; 51] };
    }

    /// The word that it is at.
    pub(crate) fn word(&self) -> &[u16] {
        &self.items[..usize::from(self.length)]
    }

    pub(crate) fn has_no_word(&self) -> bool {
        self.length == 0 && self.items == [0; 51]
    }

    /// The size of the diagram that it is at, if it is at one.
    pub(crate) fn diagram_size(&self) -> Option<usize> {
        let length = usize::from(self.length);
        let zeros_follow = length <= 51 && self.items[length..].iter().all(|item| *item == 0);
        let (s0, _) = if zeros_follow { spelled(self.word()).ok()? } else { return None };
        Some(s0.len())
    }

    fn is_valid(&self) -> bool {
        (1..=50).contains(&self.size)
            && match self.stage {
                0 | 2 => self.has_no_word(),
                1 => self.diagram_size() == Some(self.size.into()),
                _ => false,
            }
    }

    /// How many diagrams a valid run that is not finished has given.
    fn position(&self) -> u64 {
        match self.stage {
            0 => 0,
            _ => Words::of_size(self.size.into()).position(self.word()),
        }
    }

    /// Step: the diagram written, or `None` at the end. 34; a finished run's end; 9.
    pub fn step(&mut self, rooms: Rooms) -> Result<Option<Written>, u16> {
        if !self.is_valid() {
            return Err(34);
        }
        if self.stage == 2 {
            return Ok(None);
        }
        let n = usize::from(self.size);
        if short(n, rooms) {
            return Err(9);
        }
        let position = self.position() + 1;
        if position > count(self.size.into())? {
            self.finish();
            return Ok(None);
        }
        let next = written(Words::of_size(n).at(position));
        self.go_to(&next.word);
        Ok(Some(next))
    }

    /// So many steps, or as many as there are: the diagrams written. 34; a finished run's end; 9, where the lists are short.
    fn steps(&mut self, rows: u64, short: bool) -> Result<Vec<Written>, u16> {
        if !self.is_valid() {
            return Err(34);
        }
        if self.stage == 2 {
            return Ok(vec![]);
        }
        if short {
            return Err(9);
        }
        let mut given = vec![];
        for _ in 0..rows {
            match self.step([50, 50, 51])? {
                Some(next) => given.push(next),
                None => break,
            }
        }
        Ok(given)
    }

    /// Listing in blocks: 34; a finished run's end; 9.
    pub fn list(&mut self, rows: u64, rooms: BlockRooms) -> Result<Block, u16> {
        let short = short_block(self.size.into(), rows, rooms);
        Ok(Block::of(&self.steps(rows, short)?))
    }

    /// The same with keep marks, for which so many places are lent.
    pub fn list_marked(&mut self, rows: u64, rooms: BlockRooms, marks: usize) -> Result<Block, u16> {
        let short = short_block(self.size.into(), rows, rooms) || (marks as u64) < rows;
        let given = self.steps(rows, short)?;
        let marks = given.iter().map(|next| kept(&next.s0, &next.s1, 1).map(u8::from)).collect::<Result<_, u16>>()?;
        Ok(Block { marks, ..Block::of(&given) })
    }

    /// Rows as text: 34; a finished run's none; 9, fewer than 9 n + 40 bytes for each row asked for. They are the diagrams at the positions that
    /// follow, and the run goes to the last of them.
    pub fn rows(&mut self, rows: u64, room: usize) -> Result<Rows, u16> {
        if !self.is_valid() {
            return Err(34);
        }
        let mut given = Rows::default();
        if self.stage == 2 {
            return Ok(given);
        }
        let n = usize::from(self.size);
        if (room as u128) < u128::from(rows) * (9 * n as u128 + 40) {
            return Err(9);
        }
        let before = self.position();
        let last = before.saturating_add(rows).min(count(self.size.into())?);
        for position in before + 1..=last {
            let next = written(Words::of_size(n).at(position));
            given.push(position, &next)?;
            self.go_to(&next.word);
        }
        Ok(given)
    }
}

/// Diagrams as they are written one after another.
#[derive(Clone, Debug, PartialEq, Eq)]
pub struct Block {
    /// The black lists.
    pub s0: Vec<u16>,
    /// The white lists.
    pub s1: Vec<u16>,
    /// The words.
    pub words: Vec<u16>,
    /// The lengths of the words.
    pub lengths: Vec<u16>,
    /// The keep marks, 1 or 0, where they are asked for.
    pub marks: Vec<u8>,
}

/// The lengths of the lists lent for s0, s1, the words and their lengths.
pub type BlockRooms = [usize; 4];

impl Block {
    fn of(given: &[Written]) -> Block {
        let one_after_another = |list: fn(&Written) -> &[u16]| given.iter().flat_map(list).copied().collect();
        Block {
            s0: one_after_another(|next| &next.s0),
            s1: one_after_another(|next| &next.s1),
            words: one_after_another(|next| &next.word),
            lengths: given.iter().map(|next| next.word.len() as u16).collect(),
            marks: vec![],
        }
    }
}

/// Whether the rooms are short for so many diagrams of size n: they want n, n, n + 1 places and 1 for each.
fn short_block(n: u128, rows: u64, rooms: BlockRooms) -> bool {
    rooms.iter().zip([n, n, n + 1, 1]).any(|(room, each)| (*room as u128) < u128::from(rows) * each)
}
