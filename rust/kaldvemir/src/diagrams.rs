//! Runs as iterators: diagram after diagram, each in lists of its own.
use crate::{Refusal, Run, Stepped, UptoRun};
use std::iter::FusedIterator;

/// A diagram that a run gives, with root 1, and its word.
#[derive(Clone, Debug, PartialEq, Eq, Hash)]
pub struct Listed {
    /// The next edge round the black vertex of each edge.
    pub s0: Vec<u16>,
    /// The next edge round the white vertex of each edge.
    pub s1: Vec<u16>,
    /// The word.
    pub word: Vec<u16>,
}

/// A diagram that a run through all sizes gives.
#[derive(Clone, Debug, PartialEq, Eq, Hash)]
pub struct UptoListed {
    /// The diagram with its word.
    pub diagram: Listed,
    /// Its size.
    pub size: usize,
    /// The branch visits so far.
    pub visits: u64,
}

/// The diagrams that a run has still to give, one after another: what a [`Run`] or an [`UptoRun`] is turned into.
///
/// Each comes as `Ok`. A step can be refused only where the run's numbers are foreign, 34: then one `Err` comes, and nothing after it. No step is refused
/// for want of room.
///
/// ```
/// use kaldvemir::{Refusal, Run, UptoRun};
/// let words: Vec<_> = Run::begin(3)?.into_iter().map(|listed| Ok(listed?.word)).collect::<Result<_, Refusal>>()?;
/// assert_eq!(words, [vec![1, 0, 0, 0], vec![1, 0, 3], vec![1, 3, 0], vec![1, 4, 0]]);
/// for listed in UptoRun::begin(9)? {
///     let listed = listed?;
///     assert_eq!(listed.diagram.s0.len(), listed.size);
/// }
/// # Ok::<(), Refusal>(())
/// ```
#[derive(Clone, Debug)]
pub struct Diagrams<R> {
    run: R,
    over: bool,
}

impl<R> Diagrams<R> {
    /// The run where it stands: at the diagram given last.
    pub fn run(&self) -> &R {
        &self.run
    }
}

/// Lists that are long enough for every listed size.
pub struct Lists {
    s0: [u16; 50],
    s1: [u16; 50],
    word: [u16; 51],
}

impl Lists {
    /// The diagram in their first places.
    fn listed(&self, size: usize, length: usize) -> Listed {
        Listed { s0: self.s0[..size].to_vec(), s1: self.s1[..size].to_vec(), word: self.word[..length].to_vec() }
    }
}

/// A run of either kind.
pub trait Steps {
    /// What a step gives.
    type Given;

    /// A step into such lists; `None` at the end.
    fn give(&mut self, lists: &mut Lists) -> Result<Option<Self::Given>, Refusal>;
}

impl Steps for Run {
    type Given = Listed;

    fn give(&mut self, lists: &mut Lists) -> Result<Option<Listed>, Refusal> {
        let length = self.step(&mut lists.s0, &mut lists.s1, &mut lists.word)?;
        Ok(length.map(|length| lists.listed(self.size.into(), length)))
    }
}

impl Steps for UptoRun {
    type Given = UptoListed;

    fn give(&mut self, lists: &mut Lists) -> Result<Option<UptoListed>, Refusal> {
        let stepped = self.step(&mut lists.s0, &mut lists.s1, &mut lists.word)?;
        Ok(stepped.map(|Stepped { size, length, visits }| UptoListed { diagram: lists.listed(size, length), size, visits }))
    }
}

impl<R: Steps> Iterator for Diagrams<R> {
    type Item = Result<R::Given, Refusal>;

    fn next(&mut self) -> Option<Self::Item> {
        if self.over {
            return None;
        }
        let item = self.run.give(&mut Lists { s0: [0; 50], s1: [0; 50], word: [0; 51] }).transpose();
        self.over = !matches!(item, Some(Ok(_)));
        item
    }
}

impl<R: Steps> FusedIterator for Diagrams<R> {}

impl IntoIterator for Run {
    type Item = Result<Listed, Refusal>;
    type IntoIter = Diagrams<Run>;

    fn into_iter(self) -> Diagrams<Run> {
        Diagrams { run: self, over: false }
    }
}

impl IntoIterator for UptoRun {
    type Item = Result<UptoListed, Refusal>;
    type IntoIter = Diagrams<UptoRun>;

    fn into_iter(self) -> Diagrams<UptoRun> {
        Diagrams { run: self, over: false }
    }
}
