//! What was compared: per operation the inputs, the answers and the refusals, and the first difference.
use crate::lists::REACHES;
use std::collections::BTreeMap;
use std::fmt::{self, Debug};

/// What an operation answered: a refusal with its side (0 where there is none), or an accepted call by the kind of its answer.
#[derive(Clone, Copy, Debug, PartialEq, Eq, PartialOrd, Ord)]
pub enum Outcome {
    Accepted(&'static str),
    Refused(u8, u16),
}

/// An input that the library and the reference answered unlike.
#[derive(Debug)]
pub struct Difference {
    pub operation: &'static str,
    pub input: String,
    pub library: String,
    pub reference: String,
}

pub type Compared = Result<(), Box<Difference>>;

/// Every operation with the kinds of its accepted answers and its refusals: each is to be met.
pub const OPERATIONS: [(&str, &[&str], &[u16]); 45] = [
    ("check", &["accepted"], GIVEN),
    ("all reached", &["yes", "no"], &[]),
    ("relabel", &["accepted"], &[1, 2, 3, 4, 5, 6, 7, 8, 9]),
    ("compare rooted", &["same", "different"], GIVEN),
    ("compare unrooted", &["same", "different"], GIVEN),
    // by how the word begins: with U, with T where s0 fixes some edge, or with T where it fixes none
    ("symmetries", &["U, one", "U, more", "T beside U, one", "T beside U, more", "T, one", "T, more"], GIVEN),
    ("kept", &["U, yes", "U, no", "T beside U, no", "T, yes", "T, no"], GIVEN),
    ("invariants", &["accepted"], &[1, 2, 3, 4, 5, 6, 7, 8, 62]),
    // invariants of a diagram whose level is from 2^63 to 2^65
    ("level near 2^64", &["below"], &[62]),
    // a diagram in parts in check, relabel, kept, symmetries, invariants and position, and on each side of both compares
    ("parts up to 64", &[], &[8]),
    ("parts above 64", &[], &[8]),
    ("compare parts up to 64", &[], &[8]),
    ("compare parts above 64", &[], &[8]),
    ("read word", &["accepted"], &[21, 22, 23, 24, 25, 26, 9]),
    // by where all joins of the word reach in a stack of many labels; 23 is a join past the bottom
    ("read tall word", &REACHES, &[23, 9]),
    ("relabel tall", &REACHES, &[9]),
    ("lesser", &["first", "second"], &[]),
    ("letters", &["accepted"], &[22, 9]),
    ("count", &["accepted"], &[31]),
    // small sizes at random, and each size once, up to 18 or, in a full run, 24
    ("kept count", &["small", "larger"], &[31]),
    ("diagram at", &["accepted"], &[31, 32, 9]),
    ("position", &["accepted"], &[1, 2, 3, 4, 5, 6, 7, 8, 31]),
    ("plain walk", &["accepted"], &[35, 9]),
    ("begin", &["accepted"], &[31]),
    ("begin at", &["fresh", "at a diagram"], &[31, 32]),
    ("step", &["diagram", "end"], &[34, 9]),
    ("list", BLOCKS, &[34, 9]),
    ("list marked", BLOCKS, &[34, 9]),
    ("rows", BLOCKS, &[34, 9]),
    ("upto begin", &["accepted"], &[31]),
    ("upto step", &["diagram", "end", "end without room"], &[34, 9]),
    // a step of a run that is right but for its visits
    ("wrong visits", &[], &[34]),
    ("sheet positions", &["cells", "empty", "empty without room"], &[61, 9]),
    // each cell of the sheets that are taken
    ("cell of a sheet", &["position"], &[61, 21, 26, 22, 23, 25, 31]),
    ("open", &["accepted"], &[31, 51]),
    // any call with a book whose tickets differ, but several are equal modulo 128; and with one that has two equal tickets
    ("tickets modulo 128", &["accepted", "open"], &[52, 53, 54, 56, 58, 59, 60, 9]),
    ("equal tickets", &[], &[50]),
    ("claim", &["accepted"], &[50, 52, 53, 54, 55, 56, 57]),
    ("take", &["accepted"], &[50, 52, 58, 59, 9]),
    ("commit", &["accepted"], &[50, 52, 58, 59, 60]),
    ("commit range", &["accepted"], &[50, 52, 58, 59, 60]),
    // a range from the share's next position on that goes past its end, and one that is empty
    ("range past end", &[], &[50, 52, 58, 59]),
    ("empty range", &[], &[50, 52, 58, 59, 60]),
    ("release", &["accepted"], &[50, 52, 58, 59]),
    ("report", &["complete", "open"], &[50]),
];

const GIVEN: &[u16] = &[1, 2, 3, 4, 5, 6, 7, 8];

/// How a block was begun and how it ended; "U to T" goes on from a word with U to one with T.
const BLOCKS: &[&str] = &["fresh, all", "fresh, fewer", "fresh, no rows", "all", "fewer", "no rows", "U to T", "at the last", "finished"];

/// The outcomes of an operation that are to be met. Compare has its refusals on either side.
fn wanted(name: &str, answers: &[&'static str], refusals: &[u16]) -> Vec<Outcome> {
    let sides: &[u8] = if name.starts_with("compare") { &[1, 2] } else { &[0] };
    let refused = sides.iter().flat_map(|side| refusals.iter().map(|number| Outcome::Refused(*side, *number)));
    answers.iter().map(|answer| Outcome::Accepted(answer)).chain(refused).collect()
}

#[derive(Default)]
pub struct OutcomeCounts {
    met: BTreeMap<(&'static str, Outcome), u64>,
}

impl OutcomeCounts {
    /// Compares two answers to an input and counts the outcome.
    pub fn compare<A: PartialEq + Debug>(
        &mut self, operation: &'static str, outcome: Outcome, library: &A, reference: &A, input: &dyn Debug,
    ) -> Compared {
        if library != reference {
            let (input, library, reference) = (format!("{input:?}"), format!("{library:?}"), format!("{reference:?}"));
            return Err(Box::new(Difference { operation, input, library, reference }));
        }
        *self.met.entry((operation, outcome)).or_default() += 1;
        Ok(())
    }

    pub fn inputs(&self, operation: &str) -> u64 {
        self.met.iter().filter(|((name, _), _)| *name == operation).map(|(_, times)| times).sum()
    }

    pub fn add(&mut self, other: OutcomeCounts) {
        for (key, times) in other.met {
            *self.met.entry(key).or_default() += times;
        }
    }

    fn times(&self, operation: &'static str, outcome: Outcome) -> u64 {
        self.met.get(&(operation, outcome)).copied().unwrap_or(0)
    }

    /// The outcomes that 01 allows and that never came, and those that came and are not in the table above.
    pub fn complaints(&self) -> Vec<String> {
        let mut complaints = vec![];
        for (name, answers, refusals) in OPERATIONS {
            for outcome in wanted(name, answers, refusals) {
                if self.times(name, outcome) == 0 {
                    complaints.push(format!("{name}: {outcome:?} never came"));
                }
            }
        }
        for (name, outcome) in self.met.keys() {
            let known = OPERATIONS.iter().any(|(known, answers, refusals)| known == name && wanted(name, answers, refusals).contains(outcome));
            if !known {
                complaints.push(format!("{name}: {outcome:?} is no answer of this operation"));
            }
        }
        complaints
    }
}

/// The table: a line for each operation.
impl fmt::Display for OutcomeCounts {
    fn fmt(&self, out: &mut fmt::Formatter<'_>) -> fmt::Result {
        writeln!(out, "{:<24}{:>10}{:>10}  answers; refusals", "operation", "compared", "accepted")?;
        for (name, answers, refusals) in OPERATIONS {
            let accepted: u64 = answers.iter().map(|answer| self.times(name, Outcome::Accepted(answer))).sum();
            write!(out, "{name:<24}{:>10}{accepted:>10} ", self.inputs(name))?;
            for outcome in wanted(name, answers, refusals) {
                let times = self.times(name, outcome);
                match outcome {
                    Outcome::Accepted("accepted") => (),
                    Outcome::Accepted(answer) => write!(out, " {answer}: {times};")?,
                    Outcome::Refused(0, number) => write!(out, " {number}: {times}")?,
                    Outcome::Refused(side, number) => write!(out, " {number} side {side}: {times}")?,
                }
            }
            writeln!(out)?;
        }
        Ok(())
    }
}
