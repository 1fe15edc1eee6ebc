//! Listing in blocks: blocks from any place, with and without keep marks, from damaged runs too, and whole lists to the end.
use crate::given::outcome;
use crate::lists::{overwritten, room};
use crate::outcomes::{Compared, Difference, OutcomeCounts};
use crate::random::Random;
use crate::runs::{anywhere, damage, library_run, reference_run};
use kaldvemir::Refusal;
use reference::{Block, BlockRooms, Run};

/// The output lists of a block.
#[derive(Clone, Debug, PartialEq)]
struct Lists {
    s0: Vec<u16>,
    s1: Vec<u16>,
    words: Vec<u16>,
    lengths: Vec<u16>,
    marks: Vec<u8>,
}

/// How many places so many rows need. Of rows that no list can hold: what is left of the product in 64 bits, if that is few, else a few rows' places.
pub fn places(rows: u64, each: u64) -> usize {
    let product = rows.wrapping_mul(each);
    (if product <= 20_000 { product } else { 3 * each }) as usize
}

impl Lists {
    /// Lists for so many diagrams of size n, with anything in them.
    fn any(random: &mut Random, n: u64, rows: u64) -> Lists {
        let mut list = |each| {
            let room = room(random, places(rows, each));
            random.list(room)
        };
        let (s0, s1, words, lengths) = (list(n), list(n), list(n + 1), list(1));
        let marks = list(1).iter().map(|mark| *mark as u8).collect();
        Lists { s0, s1, words, lengths, marks }
    }

    fn rooms(&self) -> BlockRooms {
        [self.s0.len(), self.s1.len(), self.words.len(), self.lengths.len()]
    }

    /// The lists with a block in their first places.
    fn with(&self, block: &Block) -> Lists {
        Lists {
            s0: overwritten(&self.s0, &block.s0),
            s1: overwritten(&self.s1, &block.s1),
            words: overwritten(&self.words, &block.words),
            lengths: overwritten(&self.lengths, &block.lengths),
            marks: overwritten(&self.marks, &block.marks),
        }
    }
}

/// The kind of an accepted answer, from the run before it and after it.
pub fn kind(before: &Run, after: &Run, rows: u64, given: u64) -> &'static str {
    let turns = (before.items[0], after.items[0]) == (0, 1) && before.stage == 1;
    match (before.stage, rows) {
        (2, _) => "finished",
        (0, 0) => "fresh, no rows",
        (0, _) if given < rows => "fresh, fewer",
        (0, _) => "fresh, all",
        (_, 0) => "no rows",
        _ if given == 0 => "at the last",
        _ if turns => "U to T",
        _ if given < rows => "fewer",
        _ => "all",
    }
}

/// One block of both from the same run: compares the answers, the runs and the lists after it, and returns what an accepted call wrote.
fn block(run: &mut Run, rows: u64, before: &Lists, marked: bool, counts: &mut OutcomeCounts) -> Result<Option<Block>, Box<Difference>> {
    let input = (run.clone(), rows, before);
    let (mut other, mut lists) = (library_run(run), before.clone());
    let Lists { s0, s1, words, lengths, marks } = &mut lists;
    let (operation, library, reference) = if marked {
        let library = other.list_marked(rows, s0, s1, words, lengths, marks);
        ("list marked", library, run.list_marked(rows, before.rooms(), before.marks.len()))
    } else {
        ("list", other.list(rows, s0, s1, words, lengths), run.list(rows, before.rooms()))
    };
    let after = reference.as_ref().map_or_else(|_| before.clone(), |block| before.with(block));
    let given = reference.as_ref().map(|block| block.lengths.len() as u64).map_err(|number| *number);
    let kind = outcome(&given, |given| kind(&input.0, run, rows, *given));
    let library = (library.map_err(Refusal::number), reference_run(&other), lists);
    counts.compare(operation, kind, &library, &(given, run.clone(), after), &input)?;
    Ok(reference.ok())
}

/// How many diagrams a valid run still has before it.
pub fn left(run: &Run) -> u64 {
    let count = reference::count(run.size.into()).expect("a size in range");
    match run.stage {
        0 => count,
        1 => {
            let (s0, s1) = reference::read_word(&run.items[..run.length.into()], [50, 50]).expect("a run at a diagram");
            count - reference::position(&s0, &s1, 1).expect("a diagram of the listing")
        }
        _ => 0,
    }
}

/// A number of rows, of which each wants so many places: none, one, a few, about all that are left where those are not many, or more than any list
/// can hold.
pub fn rows(random: &mut Random, each: [u64; 2], left: u64) -> u64 {
    let ending = left <= 150;
    match random.below(20) {
        0 => 0,
        1 | 2 => 1,
        3 | 4 if ending => left,
        5 | 6 if ending => left + 1,
        7..=9 if ending => left + random.between(0, 20),
        10 => random.near(&[1 << 32, 1 << 62, 1 << 63, u64::MAX]),
        11 => random.near(&each.map(|each| u64::MAX / each)).wrapping_add(1),
        _ => random.between(1, 12),
    }
}

/// A few blocks from anywhere, up to the first that is refused, with damage now and then; a damaged run that is still valid goes on.
fn blocks(random: &mut Random, marked: bool, counts: &mut OutcomeCounts) -> Compared {
    let mut run = anywhere(random, 75);
    for _ in 0..1 + random.below(4) {
        let n = u64::from(run.size);
        let rows = rows(random, [n, n + 1], left(&run));
        if random.percent(15) {
            damage(random, &mut run);
        }
        let lists = Lists::any(random, run.size.min(60).into(), rows);
        let refused = block(&mut run, rows, &lists, marked, counts)?.is_none();
        if refused || (run.stage == 2 && random.percent(70)) {
            return Ok(());
        }
    }
    Ok(())
}

pub fn list(random: &mut Random, counts: &mut OutcomeCounts) -> Compared {
    blocks(random, false, counts)
}

pub fn list_marked(random: &mut Random, counts: &mut OutcomeCounts) -> Compared {
    blocks(random, true, counts)
}

/// A whole list of a size in blocks against the listing, with refused calls in between, and to its end more than once.
pub fn whole(size: u16, random: &mut Random, counts: &mut OutcomeCounts) -> Compared {
    for marked in [false, true] {
        let mut run = Run::begin(size.into()).expect("a size in range");
        let (mut given, mut ends) = (vec![], 0);
        while ends < 3 {
            let rows = random.between(1, 300);
            let lists = Lists::any(random, size.into(), rows);
            if let Some(block) = block(&mut run, rows, &lists, marked, counts)? {
                given.extend(block.words);
                ends += u32::from(run.stage == 2);
            }
        }
        let listing = reference::all_words(size.into()).concat();
        if given != listing {
            let (library, reference) = (format!("{given:?}"), format!("{listing:?}"));
            return Err(Box::new(Difference { operation: "list", input: format!("a whole list of size {size}"), library, reference }));
        }
    }
    Ok(())
}
