//! Rows as text: from anywhere, from damaged runs too, and whole lists to the end.
use crate::blocks::{self, kind, left, places};
use crate::given::outcome;
use crate::lists::{overwritten, room};
use crate::outcomes::{Compared, Difference, OutcomeCounts};
use crate::random::Random;
use crate::runs::{anywhere, damage, library_run, reference_run};
use kaldvemir::Refusal;
use reference::{Rows, Run};

/// How many bytes each row of size n wants, or the call is refused 9.
fn each(n: u64) -> u64 {
    9 * n + 40
}

/// Bytes for so many rows of size n, with anything in them; often exactly enough by the bound, or one less.
fn any_bytes(random: &mut Random, n: u64, rows: u64) -> Vec<u8> {
    let room = room(random, places(rows, each(n)));
    random.list(room).iter().map(|byte| *byte as u8).collect()
}

/// One call of both from the same run: compares the answers, the runs and the bytes after it, and returns what an accepted call gave.
fn call(run: &mut Run, rows: u64, before: &[u8], counts: &mut OutcomeCounts) -> Result<Option<Rows>, Box<Difference>> {
    let input = (run.clone(), rows, before);
    let (mut other, mut bytes) = (library_run(run), before.to_vec());
    let library = other.rows(rows, &mut bytes).map(|given| (given.rows, given.bytes, given.kept)).map_err(Refusal::number);
    let reference = run.rows(rows, before.len());
    let after = reference.as_ref().map_or_else(|_| before.to_vec(), |given| overwritten(before, &given.text));
    let told = reference.as_ref().map(|given| (given.rows, given.text.len(), given.kept)).map_err(|number| *number);
    let kind = outcome(&reference, |given| kind(&input.0, run, rows, given.rows));
    counts.compare("rows", kind, &(library, reference_run(&other), bytes), &(told, run.clone(), after), &input)?;
    Ok(reference.ok())
}

/// A few calls from anywhere, up to the first that is refused, with damage now and then; a damaged run that is still valid goes on.
pub fn rows(random: &mut Random, counts: &mut OutcomeCounts) -> Compared {
    let mut run = anywhere(random, 75);
    for _ in 0..1 + random.below(4) {
        let rows = blocks::rows(random, [each(run.size.into()); 2], left(&run));
        if random.percent(15) {
            damage(random, &mut run);
        }
        let bytes = any_bytes(random, run.size.min(60).into(), rows);
        let refused = call(&mut run, rows, &bytes, counts)?.is_none();
        if refused || (run.stage == 2 && random.percent(70)) {
            return Ok(());
        }
    }
    Ok(())
}

/// The rows of a whole list of a size, by their positions and words, against the listing, with refused calls in between, and to its end more than
/// once.
pub fn whole(size: u16, random: &mut Random, counts: &mut OutcomeCounts) -> Compared {
    let mut run = Run::begin(size.into()).expect("a size in range");
    let (mut text, mut ends) = (vec![], 0);
    while ends < 3 {
        let rows = random.between(1, 100);
        let bytes = any_bytes(random, size.into(), rows);
        if let Some(given) = call(&mut run, rows, &bytes, counts)? {
            text.extend(given.text);
            ends += u32::from(given.rows < rows);
        }
    }
    let text = String::from_utf8(text).expect("digits, letters and signs");
    let given: Vec<_> = text.lines().map(|line| line.split(' ').take(2).collect::<Vec<_>>().join(" ")).collect();
    let letters = |word: &Vec<u16>| String::from_utf8(reference::letters(word, usize::MAX).expect("a word")).expect("letters and digits");
    let listing: Vec<_> = (1..).zip(reference::all_words(size.into())).map(|(position, word)| format!("{position} {}", letters(&word))).collect();
    if given != listing {
        let (library, reference) = (format!("{given:?}"), format!("{listing:?}"));
        return Err(Box::new(Difference { operation: "rows", input: format!("the rows of size {size}"), library, reference }));
    }
    Ok(())
}
