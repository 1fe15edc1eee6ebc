//! Before anything is timed, the library and the baselines are given some thousands of the same inputs, good and damaged, and must
//! give the same answers, the same lists and the same runs and books.
use crate::blocks;
use crate::generator::{generate, kept_known, kept_tested};
use crate::lines::Page;
use crate::random::{Diagram, Random};
use kaldvemir::{Book, Run, UptoRun, CELL};
use crate::rows::{books::opened, census, given::words, listing, sheets as pages, whole};
use crate::same::labelling::{Tracer, SMALL_PLACES};
use crate::table::count_of;
use crate::{letters, library, same, timing, tuned};
use std::fmt::Debug;

pub fn all() {
    let mut random = Random(7);
    given(&mut random);
    levels(&mut random);
    read(&mut random);
    at_positions(&mut random);
    runs(&mut random);
    upto_runs(&mut random);
    sheets(&mut random);
    books(&mut random);
    lists();
    lists_in_blocks();
    sums();
    censuses();
}

fn equal<T: PartialEq + Debug>(what: &str, library: T, plain: T) {
    assert!(library == plain, "{what}: the library gives\n{library:?}\nand plain Rust\n{plain:?}");
}

/// Output lists of about the length needed, with something in them.
#[derive(Clone, PartialEq, Debug)]
struct Outputs {
    s0: Vec<u16>,
    s1: Vec<u16>,
    word: Vec<u16>,
}

fn outputs(random: &mut Random, n: usize) -> Outputs {
    let mut list = |length: usize| {
        let length = if random.below(16) == 0 { length.saturating_sub(1) } else { length + random.below(3) as usize };
        (0..length).map(|_| random.next() as u16).collect::<Vec<u16>>()
    };
    Outputs { s0: list(n), s1: list(n), word: list(n + 1) }
}

/// Gives both functions a copy of the outputs and compares what they answer and what they leave.
fn agree<T: PartialEq + Debug>(
    what: &str, outputs: Outputs, library: impl Fn(&mut Outputs) -> T, plain: impl Fn(&mut Outputs) -> T,
) {
    let (mut a, mut b) = (outputs.clone(), outputs);
    let (x, y) = (library(&mut a), plain(&mut b));
    equal(what, (x, a), (y, b));
}

fn damage(random: &mut Random, d: &mut Diagram) {
    let n = d.s0.len() as u64;
    let at = random.below(n) as usize;
    match random.below(8) {
        0 => d.s0[at] = random.below(n + 2) as u16,
        1 => d.s1[at] = random.below(n + 2) as u16,
        2 => d.root = [0, n + 1, u64::MAX][random.below(3) as usize],
        3 => d.s0.truncate(at),
        4 => d.s1.truncate(at),
        5 => second_component(random, d),
        6 => d.s0.swap(at, 0),
        _ => d.s1.swap(at, 0),
    }
}

/// Another diagram beside it, with which it is not connected: of one edge, or of some.
fn second_component(random: &mut Random, d: &mut Diagram) {
    let shift = d.s0.len() as u16;
    let size = [1, 1 + random.below(40) as usize][random.below(2) as usize];
    let other = random.diagram(size);
    d.s0.extend(other.s0.iter().map(|x| x + shift));
    d.s1.extend(other.s1.iter().map(|x| x + shift));
}

fn given(random: &mut Random) {
    for i in 0..6000 {
        let most = if i % 20 == 0 { 1024 } else { 70 };
        let n = 1 + random.below(most) as usize;
        let mut d = random.diagram(n);
        match i % 6 {
            0 | 3 => damage(random, &mut d),
            1 => second_component(random, &mut d),
            _ => {}
        }
        let Diagram { s0, s1, root } = &d;
        let by_library = library::check(s0, s1, *root);
        equal("check", &by_library, &same::check::check(s0, s1, *root));
        equal("check", &by_library, &tuned::check::check(s0, s1, *root));
        invariants(&d);
        let by_library = library::kept(s0, s1, *root);
        equal("kept", &by_library, &same::labelling::kept(s0, s1, *root));
        equal("kept", &by_library, &tuned::labelling::kept(s0, s1, *root));
        let by_library = library::position(s0, s1, *root);
        equal("position", &by_library, &same::positions::position(s0, s1, *root));
        equal("position", &by_library, &tuned::positions::position(s0, s1, *root));
        let out = outputs(random, n);
        let by_library = |o: &mut Outputs| library::relabel(s0, s1, *root, &mut o.s0, &mut o.s1, &mut o.word);
        let by_same = |o: &mut Outputs| same::labelling::relabel(s0, s1, *root, &mut o.s0, &mut o.s1, &mut o.word);
        let by_tuned = |o: &mut Outputs| tuned::labelling::relabel(s0, s1, *root, &mut o.s0, &mut o.s1, &mut o.word);
        agree("relabel", out.clone(), by_library, by_same);
        agree("relabel", out, by_library, by_tuned);
    }
}

fn invariants(Diagram { s0, s1, root }: &Diagram) {
    let by_library = library::invariants(s0, s1, *root);
    equal("invariants", &by_library, &same::invariants::invariants(s0, s1, *root));
    equal("invariants", &by_library, &tuned::invariants::invariants(s0, s1, *root));
}

/// Large levels, of which some are below 2^64 and some above.
fn levels(random: &mut Random) {
    let (mut below, mut above) = (0, 0);
    for i in 0..2000 {
        let mut d = random.chain();
        if i % 3 == 0 {
            damage(random, &mut d);
        }
        invariants(&d);
        match same::invariants::invariants(&d.s0, &d.s1, d.root) {
            Ok(x) => below += (x.level >> 56 != 0) as u32,
            Err(number) => above += (number == 62) as u32,
        }
    }
    assert!(below > 0 && above > 0, "levels of 57 to 64 bits: {below}, and of more: {above}");
}

fn read(random: &mut Random) {
    for i in 0..6000 {
        let n = 1 + random.below(if i % 20 == 0 { 1024 } else { 60 }) as usize;
        let mut word = words(&[random.diagram(n)]).remove(0);
        if i % 2 == 0 {
            let at = random.below(word.len() as u64) as usize;
            match random.below(3) {
                0 => word[at] = random.below(8) as u16,
                1 => word.truncate(at),
                _ => word.push(random.below(4) as u16),
            }
        }
        let out = outputs(random, n);
        let by_library = |o: &mut Outputs| library::read_word(&word, &mut o.s0, &mut o.s1);
        agree("read word", out.clone(), by_library, |o| same::reading::read_word(&word, &mut o.s0, &mut o.s1));
        agree("read word", out, by_library, |o| tuned::reading::read_word(&word, &mut o.s0, &mut o.s1));
        let room = vec![7u8; random.below(4 * word.len() as u64 + 2) as usize];
        let (mut a, mut b) = (room.clone(), room);
        equal("letters", library::letters(&word, &mut a), letters::letters(&word, &mut b));
        equal("letters", a, b);
    }
}

fn at_positions(random: &mut Random) {
    for _ in 0..6000 {
        let size = random.below(53);
        let total = if (1..=50).contains(&size) { count_of(size as usize) } else { 1 };
        let position = match random.below(8) {
            0 => 0,
            1 => total,
            2 => total + 1,
            _ => 1 + random.below(total),
        };
        let out = outputs(random, size as usize);
        let by_library = |o: &mut Outputs| library::diagram_at(size, position, &mut o.s0, &mut o.s1, &mut o.word);
        let by_same = |o: &mut Outputs| same::positions::diagram_at(size, position, &mut o.s0, &mut o.s1, &mut o.word);
        let by_tuned = |o: &mut Outputs| tuned::positions::diagram_at(size, position, &mut o.s0, &mut o.s1, &mut o.word);
        agree("diagram at a position", out.clone(), by_library, by_same);
        agree("diagram at a position", out, by_library, by_tuned);
    }
}

type Step<R, A> = fn(&mut R, &mut [u16], &mut [u16], &mut [u16]) -> Result<A, u16>;

/// One step on a copy of the run for each side; returns the run as the library's step left it.
fn one_step<R: Clone + PartialEq + Debug, A: PartialEq + Debug>(
    random: &mut Random, start: &R, out: usize, library: Step<R, A>, plain: &[Step<R, A>],
) -> R {
    let out = outputs(random, out);
    let by = |step: Step<R, A>| {
        move |o: &mut Outputs| {
            let mut run = start.clone();
            (step(&mut run, &mut o.s0, &mut o.s1, &mut o.word), run)
        }
    };
    plain.iter().for_each(|&plain| agree("step", out.clone(), by(library), by(plain)));
    by(library)(&mut out.clone()).1
}

fn run_step(random: &mut Random, start: &Run, out: usize) -> Run {
    one_step(random, start, out, library::step, &[same::run::step, tuned::run::step])
}

fn upto_step(random: &mut Random, start: &UptoRun, out: usize) -> UptoRun {
    one_step(random, start, out, library::upto_step, &[same::upto::step, tuned::upto::step])
}

fn runs(random: &mut Random) {
    for size in 1..=12 {
        let mut run = library::begin(size).unwrap();
        while run.stage != 2 {
            run = run_step(random, &run, size as usize);
        }
        run_step(random, &run, size as usize);
    }
    for _ in 0..6000 {
        let size = 1 + random.below(50) as usize;
        let mut run = listing::run_at(size, 1 + random.below(count_of(size)));
        match random.below(8) {
            0 => run.size = random.below(53) as u16,
            1 => run.stage = random.below(4) as u16,
            2 => run.length = random.below(54) as u16,
            3 => run.items[random.below(51) as usize] = random.below(6) as u16,
            _ => {}
        }
        run_step(random, &run, size);
    }
}

fn upto_runs(random: &mut Random) {
    for bound in 1..=10 {
        let mut run = library::upto_begin(bound).unwrap();
        while run.stage != 2 {
            run = upto_step(random, &run, bound as usize);
        }
        upto_step(random, &run, 0);
        run.visits -= 1;
        upto_step(random, &run, 0);
    }
    for _ in 0..6000 {
        let bound = 1 + random.below(50) as usize;
        let size = 1 + random.below(bound as u64) as usize;
        let mut run = listing::upto_run_at(bound, size, 1 + random.below(count_of(size)));
        match random.below(10) {
            0 => run.bound = random.below(53) as u16,
            1 => run.stage = random.below(4) as u16,
            2 => run.length = random.below(54) as u16,
            3 => run.items[random.below(51) as usize] = random.below(6) as u16,
            4 => run.visits = [0, run.visits - 1, run.visits + 1][random.below(3) as usize],
            _ => {}
        }
        upto_step(random, &run, size);
    }
}

type ReadWord = fn(&[u16], &mut [u16], &mut [u16]) -> Result<usize, u16>;
type Position = fn(&[u16], &[u16], u64) -> Result<u64, u16>;

/// The answer to a cell by reading its word and asking for the position.
fn cell_by(read: ReadWord, position: Position, cell: &[u16]) -> Result<u64, u16> {
    let (mut s0, mut s1) = ([0; 160], [0; 160]);
    let length = cell[0] as usize;
    if length >= CELL || cell[length + 1..].iter().any(|&number| number != 0) {
        return Err(61);
    }
    let size = read(&cell[1..=length], &mut s0, &mut s1)?;
    position(&s0[..size], &s1[..size], 1)
}

/// A sheet, cell by cell.
fn sheet_by(read: ReadWord, position: Position, sheet: &[u16], refusals: &mut [u16], positions: &mut [u64]) -> Result<(), u16> {
    let cells = sheet.chunks_exact(CELL);
    if !cells.remainder().is_empty() {
        return Err(61);
    }
    if refusals.len() < cells.len() || positions.len() < cells.len() {
        return Err(9);
    }
    for ((cell, refusal), place) in cells.zip(refusals).zip(positions) {
        (*refusal, *place) = match cell_by(read, position, cell) {
            Ok(position) => (0, position),
            Err(number) => (number, 0),
        };
    }
    Ok(())
}

/// A sheet of so many words of one size, in some cases of 54 edges; some of its cells are damaged, and now and then it ends within a cell.
fn any_sheet(random: &mut Random, cells: usize) -> Vec<u16> {
    let size = 1 + random.below(50) as usize;
    let words = match random.below(8) {
        0 => words(&(0..cells).map(|_| random.diagram(54)).collect::<Vec<_>>()),
        _ => pages::words(random, size, cells),
    };
    let mut sheet = pages::sheet(&words);
    for _ in 0..random.below(cells as u64 + 1) {
        let cell = random.below(cells as u64) as usize;
        let place = [0, 1, 2, 5, CELL - 1, random.below(CELL as u64) as usize][random.below(6) as usize];
        sheet[cell * CELL + place] = random.below(if place == 0 { 60 } else { 6 }) as u16;
    }
    sheet.extend((random.below(16) == 0).then_some(0));
    sheet
}

fn sheets(random: &mut Random) {
    let sides: [(ReadWord, Position); 3] = [
        (library::read_word, library::position),
        (same::reading::read_word, same::positions::position),
        (tuned::reading::read_word, tuned::positions::position),
    ];
    for _ in 0..1500 {
        let cells = random.below(20) as usize;
        let sheet = any_sheet(random, cells);
        let mut room = || cells.saturating_sub((random.below(16) == 0) as usize) + random.below(3) as usize;
        let lists = (vec![7; room()], vec![7; room()]);
        let (mut a, mut b) = lists.clone();
        let by_library = (library::sheet_positions(&sheet, &mut a, &mut b), a, b);
        for (read, position) in sides {
            let (mut a, mut b) = lists.clone();
            equal("sheet", &by_library, &(sheet_by(read, position, &sheet, &mut a, &mut b), a, b));
        }
        let (mut a, mut b) = lists;
        equal("sheet", &by_library, &(same::sheets::sheet_positions(&sheet, &mut a, &mut b), a, b));
    }
}

fn spoil(random: &mut Random, book: &mut Book) {
    let at = random.below(32) as usize;
    match random.below(10) {
        0 => book.size = random.below(53),
        1 => book.shares = random.below(35),
        2 => book.latest = [1 << 48, (1 << 48) - 1, 0][random.below(3) as usize],
        3 => book.issued = random.below(70_000),
        4 => book.next[at] = random.below(30),
        5 => book.ticket[at] = book.ticket[random.below(32) as usize],
        6 => book.ticket[at] = random.below(10),
        7 | 8 => clash(random, book),
        _ => book.expiry[at] = random.below(70_000),
    }
}

/// Tickets that are equal modulo 128 at the shares that are not finished; now and then two are equal.
fn clash(random: &mut Random, book: &mut Book) {
    let first = 1 + random.below(128);
    let open = (0..book.shares as usize).filter(|&i| book.next[i] <= (i as u64 + 1) * count_of(book.size as usize) / book.shares);
    for (far, i) in open.collect::<Vec<_>>().into_iter().enumerate() {
        let far = far as u64 - (far > 0 && random.below(40) == 0) as u64;
        book.ticket[i] = first + 128 * far;
    }
    book.issued = first + 128 * 32;
}

/// The calls of one side.
struct Calls {
    claim: fn(&mut Book, u64, u64, u64) -> Result<u64, u16>,
    take: fn(&mut Book, u64, u64, &mut [u16], &mut [u16], &mut [u16]) -> Result<kaldvemir::Taken, u16>,
    commit: fn(&mut Book, u64, u64, u64) -> Result<(), u16>,
    commit_range: fn(&mut Book, u64, u64, u64, u64) -> Result<(), u16>,
}

const LIBRARY: Calls = Calls { claim: library::claim, take: library::take, commit: library::commit, commit_range: library::commit_range };
const SAME: Calls = Calls { claim: same::book::claim, take: same::book::take, commit: same::book::commit, commit_range: same::book::commit_range };
const TUNED: Calls = Calls { claim: tuned::book::claim, take: tuned::book::take, commit: tuned::book::commit, commit_range: tuned::book::commit_range };

/// One call on a copy of the book for each side; returns the book as the call left it.
fn one_call(random: &mut Random, book: &Book, tick: u64) -> Book {
    let share = random.below(book.shares + 2);
    let ticket = match random.below(4) {
        0 => random.below(book.issued + 2),
        _ => book.ticket[random.below(32) as usize],
    };
    let length = [0, 1, 10, 65_535, 65_536][random.below(5) as usize];
    let held = book.ticket.iter().position(|&t| t == ticket).unwrap_or(0);
    let position = book.next[held] + (random.below(8) == 0) as u64;
    let out = outputs(random, book.size as usize);
    let last = [position.wrapping_sub(1), position, position + 1, position + random.below(9)][random.below(4) as usize];
    let call = random.below(4);
    let by = |calls: Calls| {
        move |o: &mut Outputs| {
            let mut b = book.clone();
            let answer = match call {
                0 => (calls.claim)(&mut b, tick, share, length).map(|ticket| [ticket, 0, 0]),
                1 => (calls.take)(&mut b, tick, ticket, &mut o.s0, &mut o.s1, &mut o.word).map(|t| [t.share, t.position, t.length as u64]),
                2 => (calls.commit)(&mut b, tick, ticket, position).map(|()| [0; 3]),
                _ => (calls.commit_range)(&mut b, tick, ticket, position, last).map(|()| [0; 3]),
            };
            (answer, b)
        }
    };
    let what = ["claim", "take", "commit", "commit range"][call as usize];
    agree(what, out.clone(), by(LIBRARY), by(SAME));
    agree(what, out.clone(), by(LIBRARY), by(TUNED));
    by(LIBRARY)(&mut out.clone()).1
}

fn books(random: &mut Random) {
    for i in 0..300 {
        let size = if i % 2 == 0 { 1 + random.below(8) } else { 1 + random.below(50) };
        let mut book = opened(size, 1 + random.below(32));
        let mut tick = 0;
        for _ in 0..60 {
            tick += random.below(3);
            let asked = if random.below(20) == 0 { tick.saturating_sub(2) } else { tick };
            book = one_call(random, &book, asked);
            let mut spoilt = book.clone();
            spoil(random, &mut spoilt);
            one_call(random, &spoilt, tick);
        }
    }
}

fn lists() {
    for size in 1..=14usize {
        let mut run = library::begin(size as u64).unwrap();
        let (mut s0, mut s1, mut word) = (vec![0; size], vec![0; size], vec![0; size + 1]);
        generate(size, |t0, t1, w| {
            let length = library::step(&mut run, &mut s0, &mut s1, &mut word).unwrap();
            equal("whole list", (&s0[..], &s1[..], &word[..length]), (t0, t1, w));
            equal("keep mark", library::kept(&s0, &s1, 1), Ok(kept_known(t0, t1, w)));
        });
        equal("whole list's end", library::step(&mut run, &mut s0, &mut s1, &mut word), Ok(0));
    }
}

fn lists_in_blocks() {
    for size in 1..=14usize {
        let (mut plain, mut marked, mut listed, mut generated) = (vec![], vec![], vec![], vec![]);
        blocks::list(size, library::list, |block, given| {
            block.each(given, |s0, s1, word, _| plain.push((s0.to_vec(), s1.to_vec(), word.to_vec())));
        });
        blocks::list(size, library::list_marked, |block, given| {
            block.each(given, |s0, s1, word, keep| marked.push((s0.to_vec(), s1.to_vec(), word.to_vec(), keep)));
        });
        let mut tracer = Tracer::<SMALL_PLACES>::new();
        same::lister::list(size, |s0, s1, word| listed.push((s0.to_vec(), s1.to_vec(), word.to_vec(), tracer.least(s0, s1, 1, word))));
        generate(size, |s0, s1, word| {
            equal("keep mark with the early test", kept_known(s0, s1, word), kept_tested(s0, s1, word));
            generated.push((s0.to_vec(), s1.to_vec(), word.to_vec(), kept_known(s0, s1, word)));
        });
        equal("whole list in blocks with keep marks", &marked, &listed);
        equal("whole list in blocks with keep marks", &marked, &generated);
        equal("whole list in blocks", plain, generated.into_iter().map(|(s0, s1, word, _)| (s0, s1, word)).collect());
    }
}

/// The sums that whole lists are timed with.
fn sums() {
    for (name, mut row) in [
        ("whole list", whole::list(13)),
        ("whole list with keep marks", whole::marked(13)),
        ("whole list by steps", whole::list_by_steps(13)),
        ("whole list with keep marks by steps", whole::marked_by_steps(13)),
    ] {
        timing::round(name, &mut row, 1);
    }
}

fn censuses() {
    for size in [1, 2, 3, 4, 9, 13] {
        let page = || Page::new(Some(Vec::new()));
        let written = |write: &dyn Fn(&mut Page) -> u64| {
            let mut page = page();
            (write(&mut page), page.kept.map(String::from_utf8))
        };
        let by_library = written(&|page| census::by_blocks(size, page));
        let others: [&dyn Fn(&mut Page) -> u64; 7] = [
            &|page| census::by_rows(size, page),
            &|page| census::by_lister(size, page),
            &|page| census::by_generator(size, page, kept_known),
            &|page| census::by_generator(size, page, kept_tested),
            &|page| census::by_steps(&census::LIBRARY, size, page),
            &|page| census::by_steps(&census::SAME, size, page),
            &|page| census::by_steps(&census::TUNED, size, page),
        ];
        others.iter().for_each(|other| equal("census", &by_library, &written(other)));
    }
}
