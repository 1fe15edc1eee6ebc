//! The proved library against the reference in plain Rust, on random inputs; exit status 1 at the first difference, and where some refusal or
//! kind of answer never came, so that inputs that do not reach a condition are noticed.
//!
//!   differential [--full] [--seed N] [--inputs N]
//!
//! A short run compares 50,000 inputs of every operation at least, a full one 1,000,000. Kept counts, which the library finds by listing, are
//! those of small sizes, and of each size up to 18 once, in a full run up to 24. The same seed, 1 where none is given, gives the same inputs on
//! any number of cores.
#![forbid(unsafe_code)]

mod blocks;
mod books;
mod diagrams;
mod given;
mod levels;
mod listed;
mod lists;
mod outcomes;
mod random;
mod rows;
mod runs;
mod sheets;
mod upto;

use outcomes::{Compared, OutcomeCounts};
use random::Random;
use std::panic::{catch_unwind, AssertUnwindSafe};
use std::process::exit;
use std::sync::atomic::{AtomicUsize, Ordering};
use std::sync::Mutex;
use std::time::Instant;
use std::{env, thread};

const SHORT: u64 = 50_000;
const FULL: u64 = 1_000_000;
/// How many inputs of its operations a piece of work compares.
const PIECE: u64 = 5_000;

type Comparison = fn(&mut Random, &mut OutcomeCounts) -> Compared;

/// Each comparison with the operations it compares.
const COMPARISONS: [(Comparison, &[&str]); 30] = [
    (given::kept, &["kept"]),
    (blocks::list_marked, &["list marked"]),
    (blocks::list, &["list"]),
    (rows::rows, &["rows"]),
    (given::symmetries, &["symmetries"]),
    (given::compare_unrooted, &["compare unrooted"]),
    (given::compare_rooted, &["compare rooted"]),
    (given::check, &["check"]),
    (given::all_reached, &["all reached"]),
    (given::relabel, &["relabel"]),
    (given::invariants, &["invariants"]),
    (given::read_word, &["read word"]),
    (given::parts, &["parts up to 64", "parts above 64"]),
    (given::tall, &["read tall word", "relabel tall"]),
    (given::lesser, &["lesser"]),
    (given::letters, &["letters"]),
    (listed::count, &["count"]),
    (listed::kept_count, &["kept count"]),
    (listed::diagram_at, &["diagram at"]),
    (listed::position, &["position"]),
    (listed::plain_walk, &["plain walk"]),
    (runs::begin, &["begin"]),
    (runs::begin_at, &["begin at"]),
    (runs::steps, &["step"]),
    (upto::begin, &["upto begin"]),
    (upto::steps, &["upto step"]),
    (sheets::sheet_positions, &["sheet positions"]),
    (books::open, &["open"]),
    (books::old_tickets, &["tickets modulo 128", "equal tickets"]),
    (books::life, &["claim", "take", "commit", "commit range", "release", "report"]),
];

/// The largest size that is run through whole.
const WHOLE: u16 = 14;

/// The largest bound of sizes that is run through whole.
const WHOLE_UPTO: u16 = 11;

/// The largest size whose kept diagrams are counted, by the number of inputs an operation.
fn counted(inputs: u64) -> usize {
    if inputs < FULL { 18 } else { 24 }
}

/// How many pieces of work there are: one for each size that is counted, and then those of every comparison in turn.
fn pieces(inputs: u64) -> usize {
    counted(inputs) + COMPARISONS.len() * inputs.div_ceil(PIECE) as usize
}

/// A piece of work, by its number.
fn piece(number: usize, inputs: u64, seed: u64, counts: &mut OutcomeCounts) -> Compared {
    let mut random = Random::new(seed, number as u64);
    if number < counted(inputs) {
        let size = number as u16 + 1;
        listed::kept_count_of(size.into(), counts)?;
        return if size <= WHOLE { whole(size, &mut random, counts) } else { Ok(()) };
    }
    let (comparison, operations) = COMPARISONS[(number - counted(inputs)) % COMPARISONS.len()];
    while operations.iter().any(|operation| counts.inputs(operation) < PIECE) {
        comparison(&mut random, counts)?;
    }
    Ok(())
}

/// The whole runs of a size, by steps, in blocks, as rows and through all sizes.
fn whole(size: u16, random: &mut Random, counts: &mut OutcomeCounts) -> Compared {
    runs::whole(size, random, counts)?;
    blocks::whole(size, random, counts)?;
    rows::whole(size, random, counts)?;
    if size <= WHOLE_UPTO { upto::whole(size, random, counts) } else { Ok(()) }
}

/// Does piece after piece until none is left; at the first difference, or where the binding finds a fault, prints it and ends the program.
fn work(inputs: u64, seed: u64, next: &AtomicUsize, total: &Mutex<OutcomeCounts>) {
    loop {
        let number = next.fetch_add(1, Ordering::Relaxed);
        if number >= pieces(inputs) {
            return;
        }
        let mut counts = OutcomeCounts::default();
        match catch_unwind(AssertUnwindSafe(|| piece(number, inputs, seed, &mut counts))) {
            Ok(Ok(())) => total.lock().expect("no thread panics holding it").add(counts),
            Ok(Err(difference)) => fail(&format!(
                "DIFFERENCE in {}: seed {seed}, piece {number}\ninput: {}\nlibrary: {}\nreference: {}",
                difference.operation, difference.input, difference.library, difference.reference
            )),
            Err(_) => fail(&format!("FAULT, told above: seed {seed}, piece {number}")),
        }
    }
}

/// Prints a failure and ends the program; a second thread that fails waits for the first.
fn fail(report: &str) -> ! {
    static FIRST: Mutex<()> = Mutex::new(());
    let _first = FIRST.lock();
    eprintln!("{report}");
    exit(1)
}

/// The number of inputs an operation and the seed, from the arguments.
fn arguments() -> (u64, u64) {
    let (mut inputs, mut seed) = (SHORT, 1);
    let mut arguments = env::args().skip(1);
    while let Some(argument) = arguments.next() {
        let mut number = || arguments.next().and_then(|value| value.parse().ok());
        match (argument.as_str(), &mut number) {
            ("--full", _) => inputs = FULL,
            ("--seed", number) => seed = number().unwrap_or_else(|| usage()),
            ("--inputs", number) => inputs = number().unwrap_or_else(|| usage()),
            _ => usage(),
        }
    }
    (inputs, seed)
}

fn usage() -> ! {
    eprintln!("usage: differential [--full] [--seed N] [--inputs N]");
    exit(2)
}

fn main() {
    let (inputs, seed) = arguments();
    let cores = thread::available_parallelism().map_or(1, usize::from);
    let started = Instant::now();
    println!("seed {seed}, {inputs} inputs of every operation at least, {cores} threads");
    let (next, total) = (AtomicUsize::new(0), Mutex::new(OutcomeCounts::default()));
    thread::scope(|scope| {
        for _ in 0..cores {
            scope.spawn(|| work(inputs, seed, &next, &total));
        }
    });
    let total = total.into_inner().expect("no thread panics holding it");
    println!("{total}");
    let complaints = total.complaints();
    for complaint in &complaints {
        eprintln!("MISSED: {complaint}");
    }
    if !complaints.is_empty() {
        eprintln!("seed {seed}");
        exit(1);
    }
    println!("no difference, every refusal met, {:.0} seconds", started.elapsed().as_secs_f64());
}
