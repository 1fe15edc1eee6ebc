//! One row of the table: the library and the baselines do the same work in turn, A B C A B C, on the same inputs.
//! Time is the thread's processor time, so that other programs on the machine disturb it little.
use std::time::Duration;

/// A piece of work, which returns a sum over its answers.
pub type Work = Box<dyn FnMut() -> u64>;

/// What a row compares the library with: plain Rust by the same method, plain Rust tuned by methods of its own, or something else, which is Vidal's
/// generator or, in a row "A to B", B.
#[derive(Clone, Copy, PartialEq, Debug)]
pub enum Column {
    Same,
    Tuned,
    Other,
}

pub struct Row {
    /// How many calls a piece of work makes.
    calls: u64,
    library: Work,
    baselines: Vec<(Column, Work)>,
}

impl Row {
    pub fn new(calls: u64, library: impl FnMut() -> u64 + 'static) -> Row {
        Row { calls, library: Box::new(library), baselines: vec![] }
    }

    /// The row with a baseline.
    pub fn beside(mut self, column: Column, baseline: impl FnMut() -> u64 + 'static) -> Row {
        self.baselines.push((column, Box::new(baseline)));
        self
    }

    fn sides(&mut self) -> impl Iterator<Item = &mut Work> {
        std::iter::once(&mut self.library).chain(self.baselines.iter_mut().map(|(_, work)| work))
    }
}

pub struct Plan {
    pub repeats: usize,
    pub least: Duration,
}

/// The nanoseconds of a call, each the median of the repeats.
pub struct Times {
    pub library: f64,
    pub baselines: Vec<(Column, f64)>,
}

#[repr(C)]
struct Timespec {
    seconds: i64,
    nanoseconds: i64,
}

/// The number of the thread's processor time among the clocks of Linux.
const THREAD_CPUTIME: i32 = 3;

extern "C" {
    fn clock_gettime(clock: i32, time: *mut Timespec) -> i32;
}

fn now() -> Duration {
    let mut time = Timespec { seconds: 0, nanoseconds: 0 };
    // SAFETY: the C library, which std links anyway, writes one timespec.
    let status = unsafe { clock_gettime(THREAD_CPUTIME, &mut time) };
    assert_eq!(status, 0, "clock_gettime");
    Duration::new(time.seconds as u64, time.nanoseconds as u32)
}

fn time(work: &mut Work, rounds: u64) -> (Duration, u64) {
    let start = now();
    let mut sum = 0u64;
    for _ in 0..rounds {
        sum = sum.wrapping_add(std::hint::black_box(work()));
    }
    (now() - start, sum)
}

/// How many rounds a piece of work needs for the least time of a repeat.
fn rounds(work: &mut Work, least: Duration) -> u64 {
    let mut rounds = 1;
    loop {
        let (spent, _) = time(work, rounds);
        if spent >= least {
            return rounds;
        }
        rounds = (rounds as f64 * (least.as_secs_f64() / spent.as_secs_f64().max(1e-9)) * 1.1).ceil() as u64;
    }
}

/// Runs every side and returns the times, once it is seen that they answer alike.
pub fn round(name: &str, row: &mut Row, rounds: u64) -> Vec<f64> {
    let results: Vec<(Duration, u64)> = row.sides().map(|side| time(side, rounds)).collect();
    assert!(results.iter().all(|r| r.1 == results[0].1), "{name}: the library and plain Rust answer differently");
    results.iter().map(|r| r.0.as_nanos() as f64 / (rounds * row.calls) as f64).collect()
}

pub fn measure(name: &str, row: &mut Row, plan: &Plan) -> Times {
    round(name, row, 1);
    let rounds = row.sides().map(|side| rounds(side, plan.least)).max().expect("a row has sides");
    let repeats: Vec<Vec<f64>> = (0..plan.repeats).map(|_| round(name, row, rounds)).collect();
    let median = |side: usize| median(repeats.iter().map(|r| r[side]).collect());
    let baselines = row.baselines.iter().zip(1..).map(|((column, _), side)| (*column, median(side))).collect();
    Times { library: median(0), baselines }
}

fn median(mut list: Vec<f64>) -> f64 {
    list.sort_by(f64::total_cmp);
    list[list.len() / 2]
}
