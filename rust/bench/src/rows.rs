//! The rows of the table.
pub mod books;
pub mod census;
pub mod given;
pub mod listing;
pub mod sheets;
pub mod whole;

use crate::timing::Column::{Other, Same, Tuned};
use crate::timing::{Column, Row};

/// The most that the library's time may be, as a multiple of the time in a column.
pub struct Bar {
    pub column: Column,
    pub most: f64,
}

/// A row's name, its bar and how it is set up.
pub struct Entry {
    pub name: &'static str,
    pub bar: Option<Bar>,
    pub set_up: fn() -> Row,
}

/// A row with a bar.
const fn barred(name: &'static str, column: Column, most: f64, set_up: fn() -> Row) -> Entry {
    Entry { name, bar: Some(Bar { column, most }), set_up }
}

/// A row for information.
const fn free(name: &'static str, set_up: fn() -> Row) -> Entry {
    Entry { name, bar: None, set_up }
}

pub const ROWS: &[Entry] = &[
    barred("check 1024", Same, 1.5, given::check),
    barred("read word 1024", Tuned, 2.5, given::read_word),
    barred("relabel 1024", Tuned, 1.5, || given::relabel(given::large(64))),
    barred("relabel 50", Tuned, 1.5, || given::relabel(given::listed(1000))),
    barred("invariants, level about 2^64", Same, 1.5, given::invariants),
    barred("diagram at a position 50", Tuned, 1.5, listing::diagram_at),
    barred("position 50", Tuned, 1.5, listing::position),
    barred("kept 24, a stretch of the list", Tuned, 1.5, listing::kept_stretch),
    barred("kept 24, random", Tuned, 1.5, listing::kept_random),
    barred("run step 25", Same, 1.5, listing::steps),
    barred("upto step 25", Same, 1.5, listing::upto_steps),
    barred("upto step 25 to run step 25", Other, 2.5, listing::upto_steps_to_steps),
    free("visit test 25 to upto step 25", listing::visit_tests),
    barred("sheet 24 to read and position", Other, 1.1, sheets::sheet_to_calls),
    barred("census line 20", Other, 1.5, || census::lines(20)),
    free("census line 20 by steps", || census::lines_by_steps(20)),
    barred("claim 24, 32 shares", Tuned, 1.2, || books::claim(32)),
    barred("take 24, 32 shares", Tuned, 1.2, || books::take(books::claimed(32))),
    barred("commit 24, 32 shares", Tuned, 1.2, || books::commit(books::claimed(32))),
    free("claim 24, 32 shares, tickets clash", books::claim_clashing),
    free("take 24, 32 shares, tickets clash", || books::take(books::clashing())),
    free("commit 24, 32 shares, tickets clash", || books::commit(books::clashing())),
    barred("claim 24, 4 shares", Tuned, 1.6, || books::claim(4)),
    barred("take 24, 4 shares", Tuned, 1.6, || books::take(books::claimed(4))),
    barred("commit 24, 4 shares", Tuned, 1.6, || books::commit(books::claimed(4))),
    free("1,000 commits in one call", books::thousand_in_one_call),
    free("1,000 commits one by one", books::thousand_one_by_one),
    barred("whole list 20", Other, 0.9, || whole::list(20)),
    barred("whole list 22", Other, 0.9, || whole::list(22)),
    barred("whole list 20 with keep marks", Other, 0.6, || whole::marked(20)),
    barred("whole list 21 with keep marks", Other, 1.0, || whole::marked(21)),
    barred("whole list 22 with keep marks", Other, 0.6, || whole::marked(22)),
    barred("whole list 24 with keep marks", Other, 1.0, || whole::marked(24)),
    barred("rows of size 20", Other, 2.0, || census::text(20)),
    free("whole list 20 by steps", || whole::list_by_steps(20)),
    free("whole list 22 by steps", || whole::list_by_steps(22)),
    free("whole list 20 marked, by steps", || whole::marked_by_steps(20)),
    free("whole list 22 marked, by steps", || whole::marked_by_steps(22)),
];

/// A row of an operation: the library, the same method and the tuned one.
fn row<W: FnMut() -> u64 + 'static>(calls: u64, library: W, same: W, tuned: W) -> Row {
    Row::new(calls, library).beside(Same, same).beside(Tuned, tuned)
}
