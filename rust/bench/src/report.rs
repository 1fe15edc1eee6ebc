//! The table: operation, the library's time, then the time of each kind of baseline with the library's ratio to it. A bar stands beside the ratio
//! that it is set for.
use crate::rows::Bar;
use crate::timing::{Column, Times};

const COLUMNS: [Column; 3] = [Column::Same, Column::Tuned, Column::Other];

pub enum Style {
    Plain,
    Markdown,
}

impl Style {
    pub fn print_header(&self) {
        match self {
            Style::Plain => self.print_cells("operation", "library ns", ["same ns", "tuned ns", "other ns"].map(|name| [name, "ratio"].map(String::from))),
            Style::Markdown => {
                self.print_cells("Operation", "Library", ["Same method", "Tuned", "Generator, or B"].map(|name| [name, "Ratio"].map(String::from)));
                println!("|---|{}", "---|".repeat(1 + 2 * COLUMNS.len()));
            }
        }
    }

    /// Prints a row and returns whether its bar, if it has one, is met.
    pub fn print(&self, name: &str, times: &Times, bar: &Option<Bar>) -> bool {
        let mut met = true;
        let cells = COLUMNS.map(|column| {
            let Some(baseline) = time_of(times, column) else {
                return [String::new(), String::new()];
            };
            let ratio = times.library / baseline;
            let mut shown = format!("{ratio:.2}");
            if let Some(bar) = bar.as_ref().filter(|bar| bar.column == column) {
                met = ratio <= bar.most;
                shown += &format!(", bar {} {}", bar.most, if met { "met" } else { "MISSED" });
            }
            [self.number(baseline), shown]
        });
        let measured = bar.as_ref().is_none_or(|bar| time_of(times, bar.column).is_some());
        assert!(measured, "{name}: its bar is set for a column that it does not have");
        self.print_cells(name, &self.number(times.library), cells);
        met
    }

    fn print_cells(&self, name: &str, library: &str, cells: [[String; 2]; 3]) {
        let cells = cells.iter().map(|[time, ratio]| match self {
            Style::Plain => format!(" {time:>10} {ratio:<21}"),
            Style::Markdown => format!(" {time} | {ratio} |"),
        });
        let cells: String = cells.collect();
        match self {
            Style::Plain => println!("{}", format!("{name:<35} {library:>10}{cells}").trim_end()),
            Style::Markdown => println!("| {name} | {library} |{cells}"),
        }
    }

    /// Nanoseconds: in the plain table with a decimal, in Markdown without, in groups of three digits.
    fn number(&self, nanoseconds: f64) -> String {
        match self {
            Style::Plain => format!("{nanoseconds:.1}"),
            Style::Markdown => grouped(nanoseconds.round() as u64),
        }
    }

    /// The last line: how many bars are missed, and of which rows.
    pub fn print_missed(&self, missed: &[&str]) {
        if matches!(self, Style::Markdown) {
            println!();
        }
        match missed {
            [] => println!("bars missed: 0"),
            names => println!("bars missed: {}: {}", names.len(), names.join("; ")),
        }
    }
}

fn time_of(times: &Times, column: Column) -> Option<f64> {
    times.baselines.iter().find(|(of, _)| *of == column).map(|(_, time)| *time)
}

fn grouped(number: u64) -> String {
    match number {
        0..=999 => number.to_string(),
        _ => format!("{},{:03}", grouped(number / 1000), number % 1000),
    }
}
