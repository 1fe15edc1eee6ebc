//! The library's speed beside plain Rust; `HELP` says what the table has.
mod agreement;
mod blocks;
mod generator;
mod letters;
mod library;
mod lines;
mod random;
mod report;
mod rows;
mod same;
mod table;
mod timing;
mod tuned;

use report::Style;
use rows::{Entry, ROWS};
use std::process::{exit, ExitCode};
use std::time::Duration;

const HELP: &str = "\
The library's speed beside plain Rust.

  bench [--quick] [--markdown] [NAME ..]

The rows whose name contains one of the names, else all. First it is seen that the library and every baseline agree on some thousands of inputs.

  --quick     short repeats, for trying out
  --markdown  the table in Markdown, as README has it
  --help      this text

A row has nanoseconds a call, each the median of 41 repeats of at least 10 ms (--quick: 3 of 5 ms) of processor time, the sides by turns in one run:
  library   the library, called through rust/kaldvemir
  same      plain safe Rust that does the same by the same method, with the same checks and refusals
  tuned     plain safe Rust tuned by methods of its own: bit sets up to 64 edges, stacks in arrays, branches left out; of lists with keep marks, of
            lines and of rows Vidal's generator with the test of U and T before it traces a rooting
  other     of whole lists, lines and rows Vidal's recursive generator, which checks nothing, with keep marks that stop at the first item that differs;
            in a row \"A to B\", whose first time is that of A, B
Each is followed by the library's ratio to it. Rows A to B:
  upto step 25 to run step 25    both of the library, from the same diagram on
  visit test 25 to upto step 25  both in plain Rust by the same method: counting the visits of a word, which condition 34 asks for, and the whole step
  sheet 24 to read and position  both of the library, a word of a sheet of 1,000 words and two calls for the same word

A bar is the most that the ratio may be; it stands beside the ratio that it is set for, with met or MISSED. Rows without a bar are for information.
The last line says how many bars are missed, and of which rows. The exit status is 1 where one is, except with --quick, and 2 for a wrong argument.
";

struct Arguments {
    quick: bool,
    style: Style,
    names: Vec<String>,
}

fn arguments() -> Arguments {
    let mut given = Arguments { quick: false, style: Style::Plain, names: vec![] };
    for argument in std::env::args().skip(1) {
        match argument.as_str() {
            "--quick" => given.quick = true,
            "--markdown" => given.style = Style::Markdown,
            "--help" => {
                print!("{HELP}");
                exit(0)
            }
            option if option.starts_with('-') => wrong(&format!("{option} is no option")),
            name if !ROWS.iter().any(|row| row.name.contains(name)) => wrong(&format!("no row has {name} in its name")),
            _ => given.names.push(argument),
        }
    }
    given
}

fn wrong(what: &str) -> ! {
    eprintln!("bench: {what}; bench --help says more");
    exit(2)
}

fn main() -> ExitCode {
    let Arguments { quick, style, names } = arguments();
    let plan = match quick {
        true => timing::Plan { repeats: 3, least: Duration::from_millis(5) },
        false => timing::Plan { repeats: 41, least: Duration::from_millis(10) },
    };
    agreement::all();
    eprintln!("the library and the baselines agree on the inputs tried; now the times");
    style.print_header();
    let mut missed = vec![];
    for Entry { name, bar, set_up } in ROWS {
        if names.is_empty() || names.iter().any(|part| name.contains(part)) {
            let times = timing::measure(name, &mut set_up(), &plan);
            if !style.print(name, &times, bar) {
                missed.push(*name);
            }
        }
    }
    style.print_missed(&missed);
    if missed.is_empty() || quick { ExitCode::SUCCESS } else { ExitCode::FAILURE }
}
