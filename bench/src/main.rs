//! Our library and the Rust's original, on the same inputs, in one program. `bench/run` builds it and calls it.

mod callgrind;
mod cases;
mod compare;
mod fast;
mod inputs;
mod ours;
mod paper;
#[allow(dead_code)]
#[path = "../../oracle/src/record.rs"]
mod record;
mod table;
mod theirs;

use inputs::Inputs;
use std::process::exit;

const USAGE: &str = "usage: bench same                    status 1 where the two sides' answers differ
       bench calls                   every call of the table, for callgrind to count
       bench table COUNTS            the table, from callgrind's files COUNTS.1, COUNTS.2, .., and nanoseconds, measured now; then whether what
                                     has a limit keeps within it
       bench ratios COUNTS DOCUMENT  status 1 where a ratio of instructions is not the document's, or a line is above its limit
       bench ours COUNTS DOCUMENT    status 1 where our instructions are not the document's, or a line is above its limit";

fn agrees(counts: &str, path: &str, inputs: &Inputs, held: table::Held) -> Result<bool, String> {
    let document = std::fs::read_to_string(path).map_err(|error| format!("{}: {}", path, error))?;
    let lines = table::lines(counts, inputs, false)?;
    Ok(table::agrees(&lines, &document, held) & table::budgets_kept(&lines))
}

/// Whether all is as it should be.
fn run(words: &[&str], inputs: &Inputs) -> Result<bool, String> {
    match *words {
        ["same"] => Ok(compare::same_answers(inputs)),
        ["calls"] => {
            table::calls(inputs);
            Ok(true)
        }
        ["table", counts] => {
            let lines = table::lines(counts, inputs, true)?;
            table::print(&lines);
            table::print_budgets(&lines);
            Ok(true)
        }
        ["ratios", counts, path] => agrees(counts, path, inputs, table::RATIO),
        ["ours", counts, path] => agrees(counts, path, inputs, table::OURS),
        _ => Err(USAGE.to_string()),
    }
}

fn main() {
    // The Rust refuses by panicking, which is not printed; a fault of the bench is.
    let usual = std::panic::take_hook();
    std::panic::set_hook(Box::new(move |info| {
        let place = info.location().map_or("", |place| place.file());
        if !place.contains("/src/rcc/") {
            usual(info);
        }
    }));
    let args: Vec<String> = std::env::args().skip(1).collect();
    let words: Vec<&str> = args.iter().map(String::as_str).collect();
    match run(&words, &inputs::inputs()) {
        Ok(true) => {}
        Ok(false) => exit(1),
        Err(message) => {
            eprintln!("bench: {}", message);
            exit(2);
        }
    }
}
