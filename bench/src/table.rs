//! The table: a line for each case, in Markdown.

use crate::callgrind::Counts;
use crate::cases::{cases, measured, Case, Half, ONE_CALL};
use crate::inputs::{Inputs, BOARDS};
use std::time::Instant;

const HEAD: &str = "| work, a call | ours, instructions | the Rust's | ratio | ours, ns | the Rust's, ns | ratio |";

/// A line: instructions of both sides, then nanoseconds.
pub struct Line {
    name: &'static str,
    instructions: [Option<f64>; 2],
    nanoseconds: [Option<f64>; 2],
}

/// Every half of every case once, in the table's order; then every call of the startups by itself.
pub fn calls(inputs: &Inputs) {
    for half in cases().iter().flat_map(halves) {
        measured(half.run, inputs);
    }
    for turn in 0..inputs.turns.len() {
        inputs.turn.set(turn);
        measured(ONE_CALL.run, inputs);
    }
}

fn halves(case: &Case) -> Vec<&Half> {
    std::iter::once(&case.ours).chain(&case.theirs).collect()
}

/// The lines, from callgrind's files `counts`.1, `counts`.2, ..: one for each half, in order.
pub fn lines(counts: &str, inputs: &Inputs, timed: bool) -> Result<Vec<Line>, String> {
    let mut lines = Vec::new();
    let mut file = 0;
    for case in cases() {
        let mut line = Line {
            name: case.name,
            instructions: [None; 2],
            nanoseconds: [None; 2],
        };
        for (side, half) in halves(&case).into_iter().enumerate() {
            file += 1;
            let cost = Counts::read(&format!("{}.{}", counts, file))?.cost(&half.cost);
            let cost = cost.map_err(|error| format!("{}: {}", case.name, error))?;
            line.instructions[side] = Some(cost as f64 / f64::from((half.run)(inputs)));
            if timed && half.timed {
                line.nanoseconds[side] = Some(nanoseconds(half, inputs));
            }
        }
        lines.push(line);
    }
    lines.push(dearest(counts, file, inputs)?);
    Ok(lines)
}

/// The dearest call of all startups, from the files behind this one.
fn dearest(counts: &str, file: usize, inputs: &Inputs) -> Result<Line, String> {
    let mut most = 0;
    for turn in 1..=inputs.turns.len() {
        most = most.max(Counts::read(&format!("{}.{}", counts, file + turn))?.cost(&ONE_CALL.cost)?);
    }
    Ok(Line {
        name: "startup, the dearest call",
        instructions: [Some(most as f64), None],
        nanoseconds: [None; 2],
    })
}

/// Nanoseconds a call: the best of some passes of at least a millisecond.
fn nanoseconds(half: &Half, inputs: &Inputs) -> f64 {
    let pass = || {
        let start = Instant::now();
        let mut calls = 0;
        while start.elapsed().as_millis() < 1 {
            calls += (0..4).map(|_| measured(half.run, inputs)).sum::<u32>();
        }
        start.elapsed().as_nanos() as f64 / f64::from(calls)
    };
    (0..40).map(|_| pass()).fold(f64::INFINITY, f64::min)
}

fn ratio([ours, theirs]: [Option<f64>; 2]) -> Option<f64> {
    Some(ours? / theirs?)
}

fn shown(number: Option<f64>, places: usize) -> String {
    number.map_or("–".to_string(), |number| format!("{:.*}", places, number))
}

fn columns(pair: [Option<f64>; 2]) -> String {
    format!(
        "{} | {} | {}",
        shown(pair[0], 0),
        shown(pair[1], 0),
        shown(ratio(pair), 2)
    )
}

pub fn print(lines: &[Line]) {
    println!("{}\n|---|---:|---:|---:|---:|---:|---:|", HEAD);
    for line in lines {
        println!(
            "| {} | {} | {} |",
            line.name,
            columns(line.instructions),
            columns(line.nanoseconds)
        );
    }
}

/// A tray's line, and the line of a call for one of its boards.
const TRAYS: [(&str, &str); 2] = [
    (
        "tray of 400 boards, accepted",
        "profile read and check, accepted (fast)",
    ),
    ("tray of 400 boards, refused", "profile read and check, refused (fast)"),
];
/// What a board of a tray may take beside its read and check.
const BESIDE: f64 = 100.0;
/// What a call of the readers may take, and a call of a startup.
const CALLS: [(&str, f64); 3] = [
    ("32 bits at any place (fast)", 64.0),
    ("profile read alone", 350.0),
    ("startup, the dearest call", 1500.0),
];

/// Whether no line is above its limit: for each that has one a sentence, and a yes or no.
fn budgets(lines: &[Line]) -> Vec<(String, bool)> {
    let ours = |name: &str| {
        let line = lines.iter().find(|line| line.name == name);
        line.and_then(|line| line.instructions[0]).expect("a line of the table")
    };
    let budget = |name: &str, most: f64, reason: String| {
        let takes = ours(name);
        let word = if takes <= most { "within" } else { "MORE THAN" };
        (format!("{}: {:.0}, {} {}.", name, takes, word, reason), takes <= most)
    };
    let tray = |(tray, one): &(&str, &str)| {
        let one = ours(one);
        let most = BOARDS as f64 * (one + BESIDE);
        let reason = format!("{} x ({:.2} + {:.0}), which is {:.0}", BOARDS, one, BESIDE, most);
        budget(tray, most, reason)
    };
    let one_call = |(name, most): &(&str, f64)| budget(name, *most, format!("{:.0}", most));
    TRAYS.iter().map(tray).chain(CALLS.iter().map(one_call)).collect()
}

/// The sentences, below the table.
pub fn print_budgets(lines: &[Line]) {
    println!();
    for (sentence, _) in budgets(lines) {
        println!("{}", sentence);
    }
}

/// Whether each is kept; where not, its sentence says so.
pub fn budgets_kept(lines: &[Line]) -> bool {
    let missed: Vec<_> = budgets(lines).into_iter().filter(|(_, kept)| !kept).collect();
    for (sentence, _) in &missed {
        eprintln!("bench: {}", sentence);
    }
    missed.is_empty()
}

/// A line of a document's table, cell by cell.
fn listed<'a>(document: &'a str, name: &str) -> Option<Vec<&'a str>> {
    let cells = |line: &'a str| line.split('|').map(str::trim).collect::<Vec<_>>();
    let mut lines = document.lines().map(cells);
    lines.find(|cells| cells.len() == 9 && cells[1] == name)
}

/// What of a line is held to the document: the cell, the places that it shows, and the number.
pub type Held = (usize, usize, fn(&Line) -> Option<f64>);
pub const RATIO: Held = (4, 2, |line| ratio(line.instructions));
pub const OURS: Held = (2, 0, |line| line.instructions[0]);

/// Whether every line is within 2 % of the document's; half of the last place that is shown is allowed too.
pub fn agrees(lines: &[Line], document: &str, (cell, places, number): Held) -> bool {
    let half = 0.5 / 10f64.powi(places as i32);
    let differs = |line: &&Line| {
        let row = listed(document, line.name);
        let then = row.map_or("nothing", |row| row[cell]);
        let now = number(line);
        let near = match (now, then.parse::<f64>()) {
            (Some(now), Ok(then)) => (now - then).abs() <= 0.02 * then + half,
            (None, _) => then == "–",
            _ => false,
        };
        if !near {
            let now = shown(now, places);
            eprintln!("bench: {}: {} now, and {} in the document", line.name, now, then);
        }
        !near
    };
    lines.iter().filter(differs).count() == 0
}
