//! The oracle: the Rust's answers to the queries that the port answers too.

mod answer;
mod compare;
mod gen;
mod lists;
mod panics;
mod paper;
mod powerup;
mod record;
mod rows;
mod rust;
mod summary;
mod texts;
mod trays;

use std::process::exit;

const USAGE: &str = "usage: oracle compare SEED COUNT PROGRAM | list FILE PROGRAM | papers FILE PROGRAM | query HEX PROGRAM | texts SEED COUNT PROGRAM | \
                     trays SEED COUNT PROGRAM | record SEED CRATES | check SEED CRATES | answer | tell | serve | rows\n       --listed after it: listed differences are not left out (the Rust's own answer to one, and the test of the comparison)";

fn main() {
    panics::note_panics();
    let mut args: Vec<String> = std::env::args().skip(1).collect();
    let listed = args.last().map_or(false, |last| last == "--listed");
    if listed {
        args.pop();
    }
    let excluding = answer::Excluding { listed: !listed };
    let words: Vec<&str> = args.iter().map(String::as_str).collect();
    let result = match words[..] {
        ["compare", seed, count, program] => compare::run(number(seed), number(count) as usize, program, excluding),
        ["list", path, program] => compare::list(path, program, excluding, true),
        ["papers", path, program] => compare::list(path, program, excluding, false),
        ["query", query, program] => compare::one(query, program, excluding),
        ["texts", seed, count, program] => texts::run(number(seed), number(count) as usize, program),
        ["trays", seed, count, program] => trays::run(number(seed), number(count) as usize, program),
        ["record", seed, dir] => lists::write(number(seed), dir),
        ["check", seed, dir] => lists::check(number(seed), dir),
        ["answer"] => lists::answer_stdin(excluding),
        ["tell"] => texts::tell_stdin(),
        ["serve"] => trays::serve_stdin(),
        ["rows"] => rows::run(),
        _ => Err(USAGE.to_string()),
    };
    match result {
        Ok(true) => {}
        Ok(false) => exit(1),
        Err(message) => {
            eprintln!("oracle: {}", message);
            exit(2)
        }
    }
}

fn number(text: &str) -> u64 {
    match text.parse() {
        Ok(number) => number,
        Err(_) => {
            eprintln!("oracle: not a number: {}", text);
            exit(2)
        }
    }
}
