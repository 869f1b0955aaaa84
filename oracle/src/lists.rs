//! The recorded list: queries and the expected answers, for a replay that needs no Rust.

use crate::answer::{answer, By, Excluding};
use crate::gen::random::Random;
use crate::gen::{boards, random_query, recorded, recorded_ticks, serial};
use crate::powerup;
use crate::rows;
use crate::record::{Query, QUERY};
use crate::summary::Summary;
use std::collections::HashMap;
use std::io::{stdin, stdout, BufReader, BufWriter, Read, Write};

struct Lists {
    stdin: Vec<u8>,
    stdout: Vec<u8>,
    /// How many records the Rust, the documents and the manuals answer.
    counts: [usize; 3],
    summary: Summary,
}

/// Adds random queries until each kind has each of its refusals three times (16, and 23 of a startup, never come).
fn fill(random: &mut Random, queries: &mut Vec<Query>) {
    let outcome = |query: &Query| {
        let expected = answer(query, Excluding { listed: true }).0;
        (expected[0], expected[1])
    };
    let mut seen = HashMap::new();
    for query in queries.iter() {
        *seen.entry(outcome(query)).or_insert(0) += 1;
    }
    for _ in 0..100_000 {
        let query = random_query(random);
        let count = seen.entry(outcome(&query)).or_insert(0);
        if *count < 3 {
            *count += 1;
            queries.push(query);
        }
    }
}

/// First what the Rust answers, then what the documents alone answer, then the AHB codes that go by the manuals.
fn made(seed: u64) -> Lists {
    let mut lists = Lists {
        stdin: Vec::new(),
        stdout: Vec::new(),
        counts: [0; 3],
        summary: Summary::default(),
    };
    let mut random = Random(seed);
    let mut queries: Vec<Query> = rows::queries().collect();
    queries.extend(recorded(&mut random));
    fill(&mut random, &mut queries);
    // Random serial divisors come behind what is drawn without them, boards behind both, and startups with ticks behind all: what stands before stays as it was.
    queries.extend((0..60).map(|_| serial::random(&mut random)));
    queries.extend((0..40).map(|_| boards::random(&mut random)));
    queries.extend(recorded_ticks(&mut random));
    for (part, wanted) in [By::Rust, By::Paper, By::Manual].into_iter().enumerate() {
        for query in &queries {
            let (expected, by) = answer(query, Excluding { listed: true });
            if by == wanted {
                lists.stdin.extend_from_slice(query);
                lists.stdout.extend_from_slice(&expected);
                lists.summary.add(query, &expected, by);
                lists.counts[part] += 1;
            }
        }
    }
    lists
}

/// The files of both programs, below the folder of the crates.
fn files(lists: &Lists, crates: &str) -> Vec<(String, Vec<u8>)> {
    let (powerup_in, powerup_out) = powerup::lists();
    vec![
        (format!("{}/replay/stdin", crates), lists.stdin.clone()),
        (format!("{}/replay/stdout", crates), lists.stdout.clone()),
        (format!("{}/powerup/stdin", crates), powerup_in),
        (format!("{}/powerup/stdout", crates), powerup_out),
    ]
}

pub fn write(seed: u64, crates: &str) -> Result<bool, String> {
    let lists = made(seed);
    for (path, bytes) in files(&lists, crates) {
        std::fs::write(&path, bytes).map_err(|error| format!("can't write {}: {}", path, error))?;
    }
    lists.summary.print();
    let [rust, paper, manual] = lists.counts;
    println!(
        "recorded: records 0 to {} from the Rust, {} to {} from documents 01 and 02, {} to {} with the manuals' table",
        rust - 1,
        rust,
        rust + paper - 1,
        rust + paper,
        rust + paper + manual - 1
    );
    Ok(true)
}

/// Whether the files are what `write` would write.
pub fn check(seed: u64, crates: &str) -> Result<bool, String> {
    let lists = made(seed);
    let mut same = true;
    for (path, bytes) in files(&lists, crates) {
        let held = std::fs::read(&path).map_err(|error| format!("can't read {}: {}", path, error))?;
        if held != bytes {
            println!("{} is not what the Rust and the documents answer", path);
            same = false;
        }
    }
    Ok(same)
}

/// Answers queries from standard input as the port's program does: what the program is compared with, as a program.
fn answer_all(excluding: Excluding) -> std::io::Result<()> {
    let mut input = BufReader::new(stdin());
    let mut output = BufWriter::new(stdout());
    let mut query = [0; QUERY];
    while input.read_exact(&mut query).is_ok() {
        output.write_all(&answer(&query, excluding).0)?;
    }
    output.flush()
}

pub fn answer_stdin(excluding: Excluding) -> Result<bool, String> {
    answer_all(excluding).map_err(|error| error.to_string())?;
    Ok(true)
}
