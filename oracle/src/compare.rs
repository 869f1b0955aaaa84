//! The live comparison: the same queries to the Rust and, over a pipe, to a program.

use crate::answer::{answer, By, Excluding};
use crate::gen::Queries;
use crate::panics::quietly;
use crate::record::{hex, name_of, Answer, Query, ANSWER, BOARD, KINDS, PORT, QUERY, SERIAL, TICKED, TRAY};
use crate::summary::Summary;
use std::io::{BufReader, BufWriter, Read, Write};
use std::process::{Child, ChildStdout, Command, Stdio};
use std::thread;

pub fn spawn(program: &str) -> Result<Child, String> {
    let mut words = program.split_whitespace();
    let mut command = Command::new(words.next().unwrap_or(""));
    command.args(words).stdin(Stdio::piped()).stdout(Stdio::piped());
    command
        .spawn()
        .map_err(|error| format!("can't run {}: {}", program, error))
}

/// Sends the queries from a thread of its own, so that neither side waits for the other's buffers.
fn send(child: &mut Child, queries: impl Iterator<Item = Query> + Send + 'static) -> thread::JoinHandle<()> {
    let stdin = child.stdin.take().expect("stdin is a pipe");
    thread::spawn(move || {
        let mut pipe = BufWriter::new(stdin);
        for query in queries {
            // A program that ended early is noticed by its missing answers.
            if pipe.write_all(&query).is_err() {
                return;
            }
        }
        let _ = pipe.flush();
    })
}

fn receive(pipe: &mut BufReader<ChildStdout>) -> Option<Answer> {
    let mut answer = [0; ANSWER];
    pipe.read_exact(&mut answer).ok().map(|_| answer)
}

/// Compares `count` queries of a seed. False: a difference, which was shown.
pub fn run(seed: u64, count: usize, program: &str, excluding: Excluding) -> Result<bool, String> {
    let same = compare(Queries::new(seed, count), count, program, excluding)?;
    println!("oracle: seed {}, {} queries: {}", seed, count, verdict(same));
    Ok(same)
}

/// Compares the queries of a recorded list: all, or those that the Rust alone does not answer.
pub fn list(path: &str, program: &str, excluding: Excluding, all: bool) -> Result<bool, String> {
    let bytes = std::fs::read(path).map_err(|error| format!("can't read {}: {}", path, error))?;
    let mut queries = Vec::new();
    for part in bytes.chunks_exact(QUERY) {
        let mut query = [0; QUERY];
        query.copy_from_slice(part);
        if all || answer(&query, excluding).1 != By::Rust {
            queries.push(query);
        }
    }
    let count = queries.len();
    let same = compare(queries.into_iter(), count, program, excluding)?;
    println!("oracle: {}, {} queries: {}", path, count, verdict(same));
    Ok(same)
}

pub fn verdict(same: bool) -> &'static str {
    if same {
        "no difference"
    } else {
        "A DIFFERENCE"
    }
}

fn compare<Q>(queries: Q, count: usize, program: &str, excluding: Excluding) -> Result<bool, String>
where
    Q: Iterator<Item = Query> + Clone + Send + 'static,
{
    let mut child = spawn(program)?;
    // The sender has its own copy: both go through the same queries, each at its pace.
    let sender = send(&mut child, queries.clone());
    let mut pipe = BufReader::new(child.stdout.take().expect("stdout is a pipe"));
    let mut summary = Summary::default();
    let mut same = true;
    for (i, query) in queries.enumerate() {
        let (expected, by) = answer(&query, excluding);
        let got = receive(&mut pipe);
        if got != Some(expected) {
            show(i, &query, &expected, by, got.as_ref());
            same = false;
            break;
        }
        summary.add(&query, &expected, by);
        if (i + 1) % 50_000 == 0 {
            eprintln!("oracle: {} of {} queries, no difference", i + 1, count);
        }
    }
    if same {
        same = ended_well(&mut child, &mut pipe)?;
    } else {
        let _ = child.kill();
        let _ = child.wait();
    }
    drop(pipe);
    let _ = sender.join();
    summary.print();
    Ok(same)
}

/// Nothing may follow the last answer, and the program must end with status 0.
pub fn ended_well(child: &mut Child, pipe: &mut BufReader<ChildStdout>) -> Result<bool, String> {
    let mut rest = Vec::new();
    pipe.read_to_end(&mut rest).map_err(|error| error.to_string())?;
    let status = child.wait().map_err(|error| error.to_string())?;
    if !rest.is_empty() {
        println!("the program wrote {} bytes after its last answer", rest.len());
    }
    if !status.success() {
        println!("the program ended with {}", status);
    }
    Ok(rest.is_empty() && status.success())
}

fn show(i: usize, query: &Query, expected: &Answer, by: By, got: Option<&Answer>) {
    let who = match (by, query[0]) {
        (By::Rust, _) => "the Rust",
        (By::Paper, SERIAL | PORT | BOARD | TRAY | TICKED) => "document 02",
        (By::Paper, _) => "document 01",
        (By::Manual, _) => "the Rust with AHB code 0, and the maker's manuals",
    };
    println!("query {} differs: {}", i, name_of(query[0]));
    println!("  query    {}", hex(trimmed(query)));
    println!("  expected {} ({})", hex(expected), who);
    match got {
        None => println!("  got      no answer: the program ended"),
        Some(got) => {
            println!("  got      {}", hex(got));
            let at = (0..ANSWER).find(|at| got[*at] != expected[*at]).unwrap_or(0);
            println!("  first at byte {}: expected {}, got {}", at, expected[at], got[at]);
        }
    }
    println!("  alone:   oracle/run --query {}", hex(trimmed(query)));
}

fn trimmed(query: &Query) -> &[u8] {
    let end = query.iter().rposition(|byte| *byte != 0).map_or(1, |last| last + 1);
    &query[..end]
}

/// One query, written as `show` writes it.
pub fn one(text: &str, program: &str, excluding: Excluding) -> Result<bool, String> {
    let query = parsed(text).ok_or("a query is at most 128 bytes in hexadecimal, two digits each")?;
    if !KINDS.iter().any(|row| row.0 == query[0]) {
        return Err(format!("there is no kind 0x{:02x} (oracle/README.md lists them)", query[0]));
    }
    let (expected, by) = quietly(|| answer(&query, excluding))
        .ok_or("this query holds what is never asked (oracle/README.md has the bytes)")?;
    let mut child = spawn(program)?;
    let sender = send(&mut child, std::iter::once(query));
    let mut pipe = BufReader::new(child.stdout.take().expect("stdout is a pipe"));
    let got = receive(&mut pipe);
    drop(pipe);
    let _ = sender.join();
    let _ = child.wait();
    if got == Some(expected) {
        println!("no difference: {}\n  both     {}", name_of(query[0]), hex(&expected));
        return Ok(true);
    }
    show(0, &query, &expected, by, got.as_ref());
    Ok(false)
}

fn parsed(text: &str) -> Option<Query> {
    let mut query = [0; QUERY];
    if text.is_empty() || text.len() % 2 != 0 || text.len() > 2 * QUERY || !text.bytes().all(|digit| digit.is_ascii_hexdigit()) {
        return None;
    }
    for (i, byte) in query.iter_mut().enumerate().take(text.len() / 2) {
        *byte = u8::from_str_radix(&text[2 * i..2 * i + 2], 16).ok()?;
    }
    Some(query)
}
