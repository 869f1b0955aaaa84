//! The program's text: whole inputs to the program `rows`, a length byte before each, and what it writes held to `paper::text`.

use crate::compare::{ended_well, spawn, verdict};
use crate::gen::inputs::{inputs, Input};
use crate::paper::text::text;
use crate::record::hex;
use crate::summary::counted;
use std::io::{stdin, stdout, BufReader, BufWriter, Read, Write};
use std::process::{Child, ChildStdout};
use std::thread;

/// Starts a program over the inputs, which are sent from a thread of their own. One that ends early is noticed by its missing text.
fn started(
    program: &str,
    inputs: impl Iterator<Item = Input> + Send + 'static,
) -> Result<(Child, BufReader<ChildStdout>), String> {
    let mut child = spawn(program)?;
    let mut pipe = BufWriter::new(child.stdin.take().expect("stdin is a pipe"));
    thread::spawn(move || {
        for input in inputs {
            if pipe.write_all(&[input.len() as u8]).is_err() || pipe.write_all(&input).is_err() {
                return;
            }
        }
    });
    let output = BufReader::new(child.stdout.take().expect("stdout is a pipe"));
    Ok((child, output))
}

/// Answers by refusal number, 0 accepted: of the profiles, and of the ports of accepted ones.
struct Told {
    profiles: [u64; 256],
    ports: [u64; 256],
}

impl Told {
    fn add(&mut self, text: &str) {
        let number = |line: &str| line.strip_prefix("refused ").map_or(0, |digits| digits.parse().unwrap_or(0));
        self.profiles[number(text.trim_end())] += 1;
        for line in text.lines().skip(7) {
            self.ports[number(line)] += 1;
        }
    }

    fn print(&self) {
        let profiles: Vec<u8> = (1..=16).chain([29, 30]).collect();
        println!("{}", counted("profile", &self.profiles, &profiles));
        println!("{}", counted("port", &self.ports, &[28, 33, 34]));
    }
}

/// Compares the texts of `count` inputs of a seed. False: a difference, which was shown.
pub fn run(seed: u64, count: usize, program: &str) -> Result<bool, String> {
    let (mut child, mut output) = started(program, inputs(seed, count))?;
    let mut told = Told {
        profiles: [0; 256],
        ports: [0; 256],
    };
    let mut same = true;
    for (i, input) in inputs(seed, count).enumerate() {
        let expected = text(&input);
        let mut got = vec![0; expected.len()];
        if output.read_exact(&mut got).is_err() || got != expected.as_bytes() {
            println!("input {} differs: {}", i, hex(&input));
            print!("expected, by the Rust and document 02:\n{}", expected);
            print!("got, asked alone:\n{}", alone(program, input)?);
            same = false;
            break;
        }
        told.add(&expected);
    }
    if same {
        same = ended_well(&mut child, &mut output)?;
    } else {
        let _ = child.kill();
        let _ = child.wait();
    }
    told.print();
    println!("oracle: seed {}, texts of {} inputs: {}", seed, count, verdict(same));
    Ok(same)
}

/// What a program writes for one input.
fn alone(program: &str, input: Input) -> Result<String, String> {
    let (mut child, mut output) = started(program, std::iter::once(input))?;
    let mut text = Vec::new();
    output.read_to_end(&mut text).map_err(|error| error.to_string())?;
    let _ = child.wait();
    Ok(String::from_utf8_lossy(&text).into_owned())
}

/// Answers inputs from standard input as `rows` does: what it is compared with, as a program.
fn tell_all() -> std::io::Result<()> {
    let mut input = BufReader::new(stdin());
    let mut output = BufWriter::new(stdout());
    let mut size = [0];
    while input.read_exact(&mut size).is_ok() {
        let mut bytes = vec![0; size[0] as usize];
        input.read_exact(&mut bytes)?;
        output.write_all(text(&bytes).as_bytes())?;
    }
    output.flush()
}

pub fn tell_stdin() -> Result<bool, String> {
    tell_all().map_err(|error| error.to_string())?;
    Ok(true)
}
