//! Whole trays: one run of the program `tray` for each, and every byte that it writes held to `paper::tray`.

use crate::compare::{spawn, verdict};
use crate::gen::trays::{trays, Tray};
use crate::paper::profile::PROFILE;
use crate::paper::tray::{output, RECORD};
use crate::record::{hex, number};
use crate::summary::counted;
use std::io::{stdin, stdout, Read, Write};
use std::thread;

/// What a program does with a tray: what it writes, whether it lets all of the tray be sent, and whether it ends with status 0.
struct Run {
    written: Vec<u8>,
    sent: bool,
    well: bool,
}

/// Runs a program on a tray, which is sent from a thread of its own.
fn serve(program: &str, tray: Tray) -> Result<Run, String> {
    let mut child = spawn(program)?;
    let mut input = child.stdin.take().expect("stdin is a pipe");
    let mut output = child.stdout.take().expect("stdout is a pipe");
    let sender = thread::spawn(move || input.write_all(&tray).is_ok());
    let mut written = Vec::new();
    output.read_to_end(&mut written).map_err(|error| error.to_string())?;
    let well = child.wait().map_err(|error| error.to_string())?.success();
    let sent = sender.join().unwrap_or(false);
    Ok(Run { written, sent, well })
}

/// The number of a refused tray; 0: accepted.
fn refusal(output: &[u8]) -> u8 {
    let line = std::str::from_utf8(output).ok().and_then(|text| text.strip_prefix("refused "));
    line.map_or(0, |digits| digits.trim_end().parse().unwrap_or(0))
}

/// Answers by refusal number, 0 accepted: of trays, and of the boards of accepted ones.
struct Counts {
    trays: [u64; 256],
    boards: [u64; 256],
}

impl Counts {
    fn add(&mut self, output: &[u8]) {
        let refused = refusal(output);
        self.trays[refused as usize] += 1;
        if refused == 0 {
            for record in output.chunks_exact(RECORD) {
                self.boards[number(record) as usize] += 1;
            }
        }
    }

    fn print(&self) {
        let numbers: Vec<u8> = (1..=16).chain([30]).collect();
        println!("{}", counted("tray", &self.trays, &[29, 32]));
        println!("{}", counted("board", &self.boards, &numbers));
    }
}

/// A difference: the whole answers in short, and the first record that is not as expected.
fn show(i: usize, tray: &[u8], expected: &[u8], got: &[u8]) {
    let told = |output: &[u8]| match refusal(output) {
        0 => format!("{} bytes", output.len()),
        number => format!("refused {}", number),
    };
    println!("tray {} differs: {} bytes of profiles", i, tray.len());
    println!("  expected {} (document 02), got {}", told(expected), told(got));
    let at = expected.iter().zip(got).take_while(|(a, b)| a == b).count() / RECORD;
    let part = |bytes: &[u8], size: usize| hex(bytes.chunks(size).nth(at).unwrap_or(&[]));
    println!("  first at board {}, profile {}", at, part(tray, PROFILE));
    println!("  expected {}\n  got      {}", part(expected, RECORD), part(got, RECORD));
}

/// Compares `count` trays of a seed. False: a difference, which was shown.
pub fn run(seed: u64, count: usize, program: &str) -> Result<bool, String> {
    let mut counts = Counts {
        trays: [0; 256],
        boards: [0; 256],
    };
    let mut same = true;
    for (i, tray) in trays(seed, count).enumerate() {
        let expected = output(&tray);
        let run = serve(program, tray.clone())?;
        if run.written != expected || !run.sent || !run.well {
            show(i, &tray, &expected, &run.written);
            println!("  all of it sent: {}, status 0: {}", run.sent, run.well);
            same = false;
            break;
        }
        counts.add(&expected);
    }
    counts.print();
    println!("oracle: seed {}, {} trays: {}", seed, count, verdict(same));
    Ok(same)
}

/// Answers a tray from standard input as the program does: what it is compared with, as a program.
pub fn serve_stdin() -> Result<bool, String> {
    let mut input = Vec::new();
    let read = stdin().read_to_end(&mut input);
    let wrote = read.and_then(|_| stdout().write_all(&output(&input)));
    wrote.map_err(|error| error.to_string())?;
    Ok(true)
}
