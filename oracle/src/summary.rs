//! What a run asked: by kind, how many were accepted and how many of each refusal.

use crate::answer::By;
use crate::paper::call::WAITS;
use crate::paper::manual;
use crate::record::*;

#[derive(Default)]
pub struct Summary {
    /// Answers by kind and refusal number; 0 is accepted.
    counts: Vec<[u64; 256]>,
    by_rust: u64,
    by_paper: u64,
    /// AHB codes 12 to 15 of each of `LEFT_OUT`.
    left_out: [LeftOut; 3],
    /// Answers that show ticks of each wait, and those of which the longest is each wait's.
    ticked: [[u64; WAITS.len()]; 2],
}

/// The families for which the Rust is not asked AHB codes 12 to 15, and their kinds of query.
const LEFT_OUT: [(&str, [u8; 3]); 3] = [
    ("V1", [V1_CHECK, V1_WRITTEN, V1_DECODE]),
    ("L1", [L1_CHECK, L1_WRITTEN, L1_DECODE]),
    ("V30x", [V30X_CHECK, V30X_WRITTEN, V30X_DECODE]),
];

#[derive(Default)]
struct LeftOut {
    queries: u64,
    /// Those whose answer shows the divisor, by code.
    tested: [u64; 16],
}

impl LeftOut {
    fn line(&self, family: &str) -> String {
        let count = |code: usize| match self.tested[code] {
            0 => format!("{} NEVER", code),
            times => format!("{} x{}", code, times),
        };
        let by_code: Vec<String> = (12..16).map(count).collect();
        let tested: u64 = self.tested.iter().sum();
        format!(
            "{:<4} AHB codes 12 to 15 {:>7} left out where the Rust is asked; {} tested against the manuals' table ({}), {} show no divisor",
            family,
            self.queries,
            tested,
            by_code.join(", "),
            self.queries - tested
        )
    }
}

impl Summary {
    pub fn add(&mut self, query: &Query, expected: &Answer, by: By) {
        self.counts.resize(KINDS.len(), [0; 256]);
        if let Some(kind) = KINDS.iter().position(|row| row.0 == expected[0]) {
            self.counts[kind][expected[1] as usize] += 1;
        }
        if expected[0] == TICKED {
            self.add_ticks(expected);
        }
        match by {
            By::Rust => self.by_rust += 1,
            By::Paper => self.by_paper += 1,
            By::Manual => self.add_left_out(query, expected),
        }
    }

    fn add_left_out(&mut self, query: &Query, expected: &Answer) {
        let family = LEFT_OUT.iter().position(|row| row.1.contains(&query[0]));
        let family = &mut self.left_out[family.expect("a family that is left out")];
        family.queries += 1;
        if let Some(code) = manual::shown(query, expected) {
            family.tested[code as usize] += 1;
        }
    }

    fn add_ticks(&mut self, expected: &Answer) {
        let longest = number(&expected[40..]);
        for place in 0..WAITS.len() {
            let ticks = number(&expected[8 + 4 * place..]);
            self.ticked[0][place] += u64::from(ticks > 0);
            self.ticked[1][place] += u64::from(ticks > 0 && ticks == longest);
        }
    }

    pub fn print(&self) {
        for ((_, name, refusals), counts) in KINDS.iter().zip(&self.counts) {
            println!("{}", counted(name, counts, refusals));
        }
        for ((family, _), left_out) in LEFT_OUT.iter().zip(&self.left_out) {
            println!("{}", left_out.line(family));
        }
        println!("ticks above 0 of waits {}", by_wait(&self.ticked[0]));
        println!("the longest at waits   {}", by_wait(&self.ticked[1]));
        let by_manual: u64 = self.left_out.iter().map(|family| family.queries).sum();
        println!(
            "expected answers: {} from the Rust, {} from documents 01 and 02, {} from the Rust with AHB code 0 and the manuals' table",
            self.by_rust, self.by_paper, by_manual
        );
    }
}

/// How many of each wait, by its step.
fn by_wait(counts: &[u64; WAITS.len()]) -> String {
    let count = |(step, times): (&u8, &u64)| match times {
        0 => format!("{} NEVER", step),
        _ => format!("{} x{}", step, times),
    };
    let all: Vec<String> = WAITS.iter().zip(counts).map(count).collect();
    all.join(", ")
}

/// A line of a summary: answers by refusal number, and which of the refusals never came.
pub fn counted(name: &str, counts: &[u64; 256], refusals: &[u8]) -> String {
    let asked: u64 = counts.iter().sum();
    let mut line = format!("{:<22} {:>7} asked, {:>7} accepted", name, asked, counts[0]);
    let given: Vec<String> = (1..256)
        .filter(|number| counts[*number] > 0)
        .map(|number| format!("{} x{}", number, counts[number]))
        .collect();
    if !given.is_empty() {
        line += &format!("; refused {}", given.join(", "));
    }
    let never: Vec<String> = refusals
        .iter()
        .filter(|number| counts[**number as usize] == 0)
        .map(u8::to_string)
        .collect();
    if !never.is_empty() {
        line += &format!("; NEVER {}", never.join(", "));
    }
    line
}
