//! The cases of the program `powerup`, and what the Rust makes of them: whole startups against a chip in order, or with one step failing.

use crate::answer::{answer, Excluding};
use crate::gen::startup::{reading_steps, startup, Script};
use crate::paper::call::{mode, WAITS};
use crate::paper::layout::config_of;
use crate::record::*;

/// Document 01's accepted rows as profiles, row A11 last.
const ROWS: [[u8; 10]; 10] = [
    [0x00, 0x00, 0x00, 0x00, 0x00, 0x18, 0x05, 0x80, 0x00, 0x34], // A1, HPRE 11
    [0x00, 0x00, 0x00, 0x00, 0x00, 0x18, 0x06, 0x00, 0x00, 0x34], // A1, HPRE 12
    [0x80, 0x13, 0x12, 0xd0, 0x00, 0x18, 0x00, 0x00, 0x00, 0x34], // A2, 5,000,000
    [0x80, 0x7a, 0x12, 0x00, 0x00, 0x18, 0x00, 0x00, 0x00, 0x34], // A3, 32,000,000
    [0x00, 0x00, 0x00, 0x00, 0x26, 0x98, 0x80, 0x00, 0x00, 0x34], // A5
    [0x80, 0x1e, 0x84, 0x80, 0x6c, 0xb8, 0x00, 0x00, 0x00, 0x34], // A6
    [0x80, 0x5f, 0x5e, 0x10, 0x20, 0x0c, 0x88, 0x00, 0x00, 0x34], // A7
    [0x00, 0x00, 0x00, 0x00, 0x00, 0x18, 0x50, 0x00, 0x40, 0xb4], // A9, divisor 2
    [0x80, 0x13, 0x12, 0xd0, 0x10, 0x18, 0x07, 0x8e, 0x00, 0x34], // A10
    [0x00, 0x00, 0x00, 0x00, 0x00, 0x18, 0x00, 0x00, 0x00, 0x34], // A11
];

/// The profile that docs/FORMATS.md works bit by bit: it has every part.
const EVERY_PART: [u8; 10] = [0xc0, 0x5f, 0x5e, 0x10, 0x2d, 0x98, 0xcc, 0x58, 0xc1, 0x34];

fn cases() -> Vec<([u8; 10], u8)> {
    let mut cases: Vec<_> = ROWS.iter().map(|profile| (*profile, 0)).collect();
    cases.push((EVERY_PART, 0));
    cases.extend(WAITS.iter().map(|step| (EVERY_PART, *step)));
    cases.push((EVERY_PART, 21));
    // Row A11 has no part to wait for: its steps 10 to 18 are skipped and can't fail.
    cases.extend([10, 12, 15, 18, 21, 27].iter().map(|step| (ROWS[9], *step)));
    cases
}

/// What a chip in order shows at each step that reads; at the failing one the contrary, without end.
fn script(config: &[u8; CONFIG], failing: u8) -> Script {
    let mut ready = 0x80;
    let mut script = Script::new();
    for step in reading_steps(config) {
        ready |= match step {
            10 => 0x40,
            12 => 0x08,
            15 => 0x10,
            18 => 0x20,
            _ => 0,
        };
        let sws = if step == 27 { config[6] } else { 0 };
        let sckmod = if step >= 21 { mode(config) } else { 0 };
        let reading = [ready, sws << 4 | sckmod];
        if step == failing {
            script.push((1_000_000, contrary(reading, step)));
        } else {
            script.push((1, reading));
        }
    }
    script
}

fn contrary(reading: [u8; 2], step: u8) -> [u8; 2] {
    let [ready, rest] = reading;
    let (sws, sckmod) = (rest >> 4, rest & 3);
    match step {
        2 => [ready & !0x80, rest],
        7 => [ready | 0x40, rest],
        10 => [ready & !0x40, rest],
        12 => [ready & !0x08, rest],
        15 => [ready & !0x10, rest],
        18 => [ready & !0x20, rest],
        21 => [ready, sws << 4 | (3 - sckmod)],
        _ => [ready, (3 - sws) << 4 | sckmod],
    }
}

fn line(config: &[u8; CONFIG], failing: u8) -> String {
    let query = startup(config, &[0; FIELDS], 8_000_100, &script(config, failing));
    let a = answer(&query, Excluding { listed: true }).0;
    let ending = if a[1] == 0 {
        "running".to_string()
    } else {
        format!("refused {}", a[1])
    };
    format!("{} step {} readings {} image {}\n", ending, a[2], number(&a[4..]), hex(&a[12..20]))
}

/// Standard input and output of `powerup`.
pub fn lists() -> (Vec<u8>, Vec<u8>) {
    let mut input = Vec::new();
    let mut output = Vec::new();
    for (profile, failing) in cases() {
        input.extend_from_slice(&profile);
        input.push(failing);
        output.extend_from_slice(line(&config_of(&profile).0, failing).as_bytes());
    }
    (input, output)
}
