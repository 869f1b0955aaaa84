//! Trays of boards (document 02, K2), in a query and as the program `tray` answers them. The seven numbers are the Rust's.

use super::profile::{clocks, PROFILE};
use crate::record::*;

/// "Writes 32 bytes each".
pub const RECORD: usize = 32;
/// What the program lends the call as output.
const OUTPUT: usize = 65_536;

pub fn answer(q: &Query) -> Answer {
    match q[0] {
        BOARD => accepted(BOARD, &[&board(&q[2..2 + LENT.min(q[1].into())])]),
        _ => shown(q),
    }
}

/// "Refusal number or 0, then the seven reported frequencies in the program's order, all eight as four bytes, most significant byte first, zeros
/// after a refusal."
fn board(profile: &[u8]) -> [u8; RECORD] {
    let (number, seven) = match clocks(profile) {
        Ok(seven) => (0, seven),
        Err(number) => (number, [0; 28]),
    };
    let mut record = [0; RECORD];
    record[..4].copy_from_slice(&u32::from(number).to_be_bytes());
    record[4..].copy_from_slice(&seven);
    record
}

/// "Bytes beyond stay."
fn fill(profiles: &[u8], out: &mut [u8]) {
    for (i, profile) in profiles.chunks_exact(PROFILE).enumerate() {
        let at = RECORD * i;
        out[at..at + RECORD].copy_from_slice(&board(profile));
    }
}

/// "32 first if the output has fewer than 32 bytes for each whole ten of input, then 29 if the length is not a multiple of ten, both before anything
/// is written." 0: accepted.
fn tray(profiles: &[u8], out: &mut [u8]) -> u8 {
    let tens = profiles.chunks_exact(PROFILE);
    if out.chunks_exact(RECORD).len() < tens.len() {
        return 32;
    }
    if !tens.remainder().is_empty() {
        return 29;
    }
    fill(profiles, out);
    0
}

/// The lent output afterwards, as much as an answer shows of it from a place on.
fn shown(q: &Query) -> Answer {
    let two = |at: usize| usize::from(u16::from_be_bytes([q[at], q[at + 1]]));
    let profiles = &q[2..2 + TRAY_IN.min(q[1].into())];
    let mut out = vec![q[124]; TRAY_OUT.min(two(122))];
    let number = tray(profiles, &mut out);
    let window: Vec<u8> = out.into_iter().skip(two(125)).take(ANSWER - 2).collect();
    let mut a = accepted(TRAY, &[&window]);
    a[1] = number;
    a
}

/// What the program writes: the records, or the line of a refusal.
pub fn output(input: &[u8]) -> Vec<u8> {
    let mut out = vec![0; OUTPUT];
    match tray(input, &mut out) {
        0 => out[..input.len() / PROFILE * RECORD].to_vec(),
        number => format!("refused {}\n", number).into_bytes(),
    }
}
