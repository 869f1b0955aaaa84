//! Ticks of a startup's waits (document 02, K5), over the calls that the Rust's own startup made. All else is what that startup answers: "ticks change no
//! other answer".

use super::call::WAITS;
use super::codes;
use crate::record::*;
use crate::rust::startup;

/// A turn of the counter.
const TURN: u64 = 1 << 32;

/// A call: the step that it worked, and the tick that it was handed.
type Call = (u8, u32);

pub fn answer(q: &Query) -> Answer {
    let plain = query(STARTUP, &[&q[1..61], &q[69..124]]);
    if !codes::allowed(&plain) {
        return refused(TICKED, 28);
    }
    let (said, steps) = startup::worked(&plain);
    let calls = handed(&steps, number(&q[61..]), number(&q[65..]));
    // The wait that the last call left unmet, going on or failed.
    let unmet = number(&[0, said[61], said[62], said[63]]);
    let open = if unmet > 0 { said[2] } else { 0 };
    let waits = WAITS.map(|wait| ticks(&calls, wait, open));
    let shown: Vec<u8> = waits.iter().flat_map(|one| one.unwrap_or(0).to_be_bytes()).collect();
    let longest = waits.iter().flatten().max().copied().unwrap_or(0);
    let mut a = accepted(TICKED, &[&said[2..8], &shown, &longest.to_be_bytes(), &said[12..20]]);
    a[1] = said[1];
    a
}

/// "A free-running 32-bit tick with each reading": the first call's, and by how many it advances a call.
fn handed(steps: &[u8], first: u32, by: u32) -> Vec<Call> {
    let mut tick = first;
    let mut calls = Vec::new();
    for step in steps {
        calls.push((*step, tick));
        tick = tick.wrapping_add(by);
    }
    calls
}

/// "For each met wait the ticks from that wait's first reading to the met one, the difference taken modulo 2^32": each call that worked a wait used a
/// reading, and the met one is the last of them. None where it is skipped, or not met.
fn ticks(calls: &[Call], wait: u8, open: u8) -> Option<u32> {
    let readings: Vec<u32> = calls.iter().filter(|call| call.0 == wait).map(|call| call.1).collect();
    let (first, met) = (u64::from(*readings.first()?), u64::from(*readings.last()?));
    if wait == open {
        return None;
    }
    Some(((met + TURN - first) % TURN) as u32)
}
