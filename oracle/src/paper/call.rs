//! One call of a startup as it stands, and what a host asks before it starts one (document 01, "Startup steps"). The Rust's `init` can't be entered
//! half way.

use super::codes;
use super::layout::image_of;
use crate::record::*;
use crate::rust::{checked, decoded};

pub const WAITS: [u8; 8] = [2, 4, 7, 10, 12, 15, 18, 27];
const KEYS: [u8; 16] = [
    0x45, 0x67, 0x01, 0x23, 0xcd, 0xef, 0x89, 0xab, 0x45, 0x67, 0x01, 0x23, 0xcd, 0xef, 0x89, 0xab,
];

/// A startup, and where it is over its last answer.
#[derive(Clone)]
pub struct State {
    pub config: [u8; CONFIG],
    pub fields: [u8; FIELDS],
    /// The step that the next call works.
    pub step: u8,
    pub unmet: u32,
    pub used: u32,
    pub last: Option<Last>,
}

/// The last answer of a startup that is over: its number (0: running), the step that it names and the readings that it counts.
#[derive(Clone, Copy)]
pub struct Last {
    pub number: u8,
    pub step: u8,
    pub used: u32,
}

impl Last {
    fn over(&self) -> u8 {
        if self.number == 0 {
            1
        } else {
            2
        }
    }
}

/// Refusal number (0 none) and whether the startup is over: 0 no, 1 running, 2 failed.
pub type Said = (u8, u8);

pub fn answer(q: &Query) -> Answer {
    let mut state = state_of(q);
    if !codes::allowed(q) {
        return handed_back(&state, codes::in_width(&q[24..]));
    }
    // After the end, a call changes nothing and repeats the last answer.
    if let Some(last) = state.last {
        let used = if last.number == 23 { state.used } else { last.used };
        return told(&state, (last.number, last.over()), last.step, used);
    }
    if !allowed(&state) {
        return handed_back(&state, true);
    }
    let step = state.step;
    let said = work(&mut state, &q[66..68]);
    let mut a = told(&state, said, step, state.used);
    if step == 19 {
        a[44..60].copy_from_slice(&KEYS);
        a[60] = 1;
    }
    a
}

/// The answer of a call that names this step and counts so many readings. 23 names no step.
fn told(state: &State, (number, over): Said, step: u8, used: u32) -> Answer {
    let clocks = match over {
        1 => decoded(&state.fields, hse_of(&state.config)).unwrap_or([0; 6]),
        _ => [0; 6],
    };
    let named = if number == 23 { 0 } else { step };
    let parts: [&[u8]; 7] = [
        &[named, over],
        &used.to_be_bytes(),
        &1u32.to_be_bytes(),
        &image_of(&state.fields),
        &clock_bytes(clocks),
        &[0; 17],
        &state.unmet.to_be_bytes()[1..],
    ];
    let mut a = accepted(CALL, &parts);
    a[1] = number;
    a
}

/// The waits owed, four and the ones in the enable bits, and the bound of the calls; 28 for a code without a name.
pub fn owed(q: &Query) -> Answer {
    if !codes::allowed(q) {
        return refused(q[0], 28);
    }
    let c = &q[1..];
    let waits = 4 + [c[0], c[14], c[12], c[8]].iter().filter(|part| **part != 0).count() as u32;
    let number = if q[0] == OWED { waits } else { 1_000_000 * waits + 20 };
    accepted(q[0], &[&number.to_be_bytes()])
}

fn state_of(q: &Query) -> State {
    let mut state = State {
        config: [0; CONFIG],
        fields: [0; FIELDS],
        step: q[57],
        unmet: number(&q[58..]),
        used: number(&q[62..]),
        last: None,
    };
    if q[68] != 0 {
        state.last = Some(Last {
            number: q[69],
            step: q[70],
            used: number(&q[71..]),
        });
    }
    state.config.copy_from_slice(&q[1..24]);
    state.fields.copy_from_slice(&q[24..57]);
    state
}

fn hse_of(config: &[u8; CONFIG]) -> Option<u32> {
    hse(&[&config[..1], &config[2..6]].concat())
}

fn allowed(state: &State) -> bool {
    let waited = !WAITS.contains(&state.step) || state.unmet <= 999_999;
    checked(&state.config).is_ok()
        && (1..=28).contains(&state.step)
        && !skipped(&state.config, state.step)
        && waited
        && state.used <= 8_000_001
}

/// 28: the startup as it was handed over. Its fields are shown where an image can hold them.
fn handed_back(state: &State, in_width: bool) -> Answer {
    let over = state.last.map_or(0, |last| last.over());
    let mut shown = state.clone();
    if !in_width {
        shown.fields = [0; FIELDS];
    }
    let mut a = told(&shown, (28, if in_width { over } else { 0 }), 0, state.used);
    a[3] = over;
    a[60] = state.step;
    a
}

/// Whether the step belongs to a part that the configuration hasn't.
pub fn skipped(config: &[u8; CONFIG], step: u8) -> bool {
    match step {
        8..=10 => config[0] == 0,
        11..=12 => config[14] == 0,
        13..=15 => config[12] == 0,
        16..=18 => config[8] == 0,
        24 => config[19] == 0,
        25 => config[6] != 2,
        _ => false,
    }
}

/// Works one step, or uses one reading, of a startup that document 01 allows.
pub fn work(state: &mut State, reading: &[u8]) -> Said {
    let step = state.step;
    if WAITS.contains(&step) {
        take(state, reading);
        if !met(state) {
            state.unmet += 1;
            return if state.unmet == 1_000_000 { (21, 2) } else { (0, 0) };
        }
    } else if step == 21 {
        take(state, reading);
        if reading[1] & 3 != mode(&state.config) {
            return (22, 2);
        }
    } else if step == 28 {
        let now = decoded(&state.fields, hse_of(&state.config));
        return if now == checked(&state.config) { (0, 1) } else { (23, 2) };
    } else {
        write(state);
    }
    next(state);
    (0, 0)
}

fn next(state: &mut State) {
    state.unmet = 0;
    state.step += 1;
    while skipped(&state.config, state.step) {
        state.step += 1;
    }
}

/// A used reading's ready bits and SWS go into the fields.
fn take(state: &mut State, reading: &[u8]) {
    state.used += 1;
    for i in 0..5 {
        state.fields[7 + i] = reading[0] >> (7 - i) & 1;
    }
    state.fields[12] = reading[1] >> 4 & 3;
}

fn met(state: &State) -> bool {
    let f = &state.fields;
    match state.step {
        2 => f[7] == 1,
        4 => f[12] == 0,
        7 => f[8..12] == [0; 4],
        10 => f[8] == 1,
        12 => f[11] == 1,
        15 => f[10] == 1,
        18 => f[9] == 1,
        _ => f[12] == state.config[6],
    }
}

/// SCKMOD: 0 up to HCLK 100 MHz, else 1.
pub fn mode(config: &[u8; CONFIG]) -> u8 {
    let hclk = checked(config).map_or(0, |clocks| clocks[1]);
    u8::from(hclk > 100_000_000)
}

fn write(state: &mut State) {
    let c = &state.config;
    let f = &mut state.fields;
    match state.step {
        1 => f[0] = 1,
        3 => f[13] = 0,
        5 => f[26] = 0,
        6 => f[2..7].fill(0),
        8 => f[1] = c[1],
        9 => f[2] = 1,
        11 => f[6] = 1,
        13 => {
            f[22] = c[13];
            f[23] = reference(c);
        }
        14 => f[5] = 1,
        16 => f[14..16].copy_from_slice(&[c[7], c[9]]),
        17 => f[4] = 1,
        20 => f[30..33].copy_from_slice(&[mode(c), 1, 1]),
        22 => {
            f[24..26].copy_from_slice(&c[10..12]);
            f[27] = u8::from(c[18] != 0);
            if c[18] != 0 {
                f[28] = u8::from(c[18] == 2);
            }
        }
        23 => f[16..22].copy_from_slice(&[c[15], c[16], c[17], c[21], c[19], c[22]]),
        24 => f[29] = c[20] - 1,
        25 => f[26] = 1,
        26 => f[13] = c[6],
        _ => {}
    }
}

/// The code of the USBHS reference: 25, 20, 24, 32 MHz.
fn reference(config: &[u8; CONFIG]) -> u8 {
    let frequency = match config[13] {
        0 => number(&config[2..]),
        _ => 20_000_000,
    };
    let allowed = [25_000_000, 20_000_000, 24_000_000, 32_000_000];
    allowed.iter().position(|one| *one == frequency).unwrap_or(0) as u8
}
