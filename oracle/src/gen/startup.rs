//! Startups: configurations, earlier fields, and scripts of readings.

use super::config::{AHB, APB};
use super::good::GOOD;
use super::random::{Digits, Random};
use super::{config, fields};
use crate::paper::call::{mode, skipped, work, Last, State, WAITS};
use crate::record::*;
use crate::rust::checked;

pub type Script = Vec<(u32, [u8; 2])>;

pub fn startup(config: &[u8], fields: &[u8], limit: u32, script: &Script) -> Query {
    query(STARTUP, &[config, fields, &limit.to_be_bytes(), &segments(script, SEGMENTS)])
}

/// A script's segments, as many as a query has room for.
pub fn segments(script: &Script, room: usize) -> Vec<u8> {
    let mut bytes = Vec::new();
    for (count, reading) in script.iter().take(room) {
        bytes.extend_from_slice(&count.to_be_bytes()[1..]);
        bytes.extend_from_slice(reading);
    }
    bytes
}

/// Changes a reading so that it meets, or doesn't, the wait of a step; its other bits stay.
pub fn bend(reading: [u8; 2], step: u8, config: &[u8; CONFIG], meets: bool) -> [u8; 2] {
    let [mut ready, mut rest] = reading;
    let flag = |ready: u8, bit: u8| if meets { ready | bit } else { ready & !bit };
    let sws = |rest: u8, wanted: u8| {
        let other = if rest >> 4 & 3 == wanted {
            wanted ^ 1
        } else {
            rest >> 4 & 3
        };
        rest & 0xcf | (if meets { wanted } else { other }) << 4
    };
    match step {
        2 => ready = flag(ready, 0x80),
        4 => rest = sws(rest, 0),
        7 if meets => ready &= 0x80,
        7 => ready |= 0x08 << (rest & 3),
        10 => ready = flag(ready, 0x40),
        12 => ready = flag(ready, 0x08),
        15 => ready = flag(ready, 0x10),
        18 => ready = flag(ready, 0x20),
        21 => rest = rest & 0xfc | mode(config) ^ u8::from(!meets),
        _ => rest = sws(rest, config[6]),
    }
    [ready, rest]
}

pub fn any_reading(r: &mut Random) -> [u8; 2] {
    [r.byte() & 0xf8, r.byte()]
}

/// The steps of this configuration that use readings.
pub fn reading_steps(config: &[u8; CONFIG]) -> Vec<u8> {
    let steps = [2, 4, 7, 10, 12, 15, 18, 21, 27];
    steps.iter().copied().filter(|step| !skipped(config, *step)).collect()
}

/// A script that meets each wait after a few readings.
fn meeting(r: &mut Random, config: &[u8; CONFIG]) -> Script {
    let mut script = Script::new();
    let mut spare = SEGMENTS - reading_steps(config).len();
    for step in reading_steps(config) {
        if step != 21 && spare > 0 && r.once_in(2) {
            spare -= 1;
            let reading = any_reading(r);
            script.push((1 + r.below(5), bend(reading, step, config, false)));
        }
        let reading = any_reading(r);
        script.push((1, bend(reading, step, config, true)));
    }
    script
}

/// A script with `count` unmet readings at the step, then a met one, and every other wait met at once.
fn waiting(r: &mut Random, config: &[u8; CONFIG], at: u8, count: u32) -> Script {
    let mut script = Script::new();
    for step in reading_steps(config) {
        let reading = any_reading(r);
        if step == at {
            script.push((count, bend(reading, step, config, false)));
        }
        script.push((1, bend(reading, step, config, true)));
    }
    script
}

/// Every good configuration, stopped after every number of calls.
pub const STOPPED: usize = GOOD.len() * 45;
pub fn stopped(i: usize) -> Query {
    let mut d = Digits(i);
    let config = d.from(&GOOD);
    let limit = d.of(45) as u32;
    // The same readings at each limit: the startup is seen call by call.
    let mut r = Random((i % GOOD.len()) as u64);
    let script = meeting(&mut r, &config);
    startup(&config, &fields::any(&mut r), limit, &script)
}

/// Every good configuration, with each SCKMOD read back.
pub const MODES: usize = GOOD.len() * 4;
pub fn modes(i: usize) -> Query {
    let mut d = Digits(i);
    let config = d.from(&GOOD);
    let read = d.byte(4);
    let mut r = Random(i as u64);
    let mut script = waiting(&mut r, &config, 0, 0);
    let at = reading_steps(&config).iter().position(|step| *step == 21).unwrap_or(0);
    script[at].1[1] = script[at].1[1] & 0xfc | read;
    startup(&config, &fields::any(&mut r), 1_000, &script)
}

/// Every good configuration, met at once, and after the switch each SWS in a reading that no call uses.
pub const SWITCHED: usize = GOOD.len() * 4;
pub fn switched(i: usize) -> Query {
    let mut d = Digits(i);
    let config = d.from(&GOOD);
    let sws = d.byte(4);
    let mut r = Random(i as u64);
    let mut script = waiting(&mut r, &config, 0, 0);
    script.push((1, [r.byte() & 0xf8, sws << 4]));
    startup(&config, &fields::any(&mut r), 1_000, &script)
}

/// Long waits, of a configuration that has them all: each wait in turn unmet at its 1,000,000th reading; then each met there.
pub const LONG: usize = WAITS.len() + 1;
pub fn long(i: usize) -> Query {
    let config = GOOD[10];
    let mut r = Random(i as u64);
    let script = match WAITS.get(i) {
        Some(step) => waiting(&mut r, &config, *step, 1_000_000),
        None => longest(&config),
    };
    startup(&config, &fields::any(&mut r), 8_000_100, &script)
}

/// The last wait met at its 1,000,000th reading.
pub fn last_moment() -> Query {
    let mut r = Random(0);
    let script = waiting(&mut r, &GOOD[10], 27, 999_999);
    startup(&GOOD[10], &fields::any(&mut r), 8_000_100, &script)
}

/// Each wait met at its 1,000,000th reading: a reading meets one wait and not the next, so that nine segments are enough.
fn longest(config: &[u8; CONFIG]) -> Script {
    let mode = mode(config);
    let sys = config[6] << 4;
    vec![
        (999_999, [0x00, 0x10]),
        (1_000_000, [0x80, 0x10]),
        (1_000_000, [0xc0, 0x00]),
        (1_000_000, [0x80, 0x00]),
        (1_000_000, [0xc0, 0x00]),
        (1_000_000, [0xc8, 0x00]),
        (1_000_000, [0xd8, 0x00]),
        (1_000_001, [0xf8, mode]),
        (1, [0xf8, sys]),
    ]
}

pub fn random(r: &mut Random) -> Query {
    let config = if r.once_in(3) { r.pick(&GOOD) } else { config::any(r) };
    let fields = fields::any(r);
    if checked(&config).is_err() {
        return startup(&config, &fields, 10, &vec![(1, any_reading(r))]);
    }
    let mut script = meeting(r, &config);
    let mut limit = 200;
    match r.below(8) {
        // One reading changed; the limit keeps a wait that is never met short.
        0 => {
            let at = r.below(script.len() as u32) as usize;
            script[at].1 = any_reading(r);
        }
        1 => script = (0..SEGMENTS).map(|_| (1 + r.below(20), any_reading(r))).collect(),
        2 => limit = r.below(60),
        3 => {
            let step = r.pick(&WAITS);
            let count = 1 + r.below(300);
            script = waiting(r, &config, step, count);
            limit = 400;
        }
        _ => {}
    }
    startup(&config, &fields, limit, &script)
}

/// A startup whose calls had readings that meet, at this step, or at the next where it is skipped.
fn at_step(r: &mut Random, config: &[u8; CONFIG], step: u8) -> State {
    let mut state = State {
        config: *config,
        fields: fields::any(r),
        step: 1,
        unmet: 0,
        used: 0,
        last: None,
    };
    while state.step < step {
        let reading = bend(any_reading(r), state.step, config, true);
        work(&mut state, &reading);
    }
    state
}

fn call_of(state: &State, reading: [u8; 2]) -> Query {
    let numbers = [state.unmet.to_be_bytes(), state.used.to_be_bytes()].concat();
    let last = state.last.map_or(vec![0; 7], |last| {
        [&[1, last.number, last.step], &last.used.to_be_bytes()[..]].concat()
    });
    query(
        CALL,
        &[&state.config, &state.fields, &[state.step], &numbers, &reading, &last],
    )
}

/// A startup as it stands: run for some calls with readings that meet, then perhaps changed.
pub fn call(r: &mut Random) -> Query {
    let config = r.pick(&GOOD);
    let step = 1 + r.below(28) as u8;
    let mut state = at_step(r, &config, step);
    let meets = !r.once_in(3);
    let reading = bend(any_reading(r), state.step, &config, meets);
    change(r, &mut state);
    call_of(&state, reading)
}

/// Step 28 of every good configuration, with fields that don't hold what was written: one clock differs alone where that can be had.
pub const COMPARED: usize = GOOD.len() * 7;
pub fn compared(i: usize) -> Query {
    let mut d = Digits(i);
    let config = d.from(&GOOD);
    let mut r = Random(i as u64);
    let mut state = at_step(&mut r, &config, 28);
    let f = &mut state.fields;
    match d.of(7) {
        0 => {}
        1 => f[16] = beside(&AHB, f[16]),
        // PCLK alone where the divisor becomes 2 or was 2: the timer runs at HCLK either way.
        2 => f[17] = beside(&APB, f[17]),
        3 => f[18] = beside(&APB, f[18]),
        4 => other_sysclk(f),
        // HCLK, and its timers where a bus divided by 2.
        5 => {
            f[16] = beside(&AHB, f[16]);
            f[17] = below(&APB, f[17]);
            f[18] = below(&APB, f[18]);
        }
        // A system clock that can't be decoded.
        _ => f[12] = 3,
    }
    call_of(&state, any_reading(&mut r))
}

/// The next code of a list; of the last one, the one before.
fn beside(codes: &[u8], code: u8) -> u8 {
    let at = codes.iter().position(|one| *one == code).unwrap_or(0);
    if at + 1 < codes.len() {
        codes[at + 1]
    } else {
        codes[at - 1]
    }
}

/// The code before it in a list; the first has none.
fn below(codes: &[u8], code: u8) -> u8 {
    let at = codes.iter().position(|one| *one == code).unwrap_or(0);
    codes[at.saturating_sub(1)]
}

/// SYSCLK twice or half of what it was and, where the codes allow it, HCLK the same.
fn other_sysclk(f: &mut [u8; FIELDS]) {
    let divisor = f[25] + 1;
    if divisor % 2 == 0 {
        f[25] = divisor / 2 - 1;
        f[16] = beside(&AHB, f[16]);
    } else {
        f[25] = (2 * divisor - 1) % 8;
        f[16] = below(&AHB, f[16]);
    }
}

/// Steps 21 and 27 of every good configuration, met or not, with SCKMOD and SW as they were written or otherwise, and unmet readings of no wait: both go by the
/// configuration.
pub const STANDING: usize = GOOD.len() * 2 * 2 * 2;
pub fn standing(i: usize) -> Query {
    let mut d = Digits(i);
    let config = d.from(&GOOD);
    let step = d.from(&[21, 27]);
    let mut r = Random(i as u64);
    let mut state = at_step(&mut r, &config, step);
    if d.of(2) == 1 {
        state.unmet = 5;
        state.fields[30] ^= 1;
        state.fields[13] ^= 1;
    }
    let reading = bend(any_reading(&mut r), step, &config, d.of(2) == 1);
    call_of(&state, reading)
}

/// Startups that are over, each with a code too wide or without a name, and without: of each good configuration, by each way to end.
pub const OVER: usize = GOOD.len() * 4 * 3;
pub fn over(i: usize) -> Query {
    let mut d = Digits(i);
    let config = d.from(&GOOD);
    let number = d.from(&[0, 21, 22, 23]);
    let mut r = Random(i as u64);
    let step = match number {
        21 => r.pick(&WAITS),
        22 => 21,
        _ => 28,
    };
    let mut state = at_step(&mut r, &config, step);
    state.unmet = if number == 21 { 1_000_000 } else { 0 };
    state.last = Some(Last {
        number,
        step,
        used: state.used,
    });
    match d.of(3) {
        0 => {}
        1 => state.config[15] = r.pick(&[1, 7, 16]),
        _ => state.fields[17] = 8 + r.bits(3),
    }
    call_of(&state, any_reading(&mut r))
}

/// What a host asks before it starts: the waits and the calls of each good configuration, and of refused ones.
pub const ASKED: usize = GOOD.len() * 2 * 2;
pub fn asked(i: usize) -> Query {
    let mut d = Digits(i);
    let mut config = d.from(&GOOD);
    let kind = d.from(&[OWED, BOUND]);
    // The check is not asked: an HSE out of range has a wait too.
    if d.of(2) == 1 {
        config::set_frequency(&mut config, 4_999_999);
    }
    query(kind, &[&config])
}

/// Document 01's reasons for 28, at their limits and beyond; and states that are worked as they stand.
fn change(r: &mut Random, state: &mut State) {
    match r.below(16) {
        0 => state.unmet = r.pick(&[999_998, 999_999, 1_000_000, 0xffff_ffff]),
        1 => state.used = r.pick(&[8_000_000, 8_000_001, 8_000_002, 0xffff_ffff]),
        2 => state.step = r.pick(&[0, 29, 30, 255]),
        3 => {
            let c = state.config;
            let skips: Vec<u8> = (1..=28).filter(|step| skipped(&c, *step)).collect();
            if !skips.is_empty() {
                state.step = r.pick(&skips);
            }
        }
        4 => state.config[21] = 4,
        5 => state.fields[16] = 16,
        6 => super::config::set_frequency(&mut state.config, 4_999_999),
        // Fields that don't hold what was written: at step 28 the clocks then differ (23).
        7 if state.step == 28 => state.fields[r.pick(&[16, 17, 18, 25])] ^= 1,
        8 => {
            state.last = Some(Last {
                number: r.pick(&[0, 21, 22, 23]),
                step: r.pick(&WAITS),
                used: r.word(),
            })
        }
        // Other fields than were written: steps 21 and 27 go by the configuration.
        9 => state.fields[30] ^= 1,
        10 => state.fields[13] ^= 1,
        _ => {}
    }
}
