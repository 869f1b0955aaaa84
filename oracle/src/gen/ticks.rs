//! Startups with ticks (document 02, K5): each wait by itself, across the counter's ends and through whole turns of it; all waits of different lengths; stopped
//! at every call; every way to end, and calls behind the end; then random ones.

use super::good::GOOD;
use super::random::{Digits, Random};
use super::startup::{any_reading, bend, reading_steps, segments, Script};
use super::{boards, config, fields, wide};
use crate::paper::call::{skipped, WAITS};
use crate::paper::layout::config_of;
use crate::record::*;
use crate::rust::checked;

/// The first call's tick, and by how many ticks it advances a call.
type Counter = (u32, u32);

fn ticked(config: &[u8], fields: &[u8], limit: u32, (first, by): Counter, script: &Script) -> Query {
    let numbers = [limit, first, by].map(u32::to_be_bytes).concat();
    query(TICKED, &[config, fields, &numbers, &segments(script, TICKED_SEGMENTS)])
}

/// A script in which each wait has as many unmet readings as is said of its step. A reading meets one wait and not the next, so that ten segments are enough.
fn chained(r: &mut Random, config: &[u8; CONFIG], unmet: impl Fn(u8) -> u32) -> Script {
    let mut script = Script::new();
    let mut met = None;
    for step in reading_steps(config) {
        // Step 21 has one reading, and must have the right one.
        let own = if step == 21 { 0 } else { unmet(step) };
        let reading = bend(any_reading(r), step, config, step == 21);
        script.push(match met {
            None => (own, reading),
            Some(before) => (own + 1, bend(reading, before, config, true)),
        });
        met = Some(step);
    }
    script.push((1, bend(any_reading(r), 27, config, true)));
    script
}

/// The calls that work steps up to this one, where each wait is met at once.
fn calls(config: &[u8; CONFIG], last: u8) -> u32 {
    (1..=last).filter(|step| !skipped(config, *step)).count() as u32
}

/// One wait of a configuration by its place; there are four to eight.
fn wait(config: &[u8; CONFIG], place: usize) -> u8 {
    let waits: Vec<u8> = WAITS.iter().copied().filter(|step| !skipped(config, *step)).collect();
    waits[place % waits.len()]
}

/// Configurations with every part, without ETH, without USBHS, and with USBHS and main PLL alone.
const PARTS: [usize; 4] = [10, 13, 9, 12];
const FIRSTS: [u32; 4] = [0, 1, 0xffff_fff0, 0xffff_ffff];
const STEPS: [u32; 7] = [0, 1, 2, 0x1_0000, 0x7fff_ffff, 0x8000_0000, 0xffff_ffff];

/// Each wait with 0, 1, 2 and 7 unmet readings, the others met at once; the high steps turn the counter more than once.
pub const WAITED: usize = PARTS.len() * WAITS.len() * 4 * STEPS.len() * FIRSTS.len();
pub fn waited(i: usize) -> Query {
    let mut d = Digits(i);
    let config = GOOD[d.from(&PARTS)];
    let at = wait(&config, d.of(WAITS.len()));
    let unmet = d.from(&[0, 1, 2, 7]);
    let counter = (d.from(&FIRSTS), d.from(&STEPS));
    let mut r = Random(i as u64);
    let script = chained(&mut r, &config, |step| if step == at { unmet } else { 0 });
    ticked(&config, &fields::any(&mut r), 60, counter, &script)
}

/// Each wait with its first reading at the counter's end, at its middle, or at 0; its met one is up to three steps of the counter behind it.
pub const ACROSS: usize = PARTS.len() * WAITS.len() * 5 * 3 * 3;
pub fn across(i: usize) -> Query {
    let mut d = Digits(i);
    let config = GOOD[d.from(&PARTS)];
    let at = wait(&config, d.of(WAITS.len()));
    let begun: u32 = d.from(&[0xffff_ffff, 0xffff_fffe, 0x7fff_ffff, 0x8000_0000, 0]);
    let unmet = d.from(&[1, 2, 3]);
    let by: u32 = d.from(&[1, 2, 0x1_0001]);
    let first = begun.wrapping_sub(by.wrapping_mul(calls(&config, at - 1)));
    let mut r = Random(i as u64);
    let script = chained(&mut r, &config, |step| if step == at { unmet } else { 0 });
    ticked(&config, &fields::any(&mut r), 60, (first, by), &script)
}

fn place(wait: u8) -> usize {
    WAITS.iter().position(|step| *step == wait).unwrap_or(0)
}

/// As many unmet readings for each wait as no other has; the most at each of them in turn.
fn turned(wait: u8, by: usize) -> u32 {
    1 + ((place(wait) + by) % WAITS.len()) as u32
}

/// Every good configuration with waits of different lengths. By a counter that runs backwards the shortest wait has the most ticks.
pub const LONGEST: usize = GOOD.len() * WAITS.len() * 4;
pub fn longest(i: usize) -> Query {
    let mut d = Digits(i);
    let config = d.from(&GOOD);
    let by = d.of(WAITS.len());
    let advance = d.from(&[1, 0x0123_4567, 0x2000_0001, 0xffff_ffff]);
    let mut r = Random(i as u64);
    let script = chained(&mut r, &config, |wait| turned(wait, by));
    ticked(&config, &fields::any(&mut r), 80, (r.word(), advance), &script)
}

/// Unmet readings of each wait: with every part these are 44 calls.
const FEW: [u32; WAITS.len()] = [2, 3, 0, 2, 3, 1, 2, 3];

/// Every good configuration, stopped after every number of calls.
pub const STOPPED: usize = GOOD.len() * 45;
pub fn stopped(i: usize) -> Query {
    let mut d = Digits(i);
    let config = d.from(&GOOD);
    let limit = d.of(45) as u32;
    // The same readings and ticks at each limit: the startup is seen call by call.
    let mut r = Random((i % GOOD.len()) as u64);
    let script = chained(&mut r, &config, |wait| FEW[place(wait)]);
    let counter = (r.word(), r.word());
    ticked(&config, &fields::any(&mut r), limit, counter, &script)
}

/// Every good configuration, with each SCKMOD read back. The reading of step 21 stands before the one that meets step 27.
pub const MODES: usize = GOOD.len() * 4;
pub fn modes(i: usize) -> Query {
    let mut d = Digits(i);
    let config = d.from(&GOOD);
    let read = d.byte(4);
    let mut r = Random(i as u64);
    let mut script = chained(&mut r, &config, |wait| turned(wait, read.into()));
    let at = script.len() - 2;
    script[at].1[1] = script[at].1[1] & 0xfc | read;
    ticked(&config, &fields::any(&mut r), 80, (r.word(), 0x1_0000), &script)
}

/// Every good configuration, running or refused by 22, with no call behind the end, and with one, two and nine.
pub const ENDED: usize = GOOD.len() * 2 * 4;
pub fn ended(i: usize) -> Query {
    let mut d = Digits(i);
    let config = d.from(&GOOD);
    let last = d.from(&[28, 21]);
    let behind = d.from(&[0, 1, 2, 9]);
    let mut r = Random(i as u64);
    // One unmet reading for each wait.
    let mut script = chained(&mut r, &config, |_| 1);
    if last == 21 {
        let at = script.len() - 2;
        script[at].1 = bend(script[at].1, 21, &config, false);
    }
    let unmet = reading_steps(&config).iter().filter(|step| **step != 21 && **step < last).count() as u32;
    let limit = calls(&config, last) + unmet + behind;
    ticked(&config, &fields::any(&mut r), limit, (r.word(), 0x100_0001), &script)
}

/// A configuration of each refusal of the check but 16.
pub const REFUSED: usize = 15;
pub fn refused(i: usize) -> Query {
    let config = config_of(&boards::refused(boards::REFUSALS[i])).0;
    let mut r = Random(i as u64);
    let script = vec![(1, any_reading(&mut r))];
    ticked(&config, &fields::any(&mut r), 10, (r.word(), r.word()), &script)
}

/// Each code and each field too wide or without a name, where all else is accepted and where it is refused.
pub const WIDE: usize = wide::BEGUN;
pub fn wide(i: usize) -> Query {
    let (config, fields) = wide::begun(i);
    ticked(&config, &fields, 10, (1, 1), &vec![(1, [0x80, 0])])
}

/// Long waits, behind others that are met: three that fail at their 1,000,000th reading, and one that is met there. A few calls are made behind the end.
pub const LONG: usize = 4;
pub fn long(i: usize) -> Query {
    let config = GOOD[10];
    let (at, unmet, by) = [
        (12, 1_000_000, 1),
        (4, 1_000_000, 0x1_0001),
        (27, 1_000_000, 0xffff_ffff),
        (18, 999_999, 0x1_0001),
    ][i];
    let mut r = Random(i as u64);
    let script = chained(&mut r, &config, |step| if step == at { unmet } else { 3 });
    let steps = if unmet < 1_000_000 { 28 } else { at };
    let others = WAITS.iter().filter(|step| **step <= steps && **step != at).count() as u32;
    let limit = calls(&config, steps) + 3 * others + unmet + 2;
    ticked(&config, &fields::any(&mut r), limit, (r.word(), by), &script)
}

fn counter(r: &mut Random) -> Counter {
    let first = if r.once_in(2) { r.pick(&FIRSTS) } else { r.word() };
    let by = match r.below(4) {
        0 => r.pick(&STEPS),
        1 => r.below(1_000),
        _ => r.word(),
    };
    (first, by)
}

pub fn random(r: &mut Random) -> Query {
    let config = if r.once_in(3) { r.pick(&GOOD) } else { config::any(r) };
    let fields = fields::any(r);
    let counter = counter(r);
    if checked(&config).is_err() {
        return ticked(&config, &fields, 10, counter, &vec![(1, any_reading(r))]);
    }
    let lengths: Vec<u32> = (0..28).map(|_| if r.once_in(3) { 0 } else { r.below(9) }).collect();
    let mut script = chained(r, &config, |step| lengths[usize::from(step)]);
    let mut limit = 150;
    match r.below(8) {
        // One reading changed; the limit keeps a wait that is never met short.
        0 => {
            let at = r.below(script.len() as u32) as usize;
            script[at].1 = any_reading(r);
        }
        1 => script = (0..TICKED_SEGMENTS).map(|_| (1 + r.below(20), any_reading(r))).collect(),
        2 | 3 => limit = r.below(100),
        4 => {
            let at = r.pick(&WAITS);
            let unmet = 1 + r.below(300);
            script = chained(r, &config, |step| if step == at { unmet } else { 1 });
            limit = 400;
        }
        _ => {}
    }
    ticked(&config, &fields, limit, counter, &script)
}
