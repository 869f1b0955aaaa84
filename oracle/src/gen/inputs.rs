//! Whole inputs of the program: a profile and ports behind it; every length, every number of ports, each refusal of a port in each place, then random ones.

use super::codec::damaged_profile;
use super::config;
use super::good::GOOD;
use super::random::{Digits, Random};
use super::serial::RATES;
use crate::paper::layout::profile_of;
use crate::paper::profile::PROFILE;
use crate::paper::text::{PORT, PORTS};
use crate::rust::checked;

pub type Input = Vec<u8>;

fn input(profile: [u8; PROFILE], ports: &[(u8, u32)]) -> Input {
    let mut bytes = profile.to_vec();
    for (bus, rate) in ports {
        bytes.push(*bus);
        bytes.extend_from_slice(&rate.to_be_bytes());
    }
    bytes
}

/// The request's own row, then a port of each refusal; the last is the first but for its rate's first byte.
const ROW: [(u8, u32); 4] = [(1, 115_200), (3, 115_200), (2, 0), (1, 0x0101_c200)];

/// A profile that is accepted, one that is refused by 4, and one that doesn't read (30): each at every length that a length byte holds up to 64.
const LENGTHS: usize = 3 * 65;
fn lengths(i: usize) -> Input {
    let mut d = Digits(i);
    let mut profile = profile_of(&GOOD[0]);
    match d.of(3) {
        0 => {}
        1 => profile = [0x80, 0x13, 0x12, 0xcf, 0xc0, 0x18, 0, 0, 0, 0x34],
        _ => profile[9] |= 1,
    }
    let mut bytes = input(profile, &[ROW[0]; 11]);
    bytes.truncate(d.of(65));
    bytes
}

/// Each good profile with none to nine ports; the first port is each of the four in turn.
const COUNTS: usize = GOOD.len() * (PORTS + 2) * ROW.len();
fn counts(i: usize) -> Input {
    let mut d = Digits(i);
    let profile = profile_of(&d.from(&GOOD));
    let ports = d.of(PORTS + 2);
    let first = d.of(ROW.len());
    let ports: Vec<(u8, u32)> = (0..ports).map(|at| ROW[(first + at) % ROW.len()]).collect();
    input(profile, &ports)
}

/// A port's bus and rate: most with a BRR at the bus's PCLK, or at the limits of one.
fn port(r: &mut Random, clocks: [u32; 6]) -> (u8, u32) {
    let bus = if r.once_in(8) { r.byte() } else { r.pick(&[1, 2]) };
    let pclk = clocks[if bus == 2 { 3 } else { 2 }];
    let rate = match r.below(8) {
        0 => 0,
        1 => r.word() >> r.below(32),
        2 | 3 => pclk / r.pick(&[15, 16, 17, 65_534, 65_535, 65_536]) + r.below(3),
        4 | 5 => pclk / (16 + r.below(65_520)),
        _ => r.pick(&RATES),
    };
    (bus, rate)
}

fn random(r: &mut Random) -> Input {
    let config = config::any(r);
    let clocks = checked(&config).unwrap_or([20_000_000; 6]);
    let ports = r.below(PORTS as u32 + 1);
    let ports: Vec<(u8, u32)> = (0..ports).map(|_| port(r, clocks)).collect();
    let profile = if r.once_in(4) {
        damaged_profile(r, &config)
    } else {
        profile_of(&config)
    };
    let mut bytes = input(profile, &ports);
    // Some have a byte more or less, or half a port.
    match r.below(32) {
        0 => bytes.push(0),
        1 => bytes.truncate(bytes.len() - 1 - r.below(PORT as u32) as usize),
        _ => {}
    }
    bytes
}

/// The inputs of a run; cut off after `count`.
pub fn inputs(seed: u64, count: usize) -> impl Iterator<Item = Input> {
    let mut r = Random(seed);
    let sets = (0..LENGTHS).map(lengths).chain((0..COUNTS).map(counts));
    sets.chain(std::iter::repeat_with(move || random(&mut r))).take(count)
}
