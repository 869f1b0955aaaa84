//! Serial divisors (document 02, K1): the rates of real links, the limits, exact halves and what lies beside them, refusals that compete.

use super::random::{Digits, Random};
use crate::record::*;

fn serial(pclk: u32, rate: u32) -> Query {
    query(SERIAL, &[&pclk.to_be_bytes(), &rate.to_be_bytes()])
}

fn port(clocks: [u32; 6], bus: u8, rate: u32) -> Query {
    query(PORT, &[&clock_bytes(clocks), &[bus], &rate.to_be_bytes()])
}

/// What links run at: terminals, modems, MIDI (31,250), DMX (250,000), and the fastest that a USART of these chips is set to.
pub const RATES: [u32; 30] = [
    300, 600, 1_200, 2_400, 4_800, 9_600, 14_400, 19_200, 28_800, 31_250, 38_400, 56_000, 57_600, 76_800, 115_200,
    128_000, 230_400, 250_000, 256_000, 460_800, 500_000, 576_000, 921_600, 1_000_000, 1_152_000, 1_500_000, 2_000_000,
    2_500_000, 3_000_000, 4_000_000,
];
/// HSI, HSE and PLL clocks, whole and divided; the first with the request's own row (20,000,000 at 115,200), others of rows A1, A6 and A7.
const PCLKS: [u32; 8] = [
    20_000_000, 312_500, 8_000_000, 12_500_000, 72_000_000, 100_000_012, 166_666_666, 200_000_000,
];

pub const LINKS: usize = RATES.len() * PCLKS.len();
pub fn links(i: usize) -> Query {
    let mut d = Digits(i);
    let rate = d.from(&RATES);
    serial(d.from(&PCLKS), rate)
}

/// PCLK at BRR times the rate, and half a rate above it, each with its neighbours. Halves round up, so 15.5 is the lowest quotient that has a BRR, and
/// 65,535.5 the lowest that has none again. An odd rate has no exact half, an even one has.
pub const HALVES: usize = 5 * 6 * 2 * 3;
pub fn halves(i: usize) -> Query {
    let mut d = Digits(i);
    let brr: u64 = d.from(&[15, 16, 173, 65_534, 65_535]);
    let rate = d.from(&[1, 2, 3, 9_600, 9_601, 65_535]);
    let place = brr * u64::from(rate) + d.from(&[0, u64::from(rate) / 2]);
    serial((place + d.of(3) as u64 - 1) as u32, rate)
}

/// Both numbers at their ends. 2^32 - 1 is 65,535 times 65,537; 277,094,664 is the highest rate that has a BRR at it.
const END_PCLKS: [u32; 7] = [0, 1, 31, 65_535, 20_000_000, 0x8000_0000, 0xffff_ffff];
const END_RATES: [u32; 11] = [
    0, 1, 2, 65_535, 65_537, 1_250_000, 277_094_664, 277_094_665, 0x7fff_ffff, 0x8000_0000, 0xffff_ffff,
];
pub const ENDS: usize = END_PCLKS.len() * END_RATES.len();
pub fn ends(i: usize) -> Query {
    let mut d = Digits(i);
    serial(d.from(&END_PCLKS), d.from(&END_RATES))
}

/// Six clocks that are all different; where each has a BRR at 115,200, and where PCLK1, PCLK2 or both are out of range.
const CLOCKS: [[u32; 6]; 4] = [
    [200_000_000, 100_000_000, 25_000_000, 6_250_000, 50_000_000, 12_500_000],
    [166_666_666, 83_333_333, 1_302_083, 41_666_666, 2_604_166, 83_333_332],
    [20_000_000, 20_000_001, 10_000_000, 39_062, 20_000_002, 78_124],
    [4_000_000_000, 0xffff_ffff, 0, 610, 2_000_000, 1_220],
];
/// Every bus that has a PCLK and some that have none; rates with a BRR, and 33 and 34 beside 28.
pub const PORTS: usize = 5 * 5 * CLOCKS.len();
pub fn ports(i: usize) -> Query {
    let mut d = Digits(i);
    let bus = d.from(&[0, 1, 2, 3, 255]);
    let rate = d.from(&[0, 1, 2_400, 115_200, 0xffff_ffff]);
    port(d.from(&CLOCKS), bus, rate)
}

/// A PCLK and a rate: most near a BRR or a half, at and beside the limits too, some of them anything.
fn numbers(r: &mut Random) -> (u32, u32) {
    let brr = match r.below(4) {
        0 => r.pick(&[14, 15, 16, 17, 65_534, 65_535, 65_536]),
        1 => 16 + r.below(512),
        _ => r.below(0x1_0010),
    };
    let rate = match r.below(4) {
        0 => r.pick(&RATES),
        1 => r.word() >> r.below(32),
        _ => 1 + r.below(u32::MAX / (brr + 1)),
    };
    let beyond = r.below(rate.max(1));
    let beyond = u64::from(r.pick(&[0, rate / 2, beyond])) + u64::from(r.below(3));
    let place = u64::from(brr) * u64::from(rate) + beyond;
    let pclk = u32::try_from(place.saturating_sub(1)).unwrap_or_else(|_| r.word());
    (pclk, if r.once_in(32) { 0 } else { rate })
}

pub fn random(r: &mut Random) -> Query {
    let (pclk, rate) = numbers(r);
    if r.once_in(2) {
        return serial(pclk, rate);
    }
    let mut clocks = [r.word(), r.word(), r.word(), r.word(), r.word(), r.word()];
    let bus = if r.once_in(8) { r.byte() } else { r.pick(&[1, 2]) };
    // PCLK1 and PCLK2 stand third and fourth.
    clocks[if bus == 2 { 3 } else { 2 }] = pclk;
    port(clocks, bus, rate)
}
