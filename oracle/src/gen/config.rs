//! V4x7 configurations: directed at the limits, and random.

use super::random::Random;
use crate::paper::codec::plain;
use crate::record::CONFIG;

/// Document 01's doubled multipliers.
pub const DOUBLED: [u32; 32] = [
    16, 18, 20, 22, 24, 25, 26, 27, 28, 29, 30, 31, 32, 33, 34, 35, 36, 37, 38, 39, 40, 42, 44, 48, 52, 56, 60, 64, 68,
    72, 76, 80,
];
pub const AHB: [u8; 9] = [0, 8, 9, 10, 11, 12, 13, 14, 15];
pub const APB: [u8; 5] = [0, 4, 5, 6, 7];
const SYSPLL: [u8; 5] = [0, 1, 2, 3, 6];
const AHB_SHIFT: [u32; 9] = [0, 1, 2, 3, 4, 6, 7, 8, 9];

/// Frequencies at which something is decided.
pub const LIMITS: [u32; 12] = [
    0,
    4_999_999,
    5_000_000,
    8_000_001,
    17_777_778,
    20_000_000,
    24_000_000,
    25_000_000,
    32_000_000,
    32_000_001,
    100_000_000,
    0xffff_ffff,
];

/// The default of the source, row A11.
pub const DEFAULT: [u8; CONFIG] = [0, 0, 0, 0, 0, 0, 0, 0, 0, 0, 6, 0, 0, 0, 0, 0, 0, 0, 0, 0, 0, 3, 1];

pub fn set_frequency(config: &mut [u8; CONFIG], frequency: u32) {
    config[0] = 1;
    config[2..6].copy_from_slice(&frequency.to_be_bytes());
}

/// Row A11 with an HSE (0: none) and some bytes changed.
pub fn with(hse: u32, changes: &[(usize, u8)]) -> [u8; CONFIG] {
    let mut config = DEFAULT;
    if hse != 0 {
        set_frequency(&mut config, hse);
    }
    for (at, value) in changes {
        config[*at] = *value;
    }
    config
}

/// An HSE at which the PLL's output, HCLK or the ADC's frequency of this configuration is at its limit.
fn at_limit(r: &mut Random, config: &[u8; CONFIG]) -> u32 {
    let tries: Vec<u32> = (0..6).map(|_| one_limit(r, config)).collect();
    let usual = tries
        .iter()
        .find(|frequency| (5_000_000..=32_000_000).contains(*frequency));
    *usual.unwrap_or(&tries[0])
}

fn one_limit(r: &mut Random, config: &[u8; CONFIG]) -> u32 {
    let limit = match r.below(4) {
        0 => hse_for(config, 100_000_000),
        1 => hse_for(config, 400_000_000),
        2 => hclk_limit(config),
        _ => adc_limit(config),
    };
    limit as u32
}

/// The largest HSE at which the system clock's source, HSE itself or the main PLL from it, is not above a frequency.
fn hse_for(config: &[u8; CONFIG], wanted: u64) -> u64 {
    let doubled = if config[6] == 2 {
        u64::from(DOUBLED[config[9] as usize])
    } else {
        2
    };
    (wanted * 2 + 1) / doubled
}

fn ahb_shift(config: &[u8; CONFIG]) -> u32 {
    let at = AHB.iter().position(|code| *code == config[15]);
    AHB_SHIFT[at.unwrap_or(0)]
}

fn syspll_divisor(config: &[u8; CONFIG]) -> u64 {
    if config[6] == 2 {
        u64::from(config[11]) + 1
    } else {
        1
    }
}

/// The largest HSE at which HCLK is not above 200 MHz.
pub fn hclk_limit(config: &[u8; CONFIG]) -> u64 {
    let divisor = syspll_divisor(config) << ahb_shift(config);
    hse_for(config, 200_000_001 * divisor - 1)
}

/// The largest HSE at which the ADC, fed by HCLK, is not above 30 MHz.
pub fn adc_limit(config: &[u8; CONFIG]) -> u64 {
    let apb = 1u64 << config[17].saturating_sub(3);
    let total = (apb << ahb_shift(config)) * (u64::from(config[21]) + 1) * 2;
    hse_for(config, (30_000_000 * total + 1) * syspll_divisor(config) - 1)
}

pub fn frequency(r: &mut Random, config: &[u8; CONFIG]) -> u32 {
    let near = [0, 0, 1, 0xffff_ffff];
    match r.below(16) {
        0..=3 => 25_000_000,
        4..=6 => r.pick(&LIMITS),
        7 => r.pick(&LIMITS).wrapping_add(r.pick(&near)),
        8..=11 => at_limit(r, config).wrapping_add(r.pick(&near)),
        12..=14 => 5_000_000 + r.below(27_000_001),
        _ => r.word(),
    }
}

/// Any named codes.
pub fn named(r: &mut Random) -> [u8; CONFIG] {
    let mut c = [0; CONFIG];
    c[0] = r.bits(1);
    c[1] = r.bits(1);
    c[6] = r.below(3) as u8;
    c[7] = r.bits(1);
    c[8] = r.bits(1);
    c[9] = r.bits(5);
    c[10] = r.pick(&SYSPLL);
    c[11] = r.bits(3);
    c[12] = r.bits(1);
    c[13] = r.below(3) as u8;
    c[14] = r.bits(1);
    c[15] = r.pick(&AHB);
    c[16] = r.pick(&APB);
    c[17] = r.pick(&APB);
    c[18] = r.below(3) as u8;
    c[19] = r.bits(1);
    c[20] = if r.once_in(4) { r.byte() } else { 1 + r.bits(5) };
    c[21] = r.bits(2);
    c[22] = r.below(3) as u8;
    let frequency = frequency(r, &c);
    c[2..6].copy_from_slice(&frequency.to_be_bytes());
    plain(&c)
}

/// Named codes, and most of what one part needs of another is there.
pub fn likely(r: &mut Random) -> [u8; CONFIG] {
    let mut c = named(r);
    let needs_eth =
        |c: &[u8; CONFIG]| c[6] == 2 && (c[10] == 1 || c[10] == 3) || c[18] == 2 || c[12] == 1 && c[13] == 2;
    let needs_usbhs = |c: &[u8; CONFIG]| c[6] == 2 && (c[10] == 0 || c[10] == 2) || c[18] == 1 || c[19] == 1;
    if needs_usbhs(&c) && c[12] == 0 {
        c[12] = 1;
        c[13] = r.below(3) as u8;
    }
    c[14] = u8::from(needs_eth(&c) || r.once_in(4));
    if c[6] == 2 && c[10] == 6 && c[8] == 0 {
        c[8] = 1;
        c[9] = r.bits(5);
        c[7] = u8::from(!r.once_in(3));
    }
    if c[14] == 1 {
        set_frequency(&mut c, 25_000_000);
    } else if c[6] == 1 || c[8] == 1 && c[7] == 1 || c[12] == 1 && c[13] == 0 {
        let frequency = frequency(r, &c);
        set_frequency(&mut c, frequency);
    }
    // Half of the PLLs from HSI take one of the few multipliers that HSI allows.
    if c[8] == 1 && c[7] == 0 && r.once_in(2) {
        c[9] = r.bits(4);
    }
    plain(&c)
}

pub fn any(r: &mut Random) -> [u8; CONFIG] {
    if r.once_in(5) {
        named(r)
    } else {
        likely(r)
    }
}
