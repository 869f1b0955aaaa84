//! V4x7 fields, and the queries that read them.

use super::config::{frequency, DOUBLED, LIMITS};
use super::random::{Digits, Random};
use crate::paper::layout::IMAGE;
use crate::record::*;

/// Every field within its width.
pub fn any(r: &mut Random) -> [u8; FIELDS] {
    let mut fields = [0; FIELDS];
    for (field, width) in fields.iter_mut().zip(&IMAGE) {
        *field = r.bits(*width);
    }
    fields
}

pub fn decode(fields: &[u8; FIELDS], hse: Option<u32>) -> Query {
    let present = [u8::from(hse.is_some())];
    query(DECODE, &[fields, &present, &hse.unwrap_or(0).to_be_bytes()])
}

/// All 2^14 selections (SWS, SYSPLLSRC, SYSPLLDIV, USBHSPLLSRC, USBHSPLLCLK, PLLSRC, HPRE by 1 or 2) with each HSE.
pub const SELECTIONS: usize = (1 << 14) * HSES.len();
const HSES: [Option<u32>; 7] = [
    None,
    Some(4_999_999),
    Some(8_000_001),
    Some(20_000_000),
    Some(25_000_000),
    Some(32_000_000),
    Some(32_000_001),
];
pub fn selections(i: usize) -> Query {
    let mut d = Digits(i);
    let mut fields = any(&mut Random(i as u64));
    fields[12] = d.byte(4);
    fields[24] = d.byte(8);
    fields[25] = d.byte(8);
    fields[22] = d.byte(4);
    fields[23] = d.byte(4);
    fields[14] = d.byte(2);
    fields[16] = d.byte(2) * 8;
    decode(&fields, d.from(&HSES))
}

/// Every HPRE, PPRE1 and PPRE2 under each system clock.
pub const DIVIDERS: usize = 16 * 8 * 8 * 3;
pub fn dividers(i: usize) -> Query {
    let mut d = Digits(i);
    let mut fields = any(&mut Random(i as u64));
    fields[16] = d.byte(16);
    fields[17] = d.byte(8);
    fields[18] = d.byte(8);
    fields[12] = d.byte(3);
    // SYSPLL: HSI by 19.5, the highest odd frequency that the main PLL gives from HSI, halved.
    fields[14] = 0;
    fields[15] = 19;
    fields[24] = 6;
    fields[25] = 1;
    decode(&fields, Some(31_999_999))
}

/// HSE at which a multiplier's output enters and leaves 100..400 MHz, and beside it.
pub fn hse_limits(doubled: u32) -> [Option<u32>; 12] {
    let low = (200_000_000 + doubled - 1) / doubled;
    let high = 800_000_001 / doubled;
    [
        None,
        Some(low - 1),
        Some(low),
        Some(low + 1),
        Some(high - 1),
        Some(high),
        Some(high + 1),
        Some(4_999_999),
        Some(5_000_000),
        Some(32_000_000),
        Some(32_000_001),
        Some(0),
    ]
}

/// Every multiplier by source and boundary HSE, SYSPLL divided by 2.
pub const MULTIPLIERS: usize = 32 * 2 * 12;
pub fn multipliers(i: usize) -> Query {
    let mut d = Digits(i);
    let mut fields = any(&mut Random(i as u64));
    fields[15] = d.byte(32);
    fields[14] = d.byte(2);
    fields[12] = 2;
    fields[24] = 6;
    fields[25] = 1;
    fields[16] = 0;
    decode(&fields, d.from(&hse_limits(DOUBLED[fields[15] as usize])))
}

/// An HSE at which a multiplier's output is in range.
pub fn within_range(doubled: u32) -> u32 {
    (600_000_000 / doubled).min(32_000_000)
}

/// Every multiplier in use, SYSPLL divided by 2, at an HSE that it takes.
pub const MULTIPLIED: usize = 32;
pub fn multiplied(i: usize) -> Query {
    let mut fields = [0; FIELDS];
    fields[12] = 2;
    fields[14] = 1;
    fields[15] = i as u8;
    fields[24] = 6;
    fields[25] = 1;
    decode(&fields, Some(within_range(DOUBLED[i])))
}

/// The main PLL's output and HCLK at their limits and the nearest beyond: HSE, multiplier, SYSPLL divisor less one.
const AT_LIMITS: [(u32, u8, u8); 6] = [
    (11_111_111, 1, 0),
    (12_500_000, 0, 0),
    (25_000_000, 12, 1),
    (27_586_207, 9, 1),
    (12_500_000, 12, 0),
    (11_764_706, 14, 0),
];
pub const EDGES: usize = AT_LIMITS.len();
pub fn edges(i: usize) -> Query {
    let (hse, mul, less) = AT_LIMITS[i];
    let mut fields = [0; FIELDS];
    fields[12] = 2;
    fields[14] = 1;
    fields[15] = mul;
    fields[24] = 6;
    fields[25] = less;
    decode(&fields, Some(hse))
}

/// The ADC query: every ADCSRC, USBHS_PLLRDY, HPRE, PPRE2 and ADCPRE.
pub const ADCS: usize = 2 * 2 * 16 * 8 * 4;
pub fn adcs(i: usize) -> Query {
    let mut d = Digits(i);
    let mut r = Random(i as u64);
    let mut fields = any(&mut r);
    fields[20] = d.byte(2);
    fields[10] = d.byte(2);
    fields[16] = d.byte(16);
    fields[18] = d.byte(8);
    fields[19] = d.byte(4);
    query(ADC, &[&fields, &r.word().to_be_bytes()])
}

/// Every ADC_CLKDIV, PPRE2 and ADCPRE with USBHS ready.
pub const ADC_DIVISORS: usize = 32 * 8 * 4;
pub fn adc_divisors(i: usize) -> Query {
    let mut d = Digits(i);
    let mut fields = any(&mut Random(i as u64));
    fields[20] = 1;
    fields[10] = 1;
    fields[29] = d.byte(32);
    fields[18] = d.byte(8);
    fields[19] = d.byte(4);
    query(ADC, &[&fields, &200_000_000u32.to_be_bytes()])
}

/// The RNG query: every RNGSRC, I2SPLLSRC and ready bit of USBHS and ETH.
pub const RNGS: usize = 16;
pub fn rngs(i: usize) -> Query {
    let mut d = Digits(i);
    let mut r = Random(i as u64);
    let mut fields = any(&mut r);
    fields[27] = d.byte(2);
    fields[28] = d.byte(2);
    fields[10] = d.byte(2);
    fields[11] = d.byte(2);
    query(RNG, &[&fields, &r.word().to_be_bytes()])
}

pub fn random_decode(r: &mut Random) -> Query {
    let mut fields = any(r);
    if r.once_in(2) {
        fields[12] = 2;
        fields[24] = r.pick(&[0, 1, 2, 3, 6, 6]);
        fields[23] = r.bits(2);
    }
    let mut like = super::config::DEFAULT;
    like[6] = 2;
    like[9] = fields[15];
    like[11] = fields[25];
    let hse = if r.once_in(8) { None } else { Some(frequency(r, &like)) };
    decode(&fields, hse)
}

pub fn random_ask(r: &mut Random) -> Query {
    let kind = r.pick(&[ADC, ADC, RNG]);
    let sysclk = if r.once_in(2) { r.pick(&LIMITS) } else { r.word() };
    query(kind, &[&any(r), &sysclk.to_be_bytes()])
}
