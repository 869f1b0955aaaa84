//! The V4x7 check: every divider code, every multiplier, and random configurations.

use super::config::{self, set_frequency, AHB, APB, DEFAULT, DOUBLED};
use super::fields::{hse_limits, within_range};
use super::random::{Digits, Random};
use crate::record::*;

/// Every AHB, APB1 and APB2 code under HSI, two HSEs and 200 MHz.
pub const DIVIDERS: usize = 9 * 5 * 5 * 4;
pub fn dividers(i: usize) -> Query {
    let mut d = Digits(i);
    let mut c = DEFAULT;
    c[15] = d.from(&AHB);
    c[16] = d.from(&APB);
    c[17] = d.from(&APB);
    match d.of(4) {
        0 => {}
        3 => {
            c[6] = 2;
            c[8] = 1;
            c[9] = 20;
            c[11] = 1;
        }
        n => {
            set_frequency(&mut c, [5_000_000, 31_999_999][n - 1]);
            c[6] = 1;
        }
    }
    query(CHECK, &[&c])
}

/// Every multiplier by source and boundary HSE, used (SYSPLL divided by 2) or not.
pub const MULTIPLIERS: usize = 32 * 2 * 12 * 2;
pub fn multipliers(i: usize) -> Query {
    let mut d = Digits(i);
    let mut c = DEFAULT;
    c[8] = 1;
    c[9] = d.byte(32);
    c[7] = d.byte(2);
    if let Some(frequency) = d.from(&hse_limits(DOUBLED[c[9] as usize])) {
        set_frequency(&mut c, frequency);
    }
    c[6] = 2 * d.byte(2);
    c[11] = 1;
    query(CHECK, &[&c])
}

/// Every multiplier as system clock, SYSPLL divided by 2, at an HSE that it takes: up to 300 MHz.
pub const MULTIPLIED: usize = 32;
pub fn multiplied(i: usize) -> Query {
    let mut c = DEFAULT;
    set_frequency(&mut c, within_range(DOUBLED[i]));
    c[6] = 2;
    c[7] = 1;
    c[8] = 1;
    c[9] = i as u8;
    c[11] = 1;
    query(CHECK, &[&c])
}

/// The main PLL from HSE as system clock: every multiplier, SYSPLL divisor and AHB code, with the HSE that brings HCLK, or
/// the ADC, to its limit, and the two beside it. Where that HSE is none that the chip takes, a random one.
pub const LIMITS: usize = 32 * 8 * 9 * 2 * 3;
pub fn limits(i: usize) -> Query {
    let mut d = Digits(i);
    let mut r = Random(i as u64);
    let mut c = DEFAULT;
    c[6] = 2;
    c[7] = 1;
    c[8] = 1;
    c[9] = d.byte(32);
    c[11] = d.byte(8);
    c[15] = d.from(&AHB);
    c[16] = r.pick(&APB);
    c[17] = r.pick(&APB);
    c[21] = r.bits(2);
    let limit = if d.of(2) == 0 {
        config::hclk_limit(&c)
    } else {
        config::adc_limit(&c)
    };
    let hse = (limit + d.of(3) as u64).saturating_sub(1);
    if !(5_000_000..=32_000_000).contains(&hse) {
        return random(&mut r);
    }
    set_frequency(&mut c, hse as u32);
    query(CHECK, &[&c])
}

/// A main PLL from HSE with a multiplier, and a USBHS PLL from HSI that feeds the ADC.
macro_rules! main_pll {
    ($sys:literal $mul:literal) => {
        &[(6, $sys), (7, 1), (8, 1), (9, $mul)]
    };
}
macro_rules! adc_by {
    ($divisor:literal) => {
        &[(12, 1), (13, 1), (19, 1), (20, $divisor)]
    };
}

/// Each limit of document 01 and the nearest beyond it that a configuration has: HSE's frequency (0: none), and what differs from row A11.
const AT_LIMITS: [(u32, &[(usize, u8)]); 21] = [
    // The main PLL's output 99,999,999 and 100,000,000, 400,000,000 and 400,000,001; HCLK 200,000,000 and 200,000,002.
    (11_111_111, main_pll!(0 1)),
    (12_500_000, main_pll!(0 0)),
    (25_000_000, main_pll!(0 12)),
    (27_586_207, main_pll!(0 9)),
    (12_500_000, main_pll!(2 12)),
    (11_764_706, main_pll!(2 14)),
    // The ETH PLL's HSE; the USBHS PLL's reference.
    (24_999_999, &[(14, 1)]),
    (25_000_000, &[(14, 1)]),
    (25_000_001, &[(14, 1)]),
    (20_000_000, &[(12, 1)]),
    (20_000_001, &[(12, 1)]),
    (24_000_000, &[(12, 1)]),
    (23_999_999, &[(12, 1)]),
    (25_000_000, &[(12, 1)]),
    (25_000_001, &[(12, 1)]),
    (32_000_000, &[(12, 1)]),
    // The ADC's USBHS divisor; 1 is too fast (15).
    (0, adc_by!(0)),
    (0, adc_by!(1)),
    (0, adc_by!(2)),
    (0, adc_by!(32)),
    (0, adc_by!(33)),
];
pub const EDGES: usize = AT_LIMITS.len();
pub fn edges(i: usize) -> Query {
    let (hse, changes) = AT_LIMITS[i];
    query(CHECK, &[&config::with(hse, changes)])
}

pub fn random(r: &mut Random) -> Query {
    query(CHECK, &[&config::any(r)])
}
