//! The calls below the check and the decoder, whose codes nobody has looked at before: each code at and beyond its limit, with HSE missing and out of range.

use super::random::Digits;
use crate::record::*;

fn optional(frequency: Option<u32>) -> [u8; 5] {
    let mut bytes = [u8::from(frequency.is_some()), 0, 0, 0, 0];
    bytes[1..].copy_from_slice(&frequency.unwrap_or(0).to_be_bytes());
    bytes
}

pub const MAIN_PLLS: usize = 2 * 6 * 5;
pub fn main_plls(i: usize) -> Query {
    let mut d = Digits(i);
    let from_hse = d.byte(2);
    let mul = d.from(&[0, 12, 20, 31, 32, 255]);
    let hse = d.from(&[
        None,
        Some(4_999_999),
        Some(12_500_001),
        Some(32_000_000),
        Some(32_000_001),
    ]);
    query(MAIN_PLL, &[&[from_hse, mul], &optional(hse)])
}

pub const SYSPLLS: usize = 10 * 2;
pub fn syspll_inputs(i: usize) -> Query {
    let mut d = Digits(i);
    let source = d.from(&[0, 1, 2, 3, 4, 5, 6, 7, 8, 255]);
    query(SYSPLL, &[&[source], &optional(d.from(&[None, Some(123_456_789)]))])
}

pub const ADC_RATIOS: usize = 6 * 4 * 3;
pub fn adc_ratios(i: usize) -> Query {
    let mut d = Digits(i);
    let divisor = d.from(&[0, 1, 2, 32, 33, 255]);
    let apb2 = d.from(&[0, 4, 7, 8]);
    query(ADC_RATIO, &[&[divisor, apb2, d.from(&[0, 3, 4])]])
}

pub const PLL_OUTPUTS: usize = 3 * 2 * 4 * 4 * 3;
pub fn pll_outputs(i: usize) -> Query {
    let mut d = Digits(i);
    let part = d.byte(3);
    let from_hse = d.byte(2);
    let predivider = d.from(&[0, 2, 15, 16]);
    let mul = d.from(&[0, 13, 15, 16]);
    let hse = d.from(&[None, Some(12_000_001), Some(0xffff_ffff)]);
    query(PLL_OUTPUT, &[&[part, from_hse, predivider, mul], &optional(hse)])
}
