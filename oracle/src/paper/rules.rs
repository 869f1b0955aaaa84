//! Calls below the check and the decoder that the Rust has no call of its own for: the main PLL, SYSPLL's input and the ADC's ratio of V4x7, and the PLL of
//! V1, L1 and V30x. Each refuses by 28 before anything else.

use crate::gen::config::DOUBLED;
use crate::record::*;

pub fn answer(q: &Query) -> Answer {
    let given = match q[0] {
        MAIN_PLL => main_pll(q[1] != 0, q[2], hse(&q[3..])).map(|hz| [hz, 0]),
        SYSPLL => syspll(q[1], hse(&q[2..])).map(|hz| [hz, 0]),
        ADC_RATIO => adc_ratio(q[1], q[2], q[3]),
        _ => pll_output(q[1], q[2] != 0, q[3], q[4], hse(&q[5..])).map(|hz| [hz, 0]),
    };
    match given {
        Err(number) => refused(q[0], number),
        Ok([a, b]) => accepted(q[0], &[&a.to_be_bytes(), &b.to_be_bytes()]),
    }
}

/// 28; from HSE 3, 4; then 5. HSI is 20 MHz.
fn main_pll(from_hse: bool, mul: u8, hse: Option<u32>) -> Result<u32, u8> {
    let doubled = *DOUBLED.get(mul as usize).ok_or(28)?;
    let input = match hse {
        _ if !from_hse => 20_000_000,
        None => return Err(3),
        Some(hz) if !(5_000_000..=32_000_000).contains(&hz) => return Err(4),
        Some(hz) => hz,
    };
    let output = (u64::from(input) * u64::from(doubled) / 2) as u32;
    if (100_000_000..=400_000_000).contains(&output) {
        Ok(output)
    } else {
        Err(5)
    }
}

/// 28; then the five sources, of which the main PLL may be absent (9); then 19.
fn syspll(source: u8, main: Option<u32>) -> Result<u32, u8> {
    match source {
        0 => Ok(480_000_000),
        1 => Ok(500_000_000),
        2 => Ok(320_000_000),
        3 => Ok(333_333_333),
        6 => main.ok_or(9),
        4 | 5 | 7 => Err(19),
        _ => Err(28),
    }
}

/// From the USBHS PLL: 28, then 14; the source and its whole divisor.
fn adc_ratio(divisor: u8, apb2: u8, prescaler: u8) -> Result<[u32; 2], u8> {
    if apb2 > 7 || prescaler > 3 {
        return Err(28);
    }
    if !(1..=32).contains(&divisor) {
        return Err(14);
    }
    let apb = [1, 1, 1, 1, 2, 4, 8, 16][apb2 as usize];
    Ok([480_000_000, u32::from(divisor) * apb * [2, 4, 6, 8][prescaler as usize]])
}

/// 28; HSE missing 3; a product over 32 bits 24. Parts: 0 V1, 1 L1, 2 V30x; the predivider is a code less one.
fn pll_output(part: u8, from_hse: bool, predivider: u8, mul: u8, hse: Option<u32>) -> Result<u32, u8> {
    if predivider > 15 || mul > 15 {
        return Err(28);
    }
    let source = if from_hse { hse.ok_or(3)? } else { 8_000_000 };
    let (factor, halved) = match (part, mul) {
        (2, 0) => (18, false),
        (2, 1..=12) => (u64::from(mul) + 2, false),
        (2, 13) => (13, true),
        (2, 14) => (15, false),
        (1, 15) => (18, false),
        (_, 15) => (16, false),
        _ => (u64::from(mul) + 2, false),
    };
    let product = u64::from(source / (u32::from(predivider) + 1)) * factor;
    let output = u32::try_from(product).map_err(|_| 24)?;
    Ok(if halved { output / 2 } else { output })
}
