//! Document 01, "Fields, packed most significant bit first": the two lists of widths.

use crate::record::{CONFIG, FIELDS};

/// HSE present, bypass, frequency; system clock; PLL source, present, multiplier; SYSPLL source, divisor; USBHS present,
/// source; ETH; AHB, APB1, APB2; RNG; ADC from USBHS, divisor, prescaler, duty; zeros.
pub const PROFILE: [u32; 21] = [1, 1, 32, 2, 1, 1, 5, 3, 3, 1, 2, 1, 4, 3, 3, 2, 1, 8, 2, 2, 2];

/// HSION to ETH_PLLRDY; SWS; SW, PLLSRC, PLLMUL, HPRE, PPRE1, PPRE2, ADCPRE, ADCSRC, ADC_DUTY; USBHSPLLSRC, USBHSPLLCLK,
/// SYSPLLSRC, SYSPLLDIV, SYSPLL_GATE, RNGSRC, I2SPLLSRC; ADC_CLKDIV; SCKMOD, LOCK, FLOCK; zeros.
pub const IMAGE: [u32; 34] = [
    1, 1, 1, 1, 1, 1, 1, 1, 1, 1, 1, 1, 2, 2, 1, 5, 4, 3, 3, 2, 1, 2, 2, 2, 3, 3, 1, 1, 1, 5, 2, 1, 1, 5,
];

fn packed(numbers: &[u32], widths: &[u32]) -> u128 {
    let pairs = numbers.iter().zip(widths);
    pairs.fold(0, |sum, (number, width)| sum << width | u128::from(*number))
}

fn cut(bytes: &[u8], widths: &[u32]) -> Vec<u32> {
    let whole = bytes.iter().fold(0u128, |sum, byte| sum << 8 | u128::from(*byte));
    let mut left: u32 = widths.iter().sum();
    let mut numbers = Vec::new();
    for width in widths {
        left -= width;
        numbers.push((whole >> left & ((1u128 << width) - 1)) as u32);
    }
    numbers
}

/// The numbers of a profile from the bytes of a configuration: one each, the frequency four.
fn profile_numbers(config: &[u8]) -> Vec<u32> {
    let mut numbers = vec![
        u32::from(config[0]),
        u32::from(config[1]),
        crate::record::number(&config[2..]),
    ];
    numbers.extend(config[6..CONFIG].iter().map(|byte| u32::from(*byte)));
    numbers.push(0);
    numbers
}

pub fn profile_of(config: &[u8]) -> [u8; 10] {
    let whole = packed(&profile_numbers(config), &PROFILE).to_be_bytes();
    let mut profile = [0; 10];
    profile.copy_from_slice(&whole[6..]);
    profile
}

/// The configuration's bytes, and the filling.
pub fn config_of(profile: &[u8]) -> ([u8; CONFIG], u32) {
    let numbers = cut(profile, &PROFILE);
    let mut config = [0; CONFIG];
    config[0] = numbers[0] as u8;
    config[1] = numbers[1] as u8;
    config[2..6].copy_from_slice(&numbers[2].to_be_bytes());
    for (i, number) in numbers[3..20].iter().enumerate() {
        config[6 + i] = *number as u8;
    }
    (config, numbers[20])
}

pub fn image_of(fields: &[u8; FIELDS]) -> [u8; 8] {
    let mut numbers: Vec<u32> = fields.iter().map(|byte| u32::from(*byte)).collect();
    numbers.push(0);
    let whole = packed(&numbers, &IMAGE).to_be_bytes();
    let mut image = [0; 8];
    image.copy_from_slice(&whole[8..]);
    image
}

/// The fields, and the filling.
pub fn fields_of(image: &[u8]) -> ([u8; FIELDS], u32) {
    let numbers = cut(image, &IMAGE);
    let mut fields = [0; FIELDS];
    for (field, number) in fields.iter_mut().zip(&numbers) {
        *field = *number as u8;
    }
    (fields, numbers[FIELDS])
}
