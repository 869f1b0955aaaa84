//! The Rust's calls, each a function of its own so that its cost can be asked for.

use crate::paper::{codec, codes, layout};
use crate::record::{number, CONFIG, FIELDS};
use hal_v4x7::time::Hertz;
use hal_v4x7::*;
use std::mem::transmute;

#[no_mangle]
#[inline(never)]
pub fn theirs_check(config: &Config) -> rcc::Clocks {
    config.clocks()
}

/// The clocks that the registers say; `rcc::clocks` has them then.
#[no_mangle]
#[inline(never)]
pub fn theirs_decode(hse: Option<u32>) {
    decode(hse)
}

/// `init`, from registers that are all zero.
#[no_mangle]
#[inline(never)]
pub fn theirs_startup(config: &Config) {
    pac::clear();
    start(*config)
}

/// The bytes of the configuration where the profile is allowed, by the oracle's reader.
pub fn config_bytes(profile: &[u8; 10]) -> Option<[u8; CONFIG]> {
    let (config, filling) = layout::config_of(profile);
    let allowed = filling == 0 && codec::plain(&config) == config && codes::named(&config);
    if allowed {
        Some(config)
    } else {
        None
    }
}

#[no_mangle]
#[inline(never)]
pub fn theirs_read_image(image: &[u8; 8]) -> Option<[u8; FIELDS]> {
    let (fields, filling) = layout::fields_of(image);
    if filling == 0 {
        Some(fields)
    } else {
        None
    }
}

#[no_mangle]
#[inline(never)]
pub fn theirs_read_and_decode(image: &[u8; 8], hse: Option<u32>) {
    if let Some(fields) = theirs_read_image(image) {
        pac::put(&fields);
        decode(hse)
    }
}

#[no_mangle]
#[inline(never)]
pub fn theirs_write_profile(config: &[u8; CONFIG]) -> Option<[u8; 10]> {
    let config = codec::plain(config);
    if codes::named(&config) {
        Some(layout::profile_of(&config))
    } else {
        None
    }
}

#[no_mangle]
#[inline(never)]
pub fn theirs_write_image(fields: &[u8; FIELDS]) -> Option<[u8; 8]> {
    if codes::in_width(fields) {
        Some(layout::image_of(fields))
    } else {
        None
    }
}

fn part<T>(present: u8, value: T) -> Option<T> {
    if present != 0 {
        Some(value)
    } else {
        None
    }
}

/// The Rust's configuration from bytes that `named` allows: each is then a code of its enum.
pub fn config_of(c: &[u8; CONFIG]) -> Config {
    let mode = if c[1] != 0 {
        rcc::HseMode::Bypass
    } else {
        rcc::HseMode::Oscillator
    };
    let freq = Hertz(number(&c[2..]));
    unsafe {
        Config {
            hse: part(c[0], rcc::Hse { freq, mode }),
            sys: transmute::<u8, Sysclk>(c[6]),
            pll_src: transmute::<u8, PllSource>(c[7]),
            pll: part(
                c[8],
                Pll {
                    mul: transmute::<u8, PllMul>(c[9]),
                },
            ),
            syspll_src: transmute::<u8, SysPllSource>(c[10]),
            syspll_pre: transmute::<u8, SysPllPrescaler>(c[11]),
            hspll: part(c[12], transmute::<u8, HsPllSource>(c[13])),
            ethpll: c[14] != 0,
            ahb_pre: transmute::<u8, AHBPrescaler>(c[15]),
            apb1_pre: transmute::<u8, APBPrescaler>(c[16]),
            apb2_pre: transmute::<u8, APBPrescaler>(c[17]),
            rng_src: [RngClockSource::Sysclk, RngClockSource::UsbHsPll, RngClockSource::EthPll][usize::from(c[18])],
            adc_src: match c[19] {
                0 => AdcClockSource::Hclk,
                _ => AdcClockSource::UsbHsPll { divisor: c[20] },
            },
            adc_pre: transmute::<u8, AdcPrescaler>(c[21]),
            adc_duty: transmute::<u8, AdcDutyCycle>(c[22]),
        }
    }
}
