//! CH32V4x7: check, decoder, ADC and RNG queries.

use super::refusal;
use crate::panics::caught;
use crate::record::*;
use hal_v4x7::pac::chip;
use hal_v4x7::script::Chip;
use hal_v4x7::*;

const MULTIPLIERS: [PllMul; 32] = {
    use PllMul::*;
    [
        MUL8, MUL9, MUL10, MUL11, MUL12, MUL12_5, MUL13, MUL13_5, MUL14, MUL14_5, MUL15, MUL15_5, MUL16, MUL16_5,
        MUL17, MUL17_5, MUL18, MUL18_5, MUL19, MUL19_5, MUL20, MUL21, MUL22, MUL24, MUL26, MUL28, MUL30, MUL32, MUL34,
        MUL36, MUL38, MUL40,
    ]
};

const SYSPLL_DIVISORS: [SysPllPrescaler; 8] = {
    use SysPllPrescaler::*;
    [DIV1, DIV2, DIV3, DIV4, DIV5, DIV6, DIV7, DIV8]
};

fn ahb(code: u8) -> AHBPrescaler {
    use AHBPrescaler::*;
    match code {
        0 => DIV1,
        code => [DIV2, DIV4, DIV8, DIV16, DIV64, DIV128, DIV256, DIV512][code as usize - 8],
    }
}

fn apb(code: u8) -> APBPrescaler {
    use APBPrescaler::*;
    match code {
        0 => DIV1,
        code => [DIV2, DIV4, DIV8, DIV16][code as usize - 4],
    }
}

fn syspll_source(code: u8) -> SysPllSource {
    use SysPllSource::*;
    match code {
        6 => Pll,
        code => [UsbHs, Eth, UsbHsMul2Div3, EthMul2Div3][code as usize],
    }
}

fn adc_source(usbhs: u8, divisor: u8) -> AdcClockSource {
    match usbhs {
        0 => AdcClockSource::Hclk,
        _ => AdcClockSource::UsbHsPll { divisor },
    }
}

/// `value` where the byte says that the part is there.
fn part<T>(present: u8, value: impl FnOnce() -> T) -> Option<T> {
    if present != 0 {
        Some(value())
    } else {
        None
    }
}

/// The Rust's configuration from the 23 bytes of the record.
pub fn config(c: &[u8]) -> Config {
    Config {
        hse: part(c[0], || rcc::Hse::new(number(&c[2..]), c[1] != 0)),
        sys: [Sysclk::HSI, Sysclk::HSE, Sysclk::PLL][c[6] as usize],
        pll_src: [PllSource::HSI, PllSource::HSE][c[7] as usize],
        pll: part(c[8], || Pll {
            mul: MULTIPLIERS[c[9] as usize],
        }),
        syspll_src: syspll_source(c[10]),
        syspll_pre: SYSPLL_DIVISORS[c[11] as usize],
        hspll: part(c[12], || {
            [HsPllSource::HSE, HsPllSource::HSI, HsPllSource::ETH][c[13] as usize]
        }),
        ethpll: c[14] != 0,
        ahb_pre: ahb(c[15]),
        apb1_pre: apb(c[16]),
        apb2_pre: apb(c[17]),
        rng_src: [RngClockSource::Sysclk, RngClockSource::UsbHsPll, RngClockSource::EthPll][c[18] as usize],
        adc_src: adc_source(c[19], c[20]),
        adc_pre: [
            AdcPrescaler::DIV2,
            AdcPrescaler::DIV4,
            AdcPrescaler::DIV6,
            AdcPrescaler::DIV8,
        ][c[21] as usize],
        adc_duty: [
            AdcDutyCycle::Percent50,
            AdcDutyCycle::Percent62_5,
            AdcDutyCycle::Percent75,
        ][c[22] as usize],
    }
}

pub fn fields(bytes: &[u8]) -> [u8; FIELDS] {
    let mut fields = [0; FIELDS];
    fields.copy_from_slice(&bytes[..FIELDS]);
    fields
}

pub fn check(q: &Query) -> Answer {
    let config = config(&q[1..]);
    let clocks = match caught(SOURCE, || config.clocks()) {
        Ok(clocks) => clocks.numbers(),
        Err(thrown) => return refusal(CHECK, thrown),
    };
    let adc = adc_of(&q[1..], clocks[0]);
    accepted(CHECK, &[&clock_bytes(clocks), &adc.to_be_bytes()])
}

/// `Config::clocks` checks the ADC's frequency and does not give it. `adc_frequency` does, over the fields that `init` would write.
fn adc_of(c: &[u8], sysclk: u32) -> u32 {
    let mut fields = [0; FIELDS];
    fields[10] = 1; // USBHS_PLLRDY
    fields[16] = c[15]; // HPRE
    fields[18] = c[17]; // PPRE2
    fields[19] = c[21]; // ADCPRE
    fields[20] = c[19]; // ADCSRC
    fields[29] = c[20].saturating_sub(1); // ADC_CLKDIV
    chip(|chip| *chip = Chip::still(fields));
    adc(sysclk).expect("USBHS is ready")
}

pub fn decode(q: &Query) -> Answer {
    chip(|chip| *chip = Chip::still(fields(&q[1..])));
    match caught(SOURCE, || hal_v4x7::decode(hse(&q[1 + FIELDS..]))) {
        Ok(clocks) => accepted(DECODE, &[&clock_bytes(clocks)]),
        Err(thrown) => refusal(DECODE, thrown),
    }
}

/// The ADC and RNG queries: fields and a SYSCLK. They refuse nothing; "not ready" is an answer.
pub fn ask(q: &Query) -> Answer {
    chip(|chip| *chip = Chip::still(fields(&q[1..])));
    let sysclk = number(&q[1 + FIELDS..]);
    let frequency = if q[0] == ADC { adc(sysclk) } else { rng(sysclk) };
    let ready = [u8::from(frequency.is_some())];
    accepted(q[0], &[&ready, &frequency.unwrap_or(0).to_be_bytes()])
}
