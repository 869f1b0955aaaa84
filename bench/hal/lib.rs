//! CH32V407/CH32V467: the Rust's v4x7.rs as it is, over registers that are words of memory.
//! oracle/hal has the same over a record that notes every step, which costs more than the Rust itself.

pub mod pac;
pub mod rcc;
#[path = "../../target/bench/hal/src/time.rs"]
pub mod time;

pub use rcc::v4x7::{
    AHBPrescaler, APBPrescaler, AdcClockSource, AdcDutyCycle, AdcPrescaler, Config, HsPllSource, Pll, PllMul,
    PllSource, RngClockSource, SysPllPrescaler, SysPllSource, Sysclk,
};
use time::Hertz;

/// `init`: the check, the 28 steps, the decoder.
#[inline]
pub fn start(config: Config) {
    unsafe { rcc::v4x7::init(config) }
}

/// The clocks that the registers say go into the place that `rcc::clocks` shows.
#[inline]
pub fn decode(hse: Option<u32>) {
    unsafe { rcc::v4x7::refresh_clocks(hse.map(Hertz)) }
}

pub fn adc() -> Option<u32> {
    rcc::v4x7::adc_frequency().map(|hertz| hertz.0)
}
