//! CH32V407/CH32V467 (cfg v4x7): the Rust's v4x7.rs over a record in memory.

#[path = "v4x7_pac.rs"]
pub mod pac;
pub mod rcc;
pub mod script;
#[path = "../../target/oracle/hal/src/time.rs"]
pub mod time;

pub use rcc::v4x7::{
    AHBPrescaler, APBPrescaler, AdcClockSource, AdcDutyCycle, AdcPrescaler, Config, HsPllSource, Pll, PllMul,
    PllSource, RngClockSource, SysPllPrescaler, SysPllSource, Sysclk,
};
use time::Hertz;

/// The Rust's text, in which a panic's place is looked up.
pub const SOURCE: &str = include_str!("../../target/oracle/hal/src/rcc/v4x7.rs");

/// `init` over the record and the script of readings that were put before.
pub fn start(config: Config) {
    unsafe { rcc::v4x7::init(config) }
}

pub fn decode(hse: Option<u32>) -> [u32; 6] {
    unsafe { rcc::v4x7::refresh_clocks(hse.map(Hertz)) };
    rcc::clocks().numbers()
}

/// The ADC's frequency; None: its PLL is not ready.
pub fn adc(sysclk: u32) -> Option<u32> {
    rcc::set_sysclk(sysclk);
    rcc::v4x7::adc_frequency().map(|hertz| hertz.0)
}

/// The RNG source's frequency; None: its PLL is not ready.
pub fn rng(sysclk: u32) -> Option<u32> {
    rcc::set_sysclk(sysclk);
    rcc::v4x7::rng_source_frequency().map(|hertz| hertz.0)
}
