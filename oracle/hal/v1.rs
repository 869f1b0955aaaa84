//! CH32V1 (cfg ch32v1) and CH32L1 (cfg ch32l1): the Rust's v1.rs over a record in memory.

mod codes;
#[path = "v1_pac.rs"]
pub mod pac;
pub mod rcc;
mod reg;
#[path = "../../target/oracle/hal/src/time.rs"]
pub mod time;

use pac::rcc::vals::{Hpre, PllMul, Pllsrc, Ppre, Sw};
use rcc::v1::{init, refresh_clocks, Config, Pll, PllPreDiv};

/// The Rust's text, in which a panic's place is looked up.
pub const SOURCE: &str = include_str!("../../target/oracle/hal/src/rcc/v1.rs");

/// A configuration by codes.
pub struct Setup {
    pub hse: Option<rcc::Hse>,
    pub sys: u8,
    pub pll_hse: bool,
    /// Whether the PLL's input is halved, and the multiplier's code.
    pub pll: Option<(bool, u8)>,
    pub ahb: u8,
    pub apb1: u8,
    pub apb2: u8,
}

fn config(setup: &Setup) -> Config {
    let pll = setup.pll.map(|(halved, mul)| Pll {
        prediv: if halved { PllPreDiv::DIV2 } else { PllPreDiv::DIV1 },
        mul: PllMul::from_bits(mul),
    });
    Config {
        hse: setup.hse,
        sys: Sw::from_bits(setup.sys),
        pll_src: if setup.pll_hse { Pllsrc::HSE } else { Pllsrc::HSI },
        pll,
        ahb_pre: Hpre::from_bits(setup.ahb),
        apb1_pre: Ppre::from_bits(setup.apb1),
        apb2_pre: Ppre::from_bits(setup.apb2),
    }
}

/// What `init` leaves: the six clocks and the USB divisor, doubled (0: none written).
pub fn start(setup: &Setup) -> ([u32; 6], u8) {
    unsafe { init(config(setup)) };
    (rcc::clocks().numbers(), pac::usb_doubled())
}

/// The Rust's named configurations, in its order, and the clocks that `init` leaves.
pub fn named() -> [(&'static str, [u32; 6]); 6] {
    [
        ("SYSCLK_FREQ_48MHZ_HSE", Config::SYSCLK_FREQ_48MHZ_HSE),
        ("SYSCLK_FREQ_72MHZ_HSE", Config::SYSCLK_FREQ_72MHZ_HSE),
        ("SYSCLK_FREQ_96MHZ_HSE", Config::SYSCLK_FREQ_96MHZ_HSE),
        ("SYSCLK_FREQ_48MHZ_HSI", Config::SYSCLK_FREQ_48MHZ_HSI),
        ("SYSCLK_FREQ_72MHZ_HSI", Config::SYSCLK_FREQ_72MHZ_HSI),
        ("SYSCLK_FREQ_96MHZ_HSI", Config::SYSCLK_FREQ_96MHZ_HSI),
    ]
    .map(|(name, config)| {
        pac::put([0; 8]);
        unsafe { init(config) };
        (name, rcc::clocks().numbers())
    })
}

pub fn decode(hse: Option<u32>) -> [u32; 6] {
    unsafe { refresh_clocks(hse.map(time::Hertz)) };
    rcc::clocks().numbers()
}
