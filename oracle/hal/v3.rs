//! CH32V30x (cfg d8c): the Rust's v3.rs over a record in memory.

mod codes;
#[path = "v3_pac.rs"]
pub mod pac;
pub mod rcc;
mod reg;
#[path = "../../target/oracle/hal/src/time.rs"]
pub mod time;

use pac::rcc::vals::{Hpre, PllMul, Ppre, Prediv, Sw};
use rcc::v3::{init, refresh_clocks, Config, HsPll, HsPllPrescaler, HsPllSource, Pll, PllSource, Pllx};

/// The Rust's text, in which a panic's place is looked up.
pub const SOURCE: &str = include_str!("../../target/oracle/hal/src/rcc/v3.rs");

/// A configuration by codes.
pub struct Setup {
    pub hse: Option<rcc::Hse>,
    pub sys: u8,
    /// 0 HSI, 1 HSE, 2 PLL2.
    pub pll_src: u8,
    /// The predivider's and the multiplier's code.
    pub pll: Option<(u8, u8)>,
    pub pllx: bool,
    pub ahb: u8,
    pub apb1: u8,
    pub apb2: u8,
    pub hspll_hse: bool,
    /// The code of the USBHS prescaler.
    pub hspll: Option<u8>,
}

const HSPLL_PRESCALERS: [HsPllPrescaler; 8] = [
    HsPllPrescaler::DIV1,
    HsPllPrescaler::DIV2,
    HsPllPrescaler::DIV3,
    HsPllPrescaler::DIV4,
    HsPllPrescaler::DIV5,
    HsPllPrescaler::DIV6,
    HsPllPrescaler::DIV7,
    HsPllPrescaler::DIV8,
];

fn config(setup: &Setup) -> Config {
    let pllx = Pllx {
        prediv2: Prediv::DIV1,
        pll2: None,
        pll3: None,
    };
    Config {
        hse: setup.hse,
        sys: Sw::from_bits(setup.sys),
        pll_src: [PllSource::HSI, PllSource::HSE, PllSource::PLL2][setup.pll_src as usize],
        pll: setup.pll.map(|(pre, mul)| Pll {
            prediv: Prediv::from_bits(pre),
            mul: PllMul::from_bits(mul),
        }),
        pllx: if setup.pllx { Some(pllx) } else { None },
        ahb_pre: Hpre::from_bits(setup.ahb),
        apb1_pre: Ppre::from_bits(setup.apb1),
        apb2_pre: Ppre::from_bits(setup.apb2),
        ls: rcc::LsConfig::default_lsi(),
        hspll_src: if setup.hspll_hse {
            HsPllSource::HSE
        } else {
            HsPllSource::HSI
        },
        hspll: setup.hspll.map(|code| HsPll {
            pre: HSPLL_PRESCALERS[code as usize],
        }),
    }
}

/// What `init` leaves: the six clocks and the USB divisor, doubled (0: none written).
pub fn start(setup: &Setup) -> ([u32; 6], u8) {
    unsafe { init(config(setup)) };
    (rcc::clocks().numbers(), pac::usb_doubled())
}

/// The Rust's named configurations, in its order, and the clocks that `init` leaves.
pub fn named() -> [(&'static str, [u32; 6]); 4] {
    [
        ("SYSCLK_FREQ_96MHZ_HSE", Config::SYSCLK_FREQ_96MHZ_HSE),
        ("SYSCLK_FREQ_144MHZ_HSE", Config::SYSCLK_FREQ_144MHZ_HSE),
        ("SYSCLK_FREQ_144MHZ_HSI", Config::SYSCLK_FREQ_144MHZ_HSI),
        ("SYSCLK_FREQ_96MHZ_HSI", Config::SYSCLK_FREQ_96MHZ_HSI),
    ]
    .map(|(name, config)| {
        pac::put([0; 9]);
        unsafe { init(config) };
        (name, rcc::clocks().numbers())
    })
}

pub fn decode(hse: Option<u32>) -> [u32; 6] {
    unsafe { refresh_clocks(hse.map(time::Hertz)) };
    rcc::clocks().numbers()
}
