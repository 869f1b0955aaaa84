//! CH32H4: the Rust's h4/prescale.rs. It touches no register.

mod codes;
#[path = "../../target/oracle/hal/src/rcc/h4/prescale.rs"]
pub mod prescale;
#[path = "../../target/oracle/hal/src/time.rs"]
pub mod time;

/// Stands in for ch32_metapac: names by position, as in the Rust's own list (document 01).
pub mod pac {
    pub mod rcc {
        pub mod vals {
            use crate::codes;

            codes!(Hpre: DIV1 C1 C2 C3 C4 C5 C6 C7 DIV2 DIV4 DIV8 DIV16 DIV64 DIV128 DIV256 DIV512);
            codes!(Ppre: DIV1 C1 C2 C3 DIV2 DIV4 DIV8 DIV16);
            codes!(Fpre: DIV1 DIV2 DIV4 C3);
            codes!(Pllmul: MUL4 MUL6 MUL7 MUL8 MUL8_5 MUL9 MUL9_5 MUL10 MUL10_5 MUL11 MUL11_5 MUL12 MUL12_5 MUL13
                MUL14 MUL15 MUL16 MUL17 MUL18 MUL19 MUL20 MUL22 MUL24 MUL26 MUL28 MUL30 MUL32 MUL34 MUL36 MUL38
                MUL40 MUL59);
        }
    }
}

use pac::rcc::vals::{Fpre, Hpre, Pllmul, Ppre};
use prescale as rust;
use time::Hertz;

/// AHB from SYSCLK, asked in both forms that the Rust has: by number and by `Hertz / Hpre`.
pub fn ahb(sysclk: u32, code: u8) -> u32 {
    let by_number = rust::ahb_hz(sysclk, u32::from(code));
    let by_value = rust::ahb_from_sysclk(Hertz(sysclk), Hpre::from_bits(code));
    both(by_number, by_value)
}

/// HCLK from AHB; FPRE may be any byte, and its low two bits count.
pub fn hclk(ahb: u32, code: u8) -> u32 {
    let by_number = rust::hclk_hz(ahb, u32::from(code));
    let by_value = rust::hclk_from_ahb(Hertz(ahb), Fpre::from_bits(code & 3));
    both(by_number, by_value)
}

/// PCLK and the timer clock from HCLK.
pub fn pclk(hclk: u32, code: u8) -> (u32, u32) {
    let (pclk, timer) = rust::pclk_from_hclk(Hertz(hclk), Ppre::from_bits(code));
    (both(rust::pclk_hz(hclk, u32::from(code)), pclk), timer.0)
}

pub fn doubled_multiplier(code: u8) -> u32 {
    rust::pll_mul_x2(Pllmul::from_bits(code))
}

fn both(by_number: u32, by_value: Hertz) -> u32 {
    assert_eq!(by_number, by_value.0, "the Rust's two forms differ");
    by_number
}
