//! Stands in for ch32-hal's rcc/mod.rs: what the family files take from `super`.
//! The family files themselves come, unchanged, from the checkout, of which `oracle/build` has copies in target/oracle/hal.

use crate::time::Hertz;
use std::cell::Cell;

#[cfg(any(ch32v1, ch32l1))]
#[path = "../../target/oracle/hal/src/rcc/v1.rs"]
pub mod v1;
#[cfg(d8c)]
#[path = "../../target/oracle/hal/src/rcc/v3.rs"]
pub mod v3;
#[cfg(v4x7)]
#[path = "../../target/oracle/hal/src/rcc/v4x7.rs"]
pub mod v4x7;

#[derive(Clone, Copy, Debug, Eq, PartialEq)]
pub enum HseMode {
    Oscillator,
    Bypass,
}

#[derive(Clone, Copy, Debug, Eq, PartialEq)]
pub struct Hse {
    pub freq: Hertz,
    pub mode: HseMode,
}

impl Hse {
    pub fn new(freq: u32, bypass: bool) -> Hse {
        let mode = if bypass { HseMode::Bypass } else { HseMode::Oscillator };
        Hse {
            freq: Hertz(freq),
            mode,
        }
    }
}

/// The LSE/LSI setup is not taken; the type is there because v3.rs names it.
#[derive(Default)]
pub struct LsConfig;

impl LsConfig {
    pub const fn default_lsi() -> Self {
        LsConfig
    }
}

#[derive(Clone, Copy, Debug, Eq, PartialEq)]
pub struct Clocks {
    pub sysclk: Hertz,
    pub hclk: Hertz,
    pub pclk1: Hertz,
    pub pclk2: Hertz,
    pub pclk1_tim: Hertz,
    pub pclk2_tim: Hertz,
}

impl Clocks {
    /// The six frequencies in document 01's order.
    pub fn numbers(&self) -> [u32; 6] {
        [
            self.sysclk.0,
            self.hclk.0,
            self.pclk1.0,
            self.pclk2.0,
            self.pclk1_tim.0,
            self.pclk2_tim.0,
        ]
    }
}

const NO_CLOCKS: Clocks = Clocks {
    sysclk: Hertz(0),
    hclk: Hertz(0),
    pclk1: Hertz(0),
    pclk2: Hertz(0),
    pclk1_tim: Hertz(0),
    pclk2_tim: Hertz(0),
};

thread_local! {
    // The Rust hands out `&'static Clocks`: each thread that asks the Rust has a place that is never given back.
    static CLOCKS: &'static Cell<Clocks> = Box::leak(Box::new(Cell::new(NO_CLOCKS)));
}

pub fn clocks() -> &'static Clocks {
    // Read at once by the callers, before the next `set_clocks`.
    unsafe { &*CLOCKS.with(|clocks| clocks.as_ptr()) }
}

pub fn set_clocks(clocks: Clocks) {
    CLOCKS.with(|place| place.set(clocks));
}

/// Forgets the stored clocks and stores a SYSCLK alone, as the ADC and RNG queries read it.
pub fn set_sysclk(sysclk: u32) {
    set_clocks(Clocks {
        sysclk: Hertz(sysclk),
        ..NO_CLOCKS
    });
}

/// Document 01: PCLK where the APB divisor is 1, else twice PCLK. The callers hand over frequencies and no divisor.
/// A divisor above 1 shows as PCLK below HCLK, except where HCLK is 0; there PCLK is 0 and twice PCLK is 0 too.
pub fn apb_timer_clk(hclk: Hertz, pclk: Hertz, doubled: bool) -> Hertz {
    if doubled && pclk != hclk {
        pclk * 2u32
    } else {
        pclk
    }
}
