//! Stands in for ch32-hal's rcc/mod.rs: what v4x7.rs takes from `super`. The clocks are kept in a static, as ch32-hal keeps them.

use crate::time::Hertz;
use std::cell::UnsafeCell;

#[path = "../../target/bench/hal/src/rcc/v4x7.rs"]
pub mod v4x7;

#[derive(Clone, Copy, Debug, Eq, PartialEq)]
pub enum HseMode {
    Oscillator,
    Bypass,
}

#[derive(Clone, Copy, Debug, Eq, PartialEq)]
pub struct Hse {
    pub freq: Hertz,
    pub mode: HseMode,
}

#[derive(Clone, Copy, Debug, Eq, PartialEq)]
pub struct Clocks {
    pub sysclk: Hertz,
    pub hclk: Hertz,
    pub pclk1: Hertz,
    pub pclk2: Hertz,
    pub pclk1_tim: Hertz,
    pub pclk2_tim: Hertz,
}

impl Clocks {
    /// The six frequencies in document 01's order.
    pub fn numbers(&self) -> [u32; 6] {
        let k = self;
        [k.sysclk.0, k.hclk.0, k.pclk1.0, k.pclk2.0, k.pclk1_tim.0, k.pclk2_tim.0]
    }
}

struct Kept(UnsafeCell<Clocks>);

// The bench has one thread.
unsafe impl Sync for Kept {}

static CLOCKS: Kept = Kept(UnsafeCell::new(Clocks {
    sysclk: Hertz(0),
    hclk: Hertz(0),
    pclk1: Hertz(0),
    pclk2: Hertz(0),
    pclk1_tim: Hertz(0),
    pclk2_tim: Hertz(0),
}));

#[inline]
pub fn clocks() -> &'static Clocks {
    unsafe { &*CLOCKS.0.get() }
}

#[inline]
pub fn set_clocks(clocks: Clocks) {
    unsafe { *CLOCKS.0.get() = clocks }
}

/// As oracle/hal/rcc.rs: PCLK where the APB divisor is 1, else twice PCLK.
#[inline]
pub fn apb_timer_clk(hclk: Hertz, pclk: Hertz, doubled: bool) -> Hertz {
    if doubled && pclk != hclk {
        pclk * 2u32
    } else {
        pclk
    }
}
