//! Stands in for ch32_metapac as v3.rs (d8c) uses it. Ready bits follow the enables, and SWS follows SW.

use crate::reg::Reg;
use std::cell::Cell;

pub mod rcc {
    pub mod vals {
        use crate::codes;

        codes!(Hpre: DIV1 C1 C2 C3 C4 C5 C6 C7 C8 C9 C10 C11 C12 C13 C14 C15);
        codes!(Ppre: DIV1 C1 C2 C3 DIV2 DIV4 DIV8 DIV16);
        codes!(Sw: HSI HSE PLL C3);
        codes!(Prediv: DIV1 DIV2 DIV3 DIV4 DIV5 DIV6 DIV7 DIV8 DIV9 DIV10 DIV11 DIV12 DIV13 DIV14 DIV15 DIV16);
        // Document 01: 0 gives 18, 1..12 give 3..14, 13 gives 6.5, 14 gives 15, 15 gives 16.
        #[cfg(not(wrong_entry))]
        codes!(PllMul: MUL18 MUL3 MUL4 MUL5 MUL6 MUL7 MUL8 MUL9 MUL10 MUL11 MUL12 MUL13 MUL14 MUL6_5 MUL15 MUL16);
        // Two entries swapped on purpose: `oracle/test` shows that the comparison sees it.
        #[cfg(wrong_entry)]
        codes!(PllMul: MUL18 MUL3 MUL4 MUL5 MUL6 MUL7 MUL8 MUL9 MUL10 MUL11 MUL12 MUL13 MUL14 MUL15 MUL6_5 MUL16);
        // PLL2 and PLL3 are not taken.
        codes!(PllxMul: C0);
        // By meaning: USBPRE's own codes are not compared.
        codes!(Usbpre: DIV1 DIV2 DIV3);
    }

    pub mod regs {
        use super::vals::{Hpre, PllMul, Ppre, Prediv, Sw, Usbpre};

        #[derive(Clone, Copy)]
        pub struct Ctlr {
            pub hseon: bool,
            pub pllon: bool,
        }

        impl Ctlr {
            pub fn hsirdy(&self) -> bool {
                true
            }
            pub fn hserdy(&self) -> bool {
                self.hseon
            }
            pub fn pllrdy(&self) -> bool {
                self.pllon
            }
            pub fn set_hsebyp(&mut self, _on: bool) {}
            pub fn set_hseon(&mut self, on: bool) {
                self.hseon = on
            }
            pub fn set_pllon(&mut self, on: bool) {
                self.pllon = on
            }
        }

        #[derive(Clone, Copy)]
        pub struct Cfgr0 {
            pub sws: Sw,
            pub pllsrc: bool,
            pub pllmul: PllMul,
            pub hpre: Hpre,
            pub ppre1: Ppre,
            pub ppre2: Ppre,
            /// None until `init` writes it.
            pub usbpre: Option<Usbpre>,
        }

        impl Cfgr0 {
            pub fn sws(&self) -> Sw {
                self.sws
            }
            pub fn pllsrc(&self) -> bool {
                self.pllsrc
            }
            pub fn pllmul(&self) -> PllMul {
                self.pllmul
            }
            pub fn hpre(&self) -> Hpre {
                self.hpre
            }
            pub fn ppre1(&self) -> Ppre {
                self.ppre1
            }
            pub fn ppre2(&self) -> Ppre {
                self.ppre2
            }
            pub fn set_sw(&mut self, sw: Sw) {
                self.sws = sw
            }
            pub fn set_pllsrc(&mut self, hse: bool) {
                self.pllsrc = hse
            }
            pub fn set_pllmul(&mut self, mul: PllMul) {
                self.pllmul = mul
            }
            pub fn set_hpre(&mut self, code: Hpre) {
                self.hpre = code
            }
            pub fn set_ppre1(&mut self, code: Ppre) {
                self.ppre1 = code
            }
            pub fn set_ppre2(&mut self, code: Ppre) {
                self.ppre2 = code
            }
            pub fn set_usbpre(&mut self, divisor: Usbpre) {
                self.usbpre = Some(divisor)
            }
        }

        #[derive(Clone, Copy)]
        pub struct Cfgr2 {
            pub prediv1: Prediv,
            pub prediv1src: bool,
        }

        impl Cfgr2 {
            pub fn prediv1(&self) -> Prediv {
                self.prediv1
            }
            pub fn set_prediv1(&mut self, code: Prediv) {
                self.prediv1 = code
            }
            pub fn set_prediv1src(&mut self, pll2: bool) {
                self.prediv1src = pll2
            }
            // The USBHS fields are no part of document 01's record.
            pub fn set_usbhs_pllalive(&mut self, _on: bool) {}
            pub fn set_usbhs_prediy(&mut self, _code: u8) {}
            pub fn set_usbhs_ckpef_sel(&mut self, _code: u8) {}
            pub fn set_usbhs_pll_src(&mut self, _hsi: bool) {}
            pub fn set_usbhs_clk_src(&mut self, _pll: bool) {}
        }

        #[derive(Clone, Copy)]
        pub struct Ctr {
            pub pll_hsi_pre: bool,
        }

        impl Ctr {
            pub fn pll_hsi_pre(&self) -> bool {
                self.pll_hsi_pre
            }
            pub fn set_pll_hsi_pre(&mut self, undivided: bool) {
                self.pll_hsi_pre = undivided
            }
        }

        #[derive(Clone, Copy)]
        pub struct FlashCtlr;

        impl FlashCtlr {
            pub fn set_sckmode(&mut self, _halved: bool) {}
            pub fn set_enhancemode(&mut self, _on: bool) {}
        }
    }
}

use rcc::regs::{Cfgr0, Cfgr2, Ctlr, Ctr, FlashCtlr};
use rcc::vals::{Hpre, PllMul, Ppre, Prediv, Sw, Usbpre};

thread_local! {
    static CTLR: Cell<Ctlr> = Cell::new(Ctlr { hseon: false, pllon: false });
    static CFGR0: Cell<Cfgr0> = Cell::new(cfgr0([0; 9]));
    static CFGR2: Cell<Cfgr2> = Cell::new(cfgr2([0; 9]));
    static CTR: Cell<Ctr> = Cell::new(Ctr { pll_hsi_pre: false });
    static FLASH_CTLR: Cell<FlashCtlr> = Cell::new(FlashCtlr);
}

pub struct Rcc;
pub struct Extend;
pub struct Flash;
pub const RCC: Rcc = Rcc;
pub const EXTEND: Extend = Extend;
pub const FLASH: Flash = Flash;

impl Rcc {
    pub fn ctlr(&self) -> Reg<Ctlr> {
        Reg(&CTLR)
    }
    pub fn cfgr0(&self) -> Reg<Cfgr0> {
        Reg(&CFGR0)
    }
    pub fn cfgr2(&self) -> Reg<Cfgr2> {
        Reg(&CFGR2)
    }
}

impl Extend {
    pub fn ctr(&self) -> Reg<Ctr> {
        Reg(&CTR)
    }
}

impl Flash {
    pub fn ctlr(&self) -> Reg<FlashCtlr> {
        Reg(&FLASH_CTLR)
    }
}

fn cfgr0(f: [u8; 9]) -> Cfgr0 {
    Cfgr0 {
        sws: Sw::from_bits(f[0]),
        pllsrc: f[1] != 0,
        pllmul: PllMul::from_bits(f[4]),
        hpre: Hpre::from_bits(f[5]),
        ppre1: Ppre::from_bits(f[6]),
        ppre2: Ppre::from_bits(f[7]),
        usbpre: None,
    }
}

fn cfgr2(f: [u8; 9]) -> Cfgr2 {
    Cfgr2 {
        prediv1: Prediv::from_bits(f[2]),
        prediv1src: f[3] != 0,
    }
}

/// Fills the record: SWS, PLLSRC, PREDIV1, PREDIV1SRC, PLLMUL, HPRE, PPRE1, PPRE2, the HSI predivider bit.
pub fn put(fields: [u8; 9]) {
    RCC.ctlr().modify(|w| {
        *w = Ctlr {
            hseon: false,
            pllon: false,
        }
    });
    RCC.cfgr0().modify(|w| *w = cfgr0(fields));
    RCC.cfgr2().modify(|w| *w = cfgr2(fields));
    EXTEND.ctr().modify(|w| w.pll_hsi_pre = fields[8] != 0);
}

/// The record's fields, in the order of `put`.
pub fn take() -> [u8; 9] {
    let c = RCC.cfgr0().read();
    let c2 = RCC.cfgr2().read();
    [
        c.sws.to_bits(),
        c.pllsrc as u8,
        c2.prediv1.to_bits(),
        c2.prediv1src as u8,
        c.pllmul.to_bits(),
        c.hpre.to_bits(),
        c.ppre1.to_bits(),
        c.ppre2.to_bits(),
        EXTEND.ctr().read().pll_hsi_pre as u8,
    ]
}

/// Twice the USB divisor that `init` wrote; 0 where it wrote none.
pub fn usb_doubled() -> u8 {
    match RCC.cfgr0().read().usbpre {
        None => 0,
        Some(Usbpre::DIV1) => 2,
        Some(Usbpre::DIV2) => 4,
        Some(Usbpre::DIV3) => 6,
    }
}
