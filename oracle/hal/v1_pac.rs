//! Stands in for ch32_metapac as v1.rs uses it. Ready bits follow the enables, and SWS follows SW.

use crate::reg::Reg;
use std::cell::Cell;

pub mod rcc {
    pub mod vals {
        use crate::codes;

        codes!(Hpre: DIV1 C1 C2 C3 C4 C5 C6 C7 C8 C9 C10 C11 C12 C13 C14 C15);
        codes!(Ppre: DIV1 C1 C2 C3 DIV2 DIV4 DIV8 DIV16);
        codes!(Sw: HSI HSE PLL C3);
        codes!(Pllsrc: HSI HSE);
        // Document 01: 2..16 for codes 0..14; 15 gives 16 (V1) or 18 (L1).
        #[cfg(ch32v1)]
        codes!(PllMul: MUL2 MUL3 MUL4 MUL5 MUL6 MUL7 MUL8 MUL9 MUL10 MUL11 MUL12 MUL13 MUL14 MUL15 MUL16 MUL16_ALT);
        #[cfg(ch32l1)]
        codes!(PllMul: MUL2 MUL3 MUL4 MUL5 MUL6 MUL7 MUL8 MUL9 MUL10 MUL11 MUL12 MUL13 MUL14 MUL15 MUL16 MUL18);
        // By meaning: USBPRE's own codes are not compared.
        codes!(Usbpre: DIV1 DIV1_5 DIV2);
    }

    pub mod regs {
        use super::vals::{Hpre, PllMul, Pllsrc, Ppre, Sw, Usbpre};

        #[derive(Clone, Copy)]
        pub struct Ctlr {
            pub hseon: bool,
            pub pllon: bool,
        }

        impl Ctlr {
            pub fn hsirdy(&self) -> bool {
                true
            }
            pub fn hserdy(&self) -> bool {
                self.hseon
            }
            pub fn pllrdy(&self) -> bool {
                self.pllon
            }
            pub fn set_hsebyp(&mut self, _on: bool) {}
            pub fn set_hseon(&mut self, on: bool) {
                self.hseon = on
            }
            pub fn set_pllon(&mut self, on: bool) {
                self.pllon = on
            }
        }

        #[derive(Clone, Copy)]
        pub struct Cfgr0 {
            pub sws: Sw,
            pub pllsrc: Pllsrc,
            pub pllxtpre: bool,
            pub pllmul: PllMul,
            pub hpre: Hpre,
            pub ppre1: Ppre,
            pub ppre2: Ppre,
            /// None until `init` writes it.
            pub usbpre: Option<Usbpre>,
        }

        impl Cfgr0 {
            pub fn sws(&self) -> Sw {
                self.sws
            }
            pub fn pllsrc(&self) -> Pllsrc {
                self.pllsrc
            }
            pub fn pllxtpre(&self) -> bool {
                self.pllxtpre
            }
            pub fn pllmul(&self) -> PllMul {
                self.pllmul
            }
            pub fn hpre(&self) -> Hpre {
                self.hpre
            }
            pub fn ppre1(&self) -> Ppre {
                self.ppre1
            }
            pub fn ppre2(&self) -> Ppre {
                self.ppre2
            }
            pub fn set_sw(&mut self, sw: Sw) {
                self.sws = sw
            }
            pub fn set_pllsrc(&mut self, source: Pllsrc) {
                self.pllsrc = source
            }
            pub fn set_pllxtpre(&mut self, halved: bool) {
                self.pllxtpre = halved
            }
            pub fn set_pllmul(&mut self, mul: PllMul) {
                self.pllmul = mul
            }
            pub fn set_hpre(&mut self, code: Hpre) {
                self.hpre = code
            }
            pub fn set_ppre1(&mut self, code: Ppre) {
                self.ppre1 = code
            }
            pub fn set_ppre2(&mut self, code: Ppre) {
                self.ppre2 = code
            }
            pub fn set_usbpre(&mut self, divisor: Usbpre) {
                self.usbpre = Some(divisor)
            }
        }

        #[derive(Clone, Copy)]
        pub struct Ctr {
            pub hsipre: bool,
        }

        impl Ctr {
            pub fn hsipre(&self) -> bool {
                self.hsipre
            }
            pub fn set_hsipre(&mut self, undivided: bool) {
                self.hsipre = undivided
            }
        }

        #[derive(Clone, Copy)]
        pub struct Actlr;

        impl Actlr {
            pub fn set_latency(&mut self, _latency: u8) {}
        }
    }
}

use rcc::regs::{Actlr, Cfgr0, Ctlr, Ctr};
use rcc::vals::{Hpre, PllMul, Pllsrc, Ppre, Sw, Usbpre};

thread_local! {
    static CTLR: Cell<Ctlr> = Cell::new(Ctlr { hseon: false, pllon: false });
    static CFGR0: Cell<Cfgr0> = Cell::new(cfgr0([0; 8]));
    static CTR: Cell<Ctr> = Cell::new(Ctr { hsipre: false });
    static ACTLR: Cell<Actlr> = Cell::new(Actlr);
}

pub struct Rcc;
pub struct Extend;
pub struct Flash;
pub const RCC: Rcc = Rcc;
pub const EXTEND: Extend = Extend;
pub const FLASH: Flash = Flash;

impl Rcc {
    pub fn ctlr(&self) -> Reg<Ctlr> {
        Reg(&CTLR)
    }
    pub fn cfgr0(&self) -> Reg<Cfgr0> {
        Reg(&CFGR0)
    }
}

impl Extend {
    pub fn ctr(&self) -> Reg<Ctr> {
        Reg(&CTR)
    }
}

impl Flash {
    pub fn actlr(&self) -> Reg<Actlr> {
        Reg(&ACTLR)
    }
}

fn cfgr0(f: [u8; 8]) -> Cfgr0 {
    Cfgr0 {
        sws: Sw::from_bits(f[0]),
        pllsrc: Pllsrc::from_bits(f[1]),
        pllxtpre: f[2] != 0,
        pllmul: PllMul::from_bits(f[3]),
        hpre: Hpre::from_bits(f[4]),
        ppre1: Ppre::from_bits(f[5]),
        ppre2: Ppre::from_bits(f[6]),
        usbpre: None,
    }
}

/// Fills the record: SWS, PLLSRC, PLLXTPRE, PLLMUL, HPRE, PPRE1, PPRE2, the HSI predivider bit.
pub fn put(fields: [u8; 8]) {
    RCC.ctlr().modify(|w| {
        *w = Ctlr {
            hseon: false,
            pllon: false,
        }
    });
    RCC.cfgr0().modify(|w| *w = cfgr0(fields));
    EXTEND.ctr().modify(|w| w.hsipre = fields[7] != 0);
}

/// The record's fields, in the order of `put`.
pub fn take() -> [u8; 8] {
    let c = RCC.cfgr0().read();
    [
        c.sws.to_bits(),
        c.pllsrc.to_bits(),
        c.pllxtpre as u8,
        c.pllmul.to_bits(),
        c.hpre.to_bits(),
        c.ppre1.to_bits(),
        c.ppre2.to_bits(),
        EXTEND.ctr().read().hsipre as u8,
    ]
}

/// Twice the USB divisor that `init` wrote; 0 where it wrote none.
pub fn usb_doubled() -> u8 {
    match RCC.cfgr0().read().usbpre {
        None => 0,
        Some(Usbpre::DIV1) => 2,
        Some(Usbpre::DIV1_5) => 3,
        Some(Usbpre::DIV2) => 4,
    }
}
