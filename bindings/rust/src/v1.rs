//! CH32V1 and CH32L1.
use crate::calls::{wontabeli_v1_check, wontabeli_v1_decode, wontabeli_v1_init_fields};
use crate::numbers::*;
use crate::{hertz, lay_hse, result, ApbPrescaler, Clocks, Hse, Refusal, Sysclk};
use core::num::NonZeroU32;

pub use crate::codes::v1::{AhbPrescaler, PllMul};
pub use crate::usb::Checked;

/// Which of the two parts.
#[derive(Clone, Copy, Debug, PartialEq, Eq)]
#[repr(u8)]
pub enum Part {
    /// CH32V1.
    V1 = V1_PART_V1,
    /// CH32L1.
    L1 = V1_PART_L1,
}

/// The PLL.
#[derive(Clone, Copy, Debug, PartialEq, Eq)]
pub struct Pll {
    /// Its input is halved.
    pub halved: bool,
    /// Its multiplier.
    pub mul: PllMul,
}

/// A configuration. The default runs from HSI, undivided.
#[derive(Clone, Copy, Debug, Default, PartialEq, Eq)]
pub struct Config {
    /// The crystal, or the clock fed in, where there is one.
    pub hse: Option<Hse>,
    /// What the system clock is.
    pub sys: Sysclk,
    /// The PLL runs from HSE; else from HSI.
    pub pll_from_hse: bool,
    /// The PLL, where it is on.
    pub pll: Option<Pll>,
    /// By what the AHB divides SYSCLK.
    pub ahb_pre: AhbPrescaler,
    /// By what the first APB bus divides HCLK.
    pub apb1_pre: ApbPrescaler,
    /// By what the second APB bus divides HCLK.
    pub apb2_pre: ApbPrescaler,
}

/// The register fields, one a byte, at the places `numbers::V1_FIELDS_..`.
pub type Fields = [u8; V1_FIELDS_SIZE];

impl Config {
    fn record(&self) -> [u8; V1_CONFIG_SIZE] {
        let mut b = [0; V1_CONFIG_SIZE];
        lay_hse(&mut b, self.hse);
        b[V1_CONFIG_SYSTEM_CLOCK] = self.sys.code();
        b[V1_CONFIG_PLL_FROM_HSE] = u8::from(self.pll_from_hse);
        if let Some(Pll { halved, mul }) = self.pll {
            b[V1_CONFIG_PLL_PRESENT] = 1;
            b[V1_CONFIG_PLL_HALVED] = u8::from(halved);
            b[V1_CONFIG_MULTIPLIER] = mul.code();
        }
        b[V1_CONFIG_AHB] = self.ahb_pre.code();
        b[V1_CONFIG_APB1] = self.apb1_pre.code();
        b[V1_CONFIG_APB2] = self.apb2_pre.code();
        b
    }
}

/// Checks a configuration.
pub fn check(part: Part, config: &Config) -> Result<Checked, Refusal> {
    let (b, mut out) = (config.record(), [0; CHECK_WORDS]);
    result(unsafe { wontabeli_v1_check(part as u8, b.as_ptr(), b.len(), out.as_mut_ptr(), out.len()) })?;
    Ok(Checked::from_words(&out))
}

/// The clocks that the fields say, with HSE's frequency where there is an HSE.
pub fn decode(part: Part, fields: &Fields, hse: Option<NonZeroU32>) -> Result<Clocks, Refusal> {
    let mut out = [0; CLOCKS_WORDS];
    result(unsafe { wontabeli_v1_decode(part as u8, fields.as_ptr(), fields.len(), hertz(hse), out.as_mut_ptr(), out.len()) })?;
    Ok(Clocks::from_words(&out))
}

/// The fields that starting a configuration leaves, over earlier ones: what they are at the end, and not a list of writes (SWS is what it then reads).
pub fn init_fields(part: Part, config: &Config, earlier: &Fields) -> Result<Fields, Refusal> {
    let (b, mut out) = (config.record(), [0; V1_FIELDS_SIZE]);
    let number = unsafe {
        wontabeli_v1_init_fields(part as u8, b.as_ptr(), b.len(), earlier.as_ptr(), earlier.len(), out.as_mut_ptr(), out.len())
    };
    result(number)?;
    Ok(out)
}
