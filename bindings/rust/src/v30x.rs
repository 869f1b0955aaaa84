//! CH32V30x.
use crate::calls::{wontabeli_v30x_check, wontabeli_v30x_decode, wontabeli_v30x_init_fields};
use crate::numbers::*;
use crate::{hertz, lay_hse, result, ApbPrescaler, Clocks, Hse, Refusal, Sysclk};
use core::num::NonZeroU32;

pub use crate::codes::v30x::{AhbPrescaler, HsPllPrescaler, PllMul, PllPreDiv, PllSource};
pub use crate::usb::Checked;

/// The PLL.
#[derive(Clone, Copy, Debug, PartialEq, Eq)]
pub struct Pll {
    /// By what its input is divided; HSI by 1 or 2 alone.
    pub prediv: PllPreDiv,
    /// Its multiplier.
    pub mul: PllMul,
}

/// A configuration. The default runs from HSI, undivided.
#[derive(Clone, Copy, Debug, Default, PartialEq, Eq)]
pub struct Config {
    /// The crystal, or the clock fed in, where there is one.
    pub hse: Option<Hse>,
    /// What the system clock is.
    pub sys: Sysclk,
    /// What feeds the PLL.
    pub pll_src: PllSource,
    /// The PLL, where it is on.
    pub pll: Option<Pll>,
    /// PLL2 or PLL3 is asked for, which is refused.
    pub pllx: bool,
    /// By what the AHB divides SYSCLK.
    pub ahb_pre: AhbPrescaler,
    /// By what the first APB bus divides HCLK.
    pub apb1_pre: ApbPrescaler,
    /// By what the second APB bus divides HCLK.
    pub apb2_pre: ApbPrescaler,
    /// The USBHS PLL runs from HSE; else from HSI.
    pub hspll_from_hse: bool,
    /// By what the USBHS PLL's input is divided, where it is on.
    pub hspll: Option<HsPllPrescaler>,
}

/// The register fields, one a byte, at the places `numbers::V30X_FIELDS_..`.
pub type Fields = [u8; V30X_FIELDS_SIZE];

impl Config {
    fn record(&self) -> [u8; V30X_CONFIG_SIZE] {
        let mut b = [0; V30X_CONFIG_SIZE];
        lay_hse(&mut b, self.hse);
        b[V30X_CONFIG_SYSTEM_CLOCK] = self.sys.code();
        b[V30X_CONFIG_PLL_SOURCE] = self.pll_src.code();
        if let Some(Pll { prediv, mul }) = self.pll {
            b[V30X_CONFIG_PLL_PRESENT] = 1;
            b[V30X_CONFIG_PREDIVIDER] = prediv.code();
            b[V30X_CONFIG_MULTIPLIER] = mul.code();
        }
        b[V30X_CONFIG_PLLX] = u8::from(self.pllx);
        b[V30X_CONFIG_AHB] = self.ahb_pre.code();
        b[V30X_CONFIG_APB1] = self.apb1_pre.code();
        b[V30X_CONFIG_APB2] = self.apb2_pre.code();
        b[V30X_CONFIG_USBHS_FROM_HSE] = u8::from(self.hspll_from_hse);
        if let Some(prescaler) = self.hspll {
            b[V30X_CONFIG_USBHS_PRESENT] = 1;
            b[V30X_CONFIG_USBHS_PRESCALER] = prescaler.code();
        }
        b
    }
}

/// Checks a configuration.
pub fn check(config: &Config) -> Result<Checked, Refusal> {
    let (b, mut out) = (config.record(), [0; CHECK_WORDS]);
    result(unsafe { wontabeli_v30x_check(b.as_ptr(), b.len(), out.as_mut_ptr(), out.len()) })?;
    Ok(Checked::from_words(&out))
}

/// The clocks that the fields say, with HSE's frequency where there is an HSE.
pub fn decode(fields: &Fields, hse: Option<NonZeroU32>) -> Result<Clocks, Refusal> {
    let mut out = [0; CLOCKS_WORDS];
    result(unsafe { wontabeli_v30x_decode(fields.as_ptr(), fields.len(), hertz(hse), out.as_mut_ptr(), out.len()) })?;
    Ok(Clocks::from_words(&out))
}

/// The fields that starting a configuration leaves, over earlier ones: what they are at the end, and not a list of writes (SWS is what it then reads).
pub fn init_fields(config: &Config, earlier: &Fields) -> Result<Fields, Refusal> {
    let (b, mut out) = (config.record(), [0; V30X_FIELDS_SIZE]);
    let number = unsafe {
        wontabeli_v30x_init_fields(b.as_ptr(), b.len(), earlier.as_ptr(), earlier.len(), out.as_mut_ptr(), out.len())
    };
    result(number)?;
    Ok(out)
}
