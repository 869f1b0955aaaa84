use crate::calls::{wontabeli_read_image, wontabeli_read_profile, wontabeli_write_image, wontabeli_write_profile};
use crate::codes::*;
use crate::numbers::*;
use crate::{lay_hse, result, Refusal};

/// The crystal at HSE, or the clock fed in there.
#[derive(Clone, Copy, Debug, PartialEq, Eq)]
pub struct Hse {
    /// A clock is fed in from outside.
    pub bypass: bool,
    /// Its frequency in Hz.
    pub freq: u32,
}

/// What the ADC's clock comes from; a divisor belongs to the USBHS PLL alone.
#[derive(Clone, Copy, Debug, Default, PartialEq, Eq)]
pub enum AdcClockSource {
    /// HCLK, by APB2's divisor and the ADC's prescaler.
    #[default]
    Hclk,
    /// The USBHS PLL by 1 to 32, before APB2's divisor and the ADC's prescaler.
    UsbHsPll {
        /// 1 to 32; the check refuses others.
        divisor: u8,
    },
}

/// A V4x7 configuration. The default is the profile 00 00 00 00 00 18 00 00 00 34: everything from HSI, undivided.
#[derive(Clone, Copy, Debug, Default, PartialEq, Eq)]
pub struct Config {
    /// The crystal, or the clock fed in, where there is one.
    pub hse: Option<Hse>,
    /// What the system clock is.
    pub sys: Sysclk,
    /// What feeds the main PLL.
    pub pll_src: PllSource,
    /// The main PLL's multiplier, where it is on.
    pub pll: Option<PllMul>,
    /// What feeds SYSPLL; it counts where the system clock is `Pll`.
    pub syspll_src: SysPllSource,
    /// By what SYSPLL divides.
    pub syspll_pre: SysPllPrescaler,
    /// What gives the USBHS PLL its reference, where it is on.
    pub hspll: Option<HsPllSource>,
    /// Whether the ETH PLL is on.
    pub ethpll: bool,
    /// By what the AHB divides SYSCLK.
    pub ahb_pre: AhbPrescaler,
    /// By what the first APB bus divides HCLK.
    pub apb1_pre: ApbPrescaler,
    /// By what the second APB bus divides HCLK.
    pub apb2_pre: ApbPrescaler,
    /// What feeds the random number generator.
    pub rng_src: RngClockSource,
    /// What feeds the ADC.
    pub adc_src: AdcClockSource,
    /// The ADC's prescaler.
    pub adc_pre: AdcPrescaler,
    /// The duty cycle of the ADC's clock.
    pub adc_duty: AdcDutyCycle,
}

// A part that may be absent, and its code.
fn lay_part(fields: &mut [u8], present: usize, at: usize, part: Option<u8>) {
    if let Some(code) = part {
        fields[present] = 1;
        fields[at] = code;
    }
}

fn part(fields: &[u8], present: usize, at: usize) -> Option<u8> {
    if fields[present] == 1 {
        Some(fields[at])
    } else {
        None
    }
}

// A code's value. The reader hands out no code without a name.
fn named<T>(value: Option<T>) -> Result<T, Refusal> {
    value.ok_or(Refusal::ProfileCode)
}

impl Config {
    /// The configuration of a profile.
    pub fn from_profile(profile: &[u8]) -> Result<Config, Refusal> {
        let mut f = [0; PROFILE_FIELDS];
        result(unsafe { wontabeli_read_profile(profile.as_ptr(), profile.len(), f.as_mut_ptr(), f.len()) })?;
        let at = PROFILE_HSE_FREQUENCY;
        let freq = u32::from_be_bytes([f[at], f[at + 1], f[at + 2], f[at + 3]]);
        Ok(Config {
            hse: part(&f, PROFILE_HSE_PRESENT, PROFILE_HSE_BYPASS).map(|bypass| Hse { bypass: bypass == 1, freq }),
            sys: named(Sysclk::from_code(f[PROFILE_SYSTEM_CLOCK]))?,
            pll_src: named(PllSource::from_code(f[PROFILE_PLL_SOURCE]))?,
            pll: part(&f, PROFILE_PLL_PRESENT, PROFILE_MULTIPLIER).map(|code| named(PllMul::from_code(code))).transpose()?,
            syspll_src: named(SysPllSource::from_code(f[PROFILE_SYSPLL_SOURCE]))?,
            syspll_pre: named(SysPllPrescaler::from_code(f[PROFILE_SYSPLL_DIVISOR_LESS_ONE]))?,
            hspll: part(&f, PROFILE_USBHS_PRESENT, PROFILE_USBHS_SOURCE).map(|code| named(HsPllSource::from_code(code))).transpose()?,
            ethpll: f[PROFILE_ETH_PLL] == 1,
            ahb_pre: named(AhbPrescaler::from_code(f[PROFILE_AHB]))?,
            apb1_pre: named(ApbPrescaler::from_code(f[PROFILE_APB1]))?,
            apb2_pre: named(ApbPrescaler::from_code(f[PROFILE_APB2]))?,
            rng_src: named(RngClockSource::from_code(f[PROFILE_RNG]))?,
            adc_src: match part(&f, PROFILE_ADC_FROM_USBHS, PROFILE_ADC_DIVISOR) {
                Some(divisor) => AdcClockSource::UsbHsPll { divisor },
                None => AdcClockSource::Hclk,
            },
            adc_pre: named(AdcPrescaler::from_code(f[PROFILE_ADC_PRESCALER]))?,
            adc_duty: named(AdcDutyCycle::from_code(f[PROFILE_DUTY]))?,
        })
    }

    /// The profile of a configuration.
    pub fn to_profile(&self) -> Result<[u8; PROFILE_SIZE], Refusal> {
        let mut f = [0; PROFILE_FIELDS];
        lay_hse(&mut f, self.hse);
        f[PROFILE_SYSTEM_CLOCK] = self.sys.code();
        f[PROFILE_PLL_SOURCE] = self.pll_src.code();
        lay_part(&mut f, PROFILE_PLL_PRESENT, PROFILE_MULTIPLIER, self.pll.map(PllMul::code));
        f[PROFILE_SYSPLL_SOURCE] = self.syspll_src.code();
        f[PROFILE_SYSPLL_DIVISOR_LESS_ONE] = self.syspll_pre.code();
        lay_part(&mut f, PROFILE_USBHS_PRESENT, PROFILE_USBHS_SOURCE, self.hspll.map(HsPllSource::code));
        f[PROFILE_ETH_PLL] = u8::from(self.ethpll);
        f[PROFILE_AHB] = self.ahb_pre.code();
        f[PROFILE_APB1] = self.apb1_pre.code();
        f[PROFILE_APB2] = self.apb2_pre.code();
        f[PROFILE_RNG] = self.rng_src.code();
        if let AdcClockSource::UsbHsPll { divisor } = self.adc_src {
            lay_part(&mut f, PROFILE_ADC_FROM_USBHS, PROFILE_ADC_DIVISOR, Some(divisor));
        }
        f[PROFILE_ADC_PRESCALER] = self.adc_pre.code();
        f[PROFILE_DUTY] = self.adc_duty.code();
        let mut out = [0; PROFILE_SIZE];
        result(unsafe { wontabeli_write_profile(f.as_ptr(), f.len(), out.as_mut_ptr(), out.len()) })?;
        Ok(out)
    }
}

/// The fields of an image, one a byte, by the places `numbers::IMAGE_..`.
pub fn read_image(image: &[u8]) -> Result<[u8; IMAGE_FIELDS], Refusal> {
    let mut out = [0; IMAGE_FIELDS];
    result(unsafe { wontabeli_read_image(image.as_ptr(), image.len(), out.as_mut_ptr(), out.len()) })?;
    Ok(out)
}

/// The image of fields.
pub fn write_image(fields: &[u8; IMAGE_FIELDS]) -> Result<[u8; IMAGE_SIZE], Refusal> {
    let mut out = [0; IMAGE_SIZE];
    result(unsafe { wontabeli_write_image(fields.as_ptr(), fields.len(), out.as_mut_ptr(), out.len()) })?;
    Ok(out)
}
