use crate::calls::{wontabeli_adc, wontabeli_check, wontabeli_decode, wontabeli_rng};
use crate::numbers::{CHECK_WORDS, CLOCKS_WORDS, MORE, PAIR_WORDS};
use crate::{hertz, result, Clocks, Refusal};
use core::num::NonZeroU32;

/// What a checked profile promises: the clocks, and the ADC's frequency.
#[derive(Clone, Copy, Debug, PartialEq, Eq)]
pub struct Checked {
    /// The six clocks.
    pub clocks: Clocks,
    /// The ADC's frequency in Hz, rounded down.
    pub adc: u32,
}

/// Checks a profile of ten bytes.
pub fn check(profile: &[u8]) -> Result<Checked, Refusal> {
    let mut out = [0; CHECK_WORDS];
    result(unsafe { wontabeli_check(profile.as_ptr(), profile.len(), out.as_mut_ptr(), out.len()) })?;
    Ok(Checked { clocks: Clocks::from_words(&out), adc: out[MORE] })
}

/// The clocks that an image of the registers says, eight bytes, with HSE's frequency where there is an HSE.
pub fn decode(image: &[u8], hse: Option<NonZeroU32>) -> Result<Clocks, Refusal> {
    let mut out = [0; CLOCKS_WORDS];
    result(unsafe { wontabeli_decode(image.as_ptr(), image.len(), hertz(hse), out.as_mut_ptr(), out.len()) })?;
    Ok(Clocks::from_words(&out))
}

fn ready(out: [u32; PAIR_WORDS]) -> Option<u32> {
    if out[0] == 1 {
        Some(out[1])
    } else {
        None
    }
}

/// The ADC's frequency by an image; `None` where the PLL that it runs from is not ready.
pub fn adc_frequency(image: &[u8], sysclk: u32) -> Result<Option<u32>, Refusal> {
    let mut out = [0; PAIR_WORDS];
    result(unsafe { wontabeli_adc(image.as_ptr(), image.len(), sysclk, out.as_mut_ptr(), out.len()) })?;
    Ok(ready(out))
}

/// The RNG source's frequency by an image; `None` where the PLL that it runs from is not ready.
pub fn rng_source_frequency(image: &[u8], sysclk: u32) -> Result<Option<u32>, Refusal> {
    let mut out = [0; PAIR_WORDS];
    result(unsafe { wontabeli_rng(image.as_ptr(), image.len(), sysclk, out.as_mut_ptr(), out.len()) })?;
    Ok(ready(out))
}
