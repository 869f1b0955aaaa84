//! CH32H4: arithmetic.
use crate::calls::{wontabeli_h4_ahb, wontabeli_h4_clocks, wontabeli_h4_hclk, wontabeli_h4_multiplier, wontabeli_h4_pclk};
use crate::numbers::{CHECK_WORDS, MORE, PAIR_WORDS};
use crate::{result, Clocks, Refusal};

/// The four prescalers, as the registers hold them.
#[derive(Clone, Copy, Debug, Default, PartialEq, Eq)]
pub struct Prescale {
    /// The AHB's code, as `AhbPrescaler` has it; 1 to 7 divide by 1 too.
    pub hpre: u8,
    /// Of FPRE two bits count: 0 by 1, 1 by 2, 2 and 3 by 4.
    pub fpre: u8,
    /// The first APB bus's code, as `ApbPrescaler` has it; 1 to 3 divide by 1 too.
    pub ppre1: u8,
    /// The second APB bus's code.
    pub ppre2: u8,
}

/// The clocks of a SYSCLK, and the AHB clock.
pub fn clocks_from_sysclk(sysclk: u32, p: Prescale) -> Result<(Clocks, u32), Refusal> {
    let mut out = [0; CHECK_WORDS];
    result(unsafe { wontabeli_h4_clocks(sysclk, p.hpre, p.fpre, p.ppre1, p.ppre2, out.as_mut_ptr(), out.len()) })?;
    Ok((Clocks::from_words(&out), out[MORE]))
}

/// The AHB clock, after HPRE.
pub fn ahb_from_sysclk(sysclk: u32, hpre: u8) -> Result<u32, Refusal> {
    let mut out = 0;
    result(unsafe { wontabeli_h4_ahb(sysclk, hpre, &mut out) })?;
    Ok(out)
}

/// HCLK, after FPRE.
pub fn hclk_from_ahb(ahb: u32, fpre: u8) -> Result<u32, Refusal> {
    let mut out = 0;
    result(unsafe { wontabeli_h4_hclk(ahb, fpre, &mut out) })?;
    Ok(out)
}

/// PCLK after PPRE, and its timers' clock.
pub fn pclk_from_hclk(hclk: u32, ppre: u8) -> Result<(u32, u32), Refusal> {
    let mut out = [0; PAIR_WORDS];
    result(unsafe { wontabeli_h4_pclk(hclk, ppre, out.as_mut_ptr(), out.len()) })?;
    Ok((out[0], out[1]))
}

/// The PLL's multiplier at a position of the list, doubled.
pub fn pll_mul_x2(position: u8) -> Result<u32, Refusal> {
    let mut out = 0;
    result(unsafe { wontabeli_h4_multiplier(position, &mut out) })?;
    Ok(out)
}
