//! Safe types over the proved clock library for CH32 chips. Each call gives what include/wontabeli.h says of it, or a refusal: the first in the order of
//! docs/REFUSALS.md. Nothing here decides anything: records are laid out and taken apart, and handed on. V4x7 is at the root, the other families in
//! modules; `serial` is for the clocks of any. The archive that is linked is for x86-64 hosts.
#![no_std]
#![warn(missing_docs)]

#[cfg(feature = "std")]
extern crate std;

pub mod h4;
#[allow(missing_docs)] // a place is told by its name
pub mod numbers;
pub mod v1;
pub mod v30x;

mod calls;
#[allow(missing_docs)] // a value is told by its name
mod codes;
mod profile;
mod refusal;
mod serial;
mod startup;
mod tray;
mod usb;
mod v4x7;

pub use codes::{
    AdcDutyCycle, AdcPrescaler, AhbPrescaler, ApbPrescaler, HsPllSource, PllMul, PllSource, RngClockSource, SysPllPrescaler, SysPllSource, Sysclk,
};
pub use profile::{read_image, write_image, AdcClockSource, Config, Hse};
pub use refusal::Refusal;
pub use serial::{serial_divisor, SerialDivisor};
pub use startup::{call_bound, waits_owed, Chip, FlashKey, KeyRegister, Reading, Report, Startup, WAITS};
pub use tray::{boards, tray};
pub use v4x7::{adc_frequency, check, decode, rng_source_frequency, Checked};

use core::num::NonZeroU32;

/// The six clocks, in Hz.
#[derive(Clone, Copy, Debug, PartialEq, Eq)]
pub struct Clocks {
    /// The system clock.
    pub sysclk: u32,
    /// The AHB's clock: SYSCLK by the AHB's divisor.
    pub hclk: u32,
    /// The first APB bus's clock: HCLK by its divisor.
    pub pclk1: u32,
    /// The second APB bus's clock.
    pub pclk2: u32,
    /// The clock of the first bus's timers: PCLK1 where its divisor is 1, else twice PCLK1 (H4: PCLK1).
    pub pclk1_tim: u32,
    /// The clock of the second bus's timers.
    pub pclk2_tim: u32,
}

impl Clocks {
    fn from_words(words: &[u32]) -> Clocks {
        Clocks {
            sysclk: words[numbers::SYSCLK],
            hclk: words[numbers::HCLK],
            pclk1: words[numbers::PCLK1],
            pclk2: words[numbers::PCLK2],
            pclk1_tim: words[numbers::PCLK1_TIM],
            pclk2_tim: words[numbers::PCLK2_TIM],
        }
    }
}

// A returned number as a result. The library returns no number that is not a refusal's; such a one would be a code that is not allowed.
fn result(number: u8) -> Result<(), Refusal> {
    match number {
        0 => Ok(()),
        n => Err(Refusal::from_number(n).unwrap_or(Refusal::CodeNotAllowed)),
    }
}

// HSE's frequency as a decoder takes it: 0 for none. So an HSE of 0 Hz can't be handed over.
fn hertz(hse: Option<NonZeroU32>) -> u32 {
    hse.map_or(0, NonZeroU32::get)
}

// Lays HSE's fields at the head of a record: present, bypass, and the four bytes of its frequency.
fn lay_hse(record: &mut [u8], hse: Option<Hse>) {
    if let Some(Hse { bypass, freq }) = hse {
        record[0] = 1;
        record[1] = u8::from(bypass);
        record[2..6].copy_from_slice(&freq.to_be_bytes());
    }
}
