use crate::calls::wontabeli_serial_divisor;
use crate::{result, Refusal};

/// What a serial port is set to for a wanted rate.
#[derive(Clone, Copy, Debug, PartialEq, Eq)]
pub struct SerialDivisor {
    /// The nearest whole number to PCLK / rate, halves up: 16 to 65,535.
    pub brr: u16,
    /// PCLK - rate x BRR: 0 exactly if the rate divides PCLK, below 0 where BRR is rounded up.
    pub error: i32,
}

/// The divisor of a serial port for a wanted rate in baud, by its bus's clock in Hz, `pclk1` or `pclk2` of `Clocks`. Refused by `RateZero`, then by
/// `BrrOutOfRange`.
///
/// ```
/// let set = wontabeli::serial_divisor(20_000_000, 115_200)?;
/// assert_eq!((set.brr, set.error), (174, -44_800));
/// # Ok::<(), wontabeli::Refusal>(())
/// ```
pub fn serial_divisor(pclk: u32, rate: u32) -> Result<SerialDivisor, Refusal> {
    let (mut brr, mut error) = (0, 0);
    result(unsafe { wontabeli_serial_divisor(pclk, rate, &mut brr, &mut error) })?;
    Ok(SerialDivisor { brr, error })
}
