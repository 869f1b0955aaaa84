// Made by include/numbers; change what it reads and run it again.
use core::fmt;

/// Why a call is refused. It shows as its text. With the feature `std` it is an `Error`.
#[derive(Clone, Copy, Debug, PartialEq, Eq)]
#[repr(u8)]
pub enum Refusal {
    /// RNG from USBHS PLL, and that PLL not configured.
    RngWithoutUsbhs = 1,
    /// RNG from ETH PLL, and that PLL not configured.
    RngWithoutEth = 2,
    /// HSE needed, no frequency.
    HseMissing = 3,
    /// HSE outside 5,000,000..32,000,000.
    HseOutOfRange = 4,
    /// Main PLL output outside 100..400 MHz.
    PllOutOfRange = 5,
    /// ETH PLL needed, HSE not 25 MHz.
    EthNeeds25Mhz = 6,
    /// USBHS reference from ETH, no ETH PLL.
    UsbhsWithoutEth = 7,
    /// USBHS reference not an allowed frequency.
    UsbhsReference = 8,
    /// SYSPLL from main PLL, not configured.
    SyspllWithoutPll = 9,
    /// SYSPLL from USBHS PLL, not configured.
    SyspllWithoutUsbhs = 10,
    /// SYSPLL from ETH PLL, not configured.
    SyspllWithoutEth = 11,
    /// HCLK above 200 MHz.
    HclkTooFast = 12,
    /// ADC from USBHS PLL, not configured.
    AdcWithoutUsbhs = 13,
    /// ADC divisor outside 1..32.
    AdcDivisor = 14,
    /// ADC source > 30,000,000 x total divisor.
    AdcTooFast = 15,
    /// ADC below 1 Hz.
    AdcTooSlow = 16,
    /// Decoder: USBHS source 3.
    UsbhsSourceReserved = 17,
    /// Decoder: reference code not that of the reference.
    UsbhsCodeDiffers = 18,
    /// SYSPLL source 4, 5 or 7.
    SyspllSourceReserved = 19,
    /// System clock code 3.
    SysclkReserved = 20,
    /// Startup: a wait failed.
    WaitFailed = 21,
    /// Startup: flash mode read back differs.
    FlashModeDiffers = 22,
    /// Startup: clocks differ after the switch.
    ClocksDiffer = 23,
    /// V1, V30x: PLL product over 32 bits.
    PllOver32Bits = 24,
    /// V30x: HSI predivider not 1 or 2.
    HsiPredivider = 25,
    /// V1, V30x: system clock PLL, none configured.
    SysclkWithoutPll = 26,
    /// V30x: PLL2 or PLL3 asked for, or PREDIV1SRC set.
    Pll2OrPll3 = 27,
    /// Code too wide or unnamed; a startup no starting gives.
    CodeNotAllowed = 28,
    /// Profile not 10 bytes.
    ProfileLength = 29,
    /// Profile code or filling not allowed.
    ProfileCode = 30,
    /// Image not 8 bytes, or filling not zero.
    ImageLengthOrFilling = 31,
    /// Lent output shorter than the record.
    OutputTooShort = 32,
    /// Serial rate 0.
    RateZero = 33,
    /// Serial divisor BRR outside 16..65,535.
    BrrOutOfRange = 34,
}

impl Refusal {
    /// The refusal of a number; none of 0 and of a number above 34.
    pub fn from_number(number: u8) -> Option<Refusal> {
        Some(match number {
            1 => Refusal::RngWithoutUsbhs,
            2 => Refusal::RngWithoutEth,
            3 => Refusal::HseMissing,
            4 => Refusal::HseOutOfRange,
            5 => Refusal::PllOutOfRange,
            6 => Refusal::EthNeeds25Mhz,
            7 => Refusal::UsbhsWithoutEth,
            8 => Refusal::UsbhsReference,
            9 => Refusal::SyspllWithoutPll,
            10 => Refusal::SyspllWithoutUsbhs,
            11 => Refusal::SyspllWithoutEth,
            12 => Refusal::HclkTooFast,
            13 => Refusal::AdcWithoutUsbhs,
            14 => Refusal::AdcDivisor,
            15 => Refusal::AdcTooFast,
            16 => Refusal::AdcTooSlow,
            17 => Refusal::UsbhsSourceReserved,
            18 => Refusal::UsbhsCodeDiffers,
            19 => Refusal::SyspllSourceReserved,
            20 => Refusal::SysclkReserved,
            21 => Refusal::WaitFailed,
            22 => Refusal::FlashModeDiffers,
            23 => Refusal::ClocksDiffer,
            24 => Refusal::PllOver32Bits,
            25 => Refusal::HsiPredivider,
            26 => Refusal::SysclkWithoutPll,
            27 => Refusal::Pll2OrPll3,
            28 => Refusal::CodeNotAllowed,
            29 => Refusal::ProfileLength,
            30 => Refusal::ProfileCode,
            31 => Refusal::ImageLengthOrFilling,
            32 => Refusal::OutputTooShort,
            33 => Refusal::RateZero,
            34 => Refusal::BrrOutOfRange,
            _ => return None,
        })
    }

    /// Its number.
    pub fn number(self) -> u8 {
        self as u8
    }

    /// Its sentence, as docs/REFUSALS.md has it.
    pub fn text(self) -> &'static str {
        match self {
            Refusal::RngWithoutUsbhs => "RNG from USBHS PLL, and that PLL not configured.",
            Refusal::RngWithoutEth => "RNG from ETH PLL, and that PLL not configured.",
            Refusal::HseMissing => "HSE needed, no frequency.",
            Refusal::HseOutOfRange => "HSE outside 5,000,000..32,000,000.",
            Refusal::PllOutOfRange => "Main PLL output outside 100..400 MHz.",
            Refusal::EthNeeds25Mhz => "ETH PLL needed, HSE not 25 MHz.",
            Refusal::UsbhsWithoutEth => "USBHS reference from ETH, no ETH PLL.",
            Refusal::UsbhsReference => "USBHS reference not an allowed frequency.",
            Refusal::SyspllWithoutPll => "SYSPLL from main PLL, not configured.",
            Refusal::SyspllWithoutUsbhs => "SYSPLL from USBHS PLL, not configured.",
            Refusal::SyspllWithoutEth => "SYSPLL from ETH PLL, not configured.",
            Refusal::HclkTooFast => "HCLK above 200 MHz.",
            Refusal::AdcWithoutUsbhs => "ADC from USBHS PLL, not configured.",
            Refusal::AdcDivisor => "ADC divisor outside 1..32.",
            Refusal::AdcTooFast => "ADC source > 30,000,000 x total divisor.",
            Refusal::AdcTooSlow => "ADC below 1 Hz.",
            Refusal::UsbhsSourceReserved => "Decoder: USBHS source 3.",
            Refusal::UsbhsCodeDiffers => "Decoder: reference code not that of the reference.",
            Refusal::SyspllSourceReserved => "SYSPLL source 4, 5 or 7.",
            Refusal::SysclkReserved => "System clock code 3.",
            Refusal::WaitFailed => "Startup: a wait failed.",
            Refusal::FlashModeDiffers => "Startup: flash mode read back differs.",
            Refusal::ClocksDiffer => "Startup: clocks differ after the switch.",
            Refusal::PllOver32Bits => "V1, V30x: PLL product over 32 bits.",
            Refusal::HsiPredivider => "V30x: HSI predivider not 1 or 2.",
            Refusal::SysclkWithoutPll => "V1, V30x: system clock PLL, none configured.",
            Refusal::Pll2OrPll3 => "V30x: PLL2 or PLL3 asked for, or PREDIV1SRC set.",
            Refusal::CodeNotAllowed => "Code too wide or unnamed; a startup no starting gives.",
            Refusal::ProfileLength => "Profile not 10 bytes.",
            Refusal::ProfileCode => "Profile code or filling not allowed.",
            Refusal::ImageLengthOrFilling => "Image not 8 bytes, or filling not zero.",
            Refusal::OutputTooShort => "Lent output shorter than the record.",
            Refusal::RateZero => "Serial rate 0.",
            Refusal::BrrOutOfRange => "Serial divisor BRR outside 16..65,535.",
        }
    }
}

impl fmt::Display for Refusal {
    fn fmt(&self, f: &mut fmt::Formatter<'_>) -> fmt::Result {
        f.pad(self.text())
    }
}

#[cfg(feature = "std")]
impl std::error::Error for Refusal {}
