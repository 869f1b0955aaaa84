// Made by include/numbers; change what it reads and run it again.

// The value of a code, and the code of a value.
macro_rules! by_code {
    ($kind:ident: $($name:ident)*) => {
        impl $kind {
            /// The value that has this code; none where no value has it.
            pub fn from_code(code: u8) -> Option<$kind> {
                [$($kind::$name),*].into_iter().find(|value| value.code() == code)
            }

            /// Its code.
            pub fn code(self) -> u8 {
                self as u8
            }
        }
    };
}

/// What the system clock is.
#[derive(Clone, Copy, Debug, Default, PartialEq, Eq)]
#[repr(u8)]
pub enum Sysclk {
    #[default]
    Hsi = 0,
    Hse = 1,
    Pll = 2,
}

by_code!(Sysclk: Hsi Hse Pll);

/// By what an APB bus divides.
#[derive(Clone, Copy, Debug, Default, PartialEq, Eq)]
#[repr(u8)]
pub enum ApbPrescaler {
    #[default]
    Div1 = 0,
    Div2 = 4,
    Div4 = 5,
    Div8 = 6,
    Div16 = 7,
}

by_code!(ApbPrescaler: Div1 Div2 Div4 Div8 Div16);

/// What feeds the main PLL.
#[derive(Clone, Copy, Debug, Default, PartialEq, Eq)]
#[repr(u8)]
pub enum PllSource {
    #[default]
    Hsi = 0,
    Hse = 1,
}

by_code!(PllSource: Hsi Hse);

/// The main PLL's multiplier.
#[derive(Clone, Copy, Debug, PartialEq, Eq)]
#[repr(u8)]
pub enum PllMul {
    Mul8 = 0,
    Mul9 = 1,
    Mul10 = 2,
    Mul11 = 3,
    Mul12 = 4,
    Mul12_5 = 5,
    Mul13 = 6,
    Mul13_5 = 7,
    Mul14 = 8,
    Mul14_5 = 9,
    Mul15 = 10,
    Mul15_5 = 11,
    Mul16 = 12,
    Mul16_5 = 13,
    Mul17 = 14,
    Mul17_5 = 15,
    Mul18 = 16,
    Mul18_5 = 17,
    Mul19 = 18,
    Mul19_5 = 19,
    Mul20 = 20,
    Mul21 = 21,
    Mul22 = 22,
    Mul24 = 23,
    Mul26 = 24,
    Mul28 = 25,
    Mul30 = 26,
    Mul32 = 27,
    Mul34 = 28,
    Mul36 = 29,
    Mul38 = 30,
    Mul40 = 31,
}

by_code!(PllMul: Mul8 Mul9 Mul10 Mul11 Mul12 Mul12_5 Mul13 Mul13_5 Mul14 Mul14_5 Mul15 Mul15_5 Mul16 Mul16_5 Mul17 Mul17_5 Mul18 Mul18_5 Mul19 Mul19_5 Mul20 Mul21 Mul22 Mul24 Mul26 Mul28 Mul30 Mul32 Mul34 Mul36 Mul38 Mul40);

/// What feeds SYSPLL; Mul2Div3 is two thirds of it.
#[derive(Clone, Copy, Debug, Default, PartialEq, Eq)]
#[repr(u8)]
pub enum SysPllSource {
    UsbHs = 0,
    Eth = 1,
    UsbHsMul2Div3 = 2,
    EthMul2Div3 = 3,
    #[default]
    Pll = 6,
}

by_code!(SysPllSource: UsbHs Eth UsbHsMul2Div3 EthMul2Div3 Pll);

/// By what SYSPLL divides.
#[derive(Clone, Copy, Debug, Default, PartialEq, Eq)]
#[repr(u8)]
pub enum SysPllPrescaler {
    #[default]
    Div1 = 0,
    Div2 = 1,
    Div3 = 2,
    Div4 = 3,
    Div5 = 4,
    Div6 = 5,
    Div7 = 6,
    Div8 = 7,
}

by_code!(SysPllPrescaler: Div1 Div2 Div3 Div4 Div5 Div6 Div7 Div8);

/// What gives the USBHS PLL its reference.
#[derive(Clone, Copy, Debug, PartialEq, Eq)]
#[repr(u8)]
pub enum HsPllSource {
    Hse = 0,
    Hsi = 1,
    Eth = 2,
}

by_code!(HsPllSource: Hse Hsi Eth);

/// By what the AHB divides, on V4x7 and H4.
#[derive(Clone, Copy, Debug, Default, PartialEq, Eq)]
#[repr(u8)]
pub enum AhbPrescaler {
    #[default]
    Div1 = 0,
    Div2 = 8,
    Div4 = 9,
    Div8 = 10,
    Div16 = 11,
    Div64 = 12,
    Div128 = 13,
    Div256 = 14,
    Div512 = 15,
}

by_code!(AhbPrescaler: Div1 Div2 Div4 Div8 Div16 Div64 Div128 Div256 Div512);

/// What feeds the random number generator.
#[derive(Clone, Copy, Debug, Default, PartialEq, Eq)]
#[repr(u8)]
pub enum RngClockSource {
    #[default]
    Sysclk = 0,
    UsbHsPll = 1,
    EthPll = 2,
}

by_code!(RngClockSource: Sysclk UsbHsPll EthPll);

/// The ADC's prescaler.
#[derive(Clone, Copy, Debug, Default, PartialEq, Eq)]
#[repr(u8)]
pub enum AdcPrescaler {
    Div2 = 0,
    Div4 = 1,
    Div6 = 2,
    #[default]
    Div8 = 3,
}

by_code!(AdcPrescaler: Div2 Div4 Div6 Div8);

/// The duty cycle of the ADC's clock.
#[derive(Clone, Copy, Debug, Default, PartialEq, Eq)]
#[repr(u8)]
pub enum AdcDutyCycle {
    Percent50 = 0,
    #[default]
    Percent62_5 = 1,
    Percent75 = 2,
}

by_code!(AdcDutyCycle: Percent50 Percent62_5 Percent75);

pub mod v1 {
    /// The PLL's multiplier on V1 and L1; the last is 16 on V1 and 18 on L1.
    #[derive(Clone, Copy, Debug, PartialEq, Eq)]
    #[repr(u8)]
    pub enum PllMul {
        Mul2 = 0,
        Mul3 = 1,
        Mul4 = 2,
        Mul5 = 3,
        Mul6 = 4,
        Mul7 = 5,
        Mul8 = 6,
        Mul9 = 7,
        Mul10 = 8,
        Mul11 = 9,
        Mul12 = 10,
        Mul13 = 11,
        Mul14 = 12,
        Mul15 = 13,
        Mul16 = 14,
        Mul16Or18 = 15,
    }

    by_code!(PllMul: Mul2 Mul3 Mul4 Mul5 Mul6 Mul7 Mul8 Mul9 Mul10 Mul11 Mul12 Mul13 Mul14 Mul15 Mul16 Mul16Or18);

    /// By what the AHB divides, on V1 and L1.
    #[derive(Clone, Copy, Debug, Default, PartialEq, Eq)]
    #[repr(u8)]
    pub enum AhbPrescaler {
        #[default]
        Div1 = 0,
        Div2 = 8,
        Div4 = 9,
        Div8 = 10,
        Div16 = 11,
        Div64 = 12,
        Div128 = 13,
        Div256 = 14,
        Div512 = 15,
    }

    by_code!(AhbPrescaler: Div1 Div2 Div4 Div8 Div16 Div64 Div128 Div256 Div512);
}

pub mod v30x {
    /// What feeds the PLL. Pll2 is refused.
    #[derive(Clone, Copy, Debug, Default, PartialEq, Eq)]
    #[repr(u8)]
    pub enum PllSource {
        #[default]
        Hsi = 0,
        Hse = 1,
        Pll2 = 2,
    }

    by_code!(PllSource: Hsi Hse Pll2);

    /// By what the PLL's input is divided.
    #[derive(Clone, Copy, Debug, Default, PartialEq, Eq)]
    #[repr(u8)]
    pub enum PllPreDiv {
        #[default]
        Div1 = 0,
        Div2 = 1,
        Div3 = 2,
        Div4 = 3,
        Div5 = 4,
        Div6 = 5,
        Div7 = 6,
        Div8 = 7,
        Div9 = 8,
        Div10 = 9,
        Div11 = 10,
        Div12 = 11,
        Div13 = 12,
        Div14 = 13,
        Div15 = 14,
        Div16 = 15,
    }

    by_code!(PllPreDiv: Div1 Div2 Div3 Div4 Div5 Div6 Div7 Div8 Div9 Div10 Div11 Div12 Div13 Div14 Div15 Div16);

    /// The PLL's multiplier.
    #[derive(Clone, Copy, Debug, PartialEq, Eq)]
    #[repr(u8)]
    pub enum PllMul {
        Mul18 = 0,
        Mul3 = 1,
        Mul4 = 2,
        Mul5 = 3,
        Mul6 = 4,
        Mul7 = 5,
        Mul8 = 6,
        Mul9 = 7,
        Mul10 = 8,
        Mul11 = 9,
        Mul12 = 10,
        Mul13 = 11,
        Mul14 = 12,
        Mul6_5 = 13,
        Mul15 = 14,
        Mul16 = 15,
    }

    by_code!(PllMul: Mul18 Mul3 Mul4 Mul5 Mul6 Mul7 Mul8 Mul9 Mul10 Mul11 Mul12 Mul13 Mul14 Mul6_5 Mul15 Mul16);

    /// By what the AHB divides.
    #[derive(Clone, Copy, Debug, Default, PartialEq, Eq)]
    #[repr(u8)]
    pub enum AhbPrescaler {
        #[default]
        Div1 = 0,
        Div2 = 8,
        Div4 = 9,
        Div8 = 10,
        Div16 = 11,
        Div64 = 12,
        Div128 = 13,
        Div256 = 14,
        Div512 = 15,
    }

    by_code!(AhbPrescaler: Div1 Div2 Div4 Div8 Div16 Div64 Div128 Div256 Div512);

    /// By what the USBHS PLL's input is divided.
    #[derive(Clone, Copy, Debug, Default, PartialEq, Eq)]
    #[repr(u8)]
    pub enum HsPllPrescaler {
        #[default]
        Div1 = 0,
        Div2 = 1,
        Div3 = 2,
        Div4 = 3,
        Div5 = 4,
        Div6 = 5,
        Div7 = 6,
        Div8 = 7,
    }

    by_code!(HsPllPrescaler: Div1 Div2 Div3 Div4 Div5 Div6 Div7 Div8);
}
