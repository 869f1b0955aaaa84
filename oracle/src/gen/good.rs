//! Accepted V4x7 configurations: each way to have HSE, ETH, USBHS and main PLL that there is.

use crate::record::CONFIG;

/// present, bypass, frequency; sys; pll_src, present, mul; syspll_src, pre; hspll present, source; eth; ahb, apb1, apb2;
/// rng; adc from USBHS, divisor, prescaler, duty.
macro_rules! config {
    ($hse:literal $byp:literal $freq:literal, $sys:literal, $src:literal $pll:literal $mul:literal, $ss:literal $sd:literal,
     $us:literal $from:literal, $eth:literal, $ahb:literal $a1:literal $a2:literal, $rng:literal,
     $au:literal $ad:literal $ap:literal $duty:literal) => {
        [
            $hse,
            $byp,
            ($freq as u32 >> 24) as u8,
            ($freq as u32 >> 16) as u8,
            ($freq as u32 >> 8) as u8,
            $freq as u32 as u8,
            $sys,
            $src,
            $pll,
            $mul,
            $ss,
            $sd,
            $us,
            $from,
            $eth,
            $ahb,
            $a1,
            $a2,
            $rng,
            $au,
            $ad,
            $ap,
            $duty,
        ]
    };
}

pub const GOOD: [[u8; CONFIG]; 16] = [
    config!(0 0 0, 0, 0 0 0, 6 0, 0 0, 0, 0 0 0, 0, 0 0 3 1),
    config!(1 0 8_000_001, 1, 0 0 0, 6 0, 0 0, 0, 8 4 5, 0, 0 0 1 0),
    config!(1 1 5_000_000, 1, 1 0 0, 3 7, 0 0, 0, 15 7 7, 0, 0 0 3 2),
    config!(0 0 0, 2, 0 1 20, 6 1, 0 0, 0, 0 4 4, 0, 0 0 3 1),
    config!(1 0 8_000_001, 2, 1 1 5, 6 0, 0 0, 0, 0 0 0, 0, 0 0 3 1),
    config!(0 0 0, 2, 0 0 0, 0 2, 1 1, 0, 0 5 6, 1, 1 2 3 0),
    config!(1 0 24_000_000, 2, 0 0 0, 2 1, 1 0, 0, 0 4 4, 1, 1 32 0 2),
    config!(1 1 25_000_000, 2, 0 0 0, 3 1, 0 0, 1, 0 6 4, 2, 0 0 2 1),
    config!(1 0 25_000_000, 2, 1 0 0, 1 2, 1 2, 1, 0 0 4, 1, 1 4 1 1),
    config!(1 0 25_000_000, 0, 1 1 12, 1 4, 0 0, 1, 12 0 0, 2, 0 0 0 1),
    config!(1 0 25_000_000, 2, 1 1 8, 6 3, 1 2, 1, 0 4 0, 2, 1 2 3 1),
    config!(1 1 32_000_000, 2, 1 1 4, 6 1, 1 0, 0, 0 5 4, 0, 1 16 0 0),
    config!(0 0 0, 2, 0 1 0, 6 7, 1 1, 0, 9 7 0, 1, 1 31 3 2),
    config!(1 0 20_000_000, 1, 1 1 20, 0 0, 1 0, 0, 11 0 7, 0, 0 0 3 1),
    // HCLK 100,000,000 and 100,000,001: the flash mode changes between them.
    config!(0 0 0, 2, 0 1 2, 6 1, 0 0, 0, 0 4 4, 0, 0 0 3 1),
    config!(1 0 11_764_706, 2, 1 1 14, 6 1, 0 0, 0, 0 4 4, 0, 0 0 3 1),
];
