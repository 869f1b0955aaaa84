//! V1, L1 and V30x: configurations, fields and decoders.

use super::random::{Digits, Random};
use crate::record::*;

/// Check, fields and decoder of each family.
const V1S: [[u8; 3]; 2] = [[V1_CHECK, V1_WRITTEN, V1_DECODE], [L1_CHECK, L1_WRITTEN, L1_DECODE]];
const V30X: [u8; 3] = [V30X_CHECK, V30X_WRITTEN, V30X_DECODE];

/// Multipliers by code, doubled (document 01).
const V1_DOUBLED: [u32; 16] = [4, 6, 8, 10, 12, 14, 16, 18, 20, 22, 24, 26, 28, 30, 32, 32];
const V30X_DOUBLED: [u32; 16] = [36, 6, 8, 10, 12, 14, 16, 18, 20, 22, 24, 26, 28, 13, 30, 32];

/// A choice of codes that a configuration and fields both have.
#[derive(Clone, Copy)]
struct Choice {
    hse: Option<u32>,
    sys: u8,
    /// 0 HSI, 1 HSE, 2 PLL2 (V30x).
    source: u8,
    pll: bool,
    /// The divisor of the PLL's input.
    pre: u8,
    mul: u8,
    ahb: u8,
    apb1: u8,
    apb2: u8,
    pllx: bool,
    prediv1src: bool,
    /// USBHS: from HSE, and the prescaler's code.
    usbhs: Option<(bool, u8)>,
}

fn hse_bytes(hse: Option<u32>) -> [u8; 5] {
    let mut bytes = [u8::from(hse.is_some()), 0, 0, 0, 0];
    bytes[1..].copy_from_slice(&hse.unwrap_or(0).to_be_bytes());
    bytes
}

fn v1_config(c: &Choice, bypass: u8) -> Vec<u8> {
    let hse = hse_bytes(c.hse);
    let rest = [
        c.sys,
        c.source & 1,
        u8::from(c.pll),
        c.pre,
        c.mul,
        c.ahb,
        c.apb1,
        c.apb2,
    ];
    [&[hse[0], bypass], &hse[1..], &rest].concat()
}

/// The bits of the source that isn't chosen are random.
fn v1_fields(c: &Choice, other: u8) -> [u8; V1_FIELDS] {
    let halved = u8::from(c.pre == 2);
    let (xtpre, hsipre) = if c.source == 1 {
        (halved, other)
    } else {
        (other, 1 - halved)
    };
    [c.sys, c.source & 1, xtpre, c.mul, c.ahb, c.apb1, c.apb2, hsipre]
}

fn v1_query(kind: u8, c: &Choice, r: &mut Random) -> Query {
    match kind {
        V1_CHECK | L1_CHECK => query(kind, &[&v1_config(c, r.bits(1))]),
        V1_WRITTEN | L1_WRITTEN => {
            let widths = [2, 1, 1, 4, 4, 3, 3, 1];
            let earlier: Vec<u8> = widths.iter().map(|width| r.bits(*width)).collect();
            query(kind, &[&v1_config(c, r.bits(1)), &earlier])
        }
        _ => query(kind, &[&v1_fields(c, r.bits(1)), &hse_bytes(c.hse)]),
    }
}

fn v30x_config(c: &Choice, bypass: u8) -> Vec<u8> {
    let hse = hse_bytes(c.hse);
    let (usbhs_hse, usbhs_pre) = c.usbhs.unwrap_or((false, 0));
    let pll = [c.sys, c.source, u8::from(c.pll), c.pre - 1, c.mul, u8::from(c.pllx)];
    let rest = [
        c.ahb,
        c.apb1,
        c.apb2,
        u8::from(usbhs_hse),
        u8::from(c.usbhs.is_some()),
        usbhs_pre,
    ];
    [&[hse[0], bypass], &hse[1..], &pll, &rest].concat()
}

/// The HSI predivider bit is random where HSI isn't chosen.
fn v30x_fields(c: &Choice, other: u8) -> [u8; V30X_FIELDS] {
    let hsipre = if c.source == 0 { u8::from(c.pre == 1) } else { other };
    let source = c.source.min(1);
    let prediv1src = u8::from(c.prediv1src);
    [
        c.sys,
        source,
        c.pre - 1,
        prediv1src,
        c.mul,
        c.ahb,
        c.apb1,
        c.apb2,
        hsipre,
    ]
}

fn v30x_query(kind: u8, c: &Choice, r: &mut Random) -> Query {
    match kind {
        V30X_CHECK => query(kind, &[&v30x_config(c, r.bits(1))]),
        V30X_WRITTEN => {
            let widths = [2, 1, 4, 1, 4, 4, 3, 3, 1];
            let earlier: Vec<u8> = widths.iter().map(|width| r.bits(*width)).collect();
            query(kind, &[&v30x_config(c, r.bits(1)), &earlier])
        }
        _ => query(kind, &[&v30x_fields(c, r.bits(1)), &hse_bytes(c.hse)]),
    }
}

/// Check, fields or decoder of V1, L1 or V30x.
fn family_query(family: usize, call: usize, c: &Choice, r: &mut Random) -> Query {
    match family {
        2 => v30x_query(V30X[call], c, r),
        _ => v1_query(V1S[family][call], c, r),
    }
}

const PLAIN: Choice = Choice {
    hse: Some(8_000_000),
    sys: 2,
    source: 1,
    pll: true,
    pre: 1,
    mul: 4,
    ahb: 0,
    apb1: 0,
    apb2: 0,
    pllx: false,
    prediv1src: false,
    usbhs: None,
};

/// One query of a kind: accepted; or refused, by 3 where HSE is missing and, in V30x, by 27 before that.
pub fn plain(kind: u8, refused: bool) -> Query {
    let mut c = PLAIN;
    if refused {
        c.hse = None;
        c.pllx = true;
    }
    let mut r = Random(u64::from(kind));
    if V30X.contains(&kind) {
        v30x_query(kind, &c, &mut r)
    } else {
        v1_query(kind, &c, &mut r)
    }
}

/// The Rust's named configurations, `SYSCLK_FREQ_..`: V1's and L1's 48, 72 and 96 MHz, each from HSE and from HSI; V30x's. Codes from document 01's
/// multipliers.
const V1_NAMED: [(u8, u8); 3] = [(4, 0), (7, 4), (10, 4)];
const V30X_NAMED: [(u8, u8, u8); 4] = [(1, 4, 0), (1, 0, 0), (0, 0, 0), (0, 10, 5)];

pub const NAMED: usize = 3 * (2 * 6 + 4);
pub fn named(i: usize) -> Query {
    let mut d = Digits(i);
    let call = d.of(3);
    let at = d.of(2 * 6 + 4);
    let mut r = Random(i as u64);
    if at < 2 * 6 {
        return v1_query(V1S[at / 6][call], &v1_named(at % 6), &mut r);
    }
    v30x_query(V30X[call], &v30x_named(at - 2 * 6), &mut r)
}

fn from(source: u8) -> Choice {
    let hse = if source == 1 { PLAIN.hse } else { None };
    Choice { hse, source, ..PLAIN }
}

fn v1_named(at: usize) -> Choice {
    let (mul, apb) = V1_NAMED[at % 3];
    Choice {
        mul,
        apb1: apb,
        apb2: apb,
        ..from(1 - at as u8 / 3)
    }
}

fn v30x_named(at: usize) -> Choice {
    let (source, mul, apb) = V30X_NAMED[at];
    Choice {
        mul,
        apb1: apb,
        apb2: apb,
        usbhs: Some((source == 1, 1)),
        ..from(source)
    }
}

/// The check of a named configuration, by its place in the Rust's file.
pub fn named_check(kind: u8, at: usize) -> Query {
    let mut r = Random(0);
    if kind == V30X_CHECK {
        v30x_query(kind, &v30x_named(at), &mut r)
    } else {
        v1_query(kind, &v1_named(at), &mut r)
    }
}

/// HSE at which the product with a doubled multiplier passes 32 bits, and those that give the USB's 48 MHz.
fn hse_limits(doubled: u32, pre: u8) -> [Option<u32>; 8] {
    // 6.5 is the one half multiplier: its product by 13 must fit.
    let factor = if doubled % 2 == 0 { doubled / 2 } else { doubled };
    let largest = u32::MAX / factor;
    let pre = u32::from(pre);
    let usb = |output: u32| Some((output * 2 / doubled).saturating_mul(pre));
    [
        None,
        Some(0),
        Some((u64::from(largest + 1) * u64::from(pre) - 1).min(u64::from(u32::MAX)) as u32),
        Some((u64::from(largest + 1) * u64::from(pre)).min(u64::from(u32::MAX)) as u32),
        usb(48_000_000),
        usb(72_000_000),
        usb(96_000_000),
        usb(144_000_000),
    ]
}

/// V1 and L1: every multiplier, predivider and source at boundary HSEs, through each call.
pub const V1_MULTIPLIERS: usize = 2 * 3 * 16 * 2 * 2 * 8;
pub fn v1_multipliers(i: usize) -> Query {
    let mut d = Digits(i);
    let kinds = d.from(&V1S);
    let kind = d.from(&kinds);
    let mut c = PLAIN;
    c.mul = d.byte(16);
    c.pre = 1 + d.byte(2);
    c.source = d.byte(2);
    c.hse = d.from(&hse_limits(V1_DOUBLED[c.mul as usize], c.pre));
    v1_query(kind, &c, &mut Random(i as u64))
}

/// Each family: every multiplier in use from an odd HSE, in check and decoder.
pub const MULTIPLIED: usize = 3 * 2 * 16;
pub fn multiplied(i: usize) -> Query {
    let mut d = Digits(i);
    let family = d.of(3);
    let call = d.from(&[0, 2]);
    let mut c = PLAIN;
    c.hse = Some(5_000_001);
    c.mul = d.byte(16);
    family_query(family, call, &c, &mut Random(i as u64))
}

/// V30x: every multiplier and predivider, by source, at boundary HSEs, through each call.
pub const V30X_MULTIPLIERS: usize = 3 * 16 * 16 * 2 * 8;
pub fn v30x_multipliers(i: usize) -> Query {
    let mut d = Digits(i);
    let kind = d.from(&V30X);
    let mut c = PLAIN;
    c.mul = d.byte(16);
    c.pre = 1 + d.byte(16);
    c.source = d.byte(2);
    c.hse = d.from(&hse_limits(V30X_DOUBLED[c.mul as usize], c.pre));
    v30x_query(kind, &c, &mut Random(i as u64))
}

/// Each family: every AHB, APB1 and APB2 code, in check and decoder, under an HSE that loses bits or all of them.
pub const DIVIDERS: usize = 3 * 2 * 16 * 8 * 8;
pub fn dividers(i: usize) -> Query {
    let mut d = Digits(i);
    let family = d.of(3);
    let call = d.from(&[0, 2]);
    let mut c = PLAIN;
    c.sys = 1;
    c.ahb = d.byte(16);
    c.apb1 = d.byte(8);
    c.apb2 = d.byte(8);
    let mut r = Random(i as u64);
    c.hse = Some(r.pick(&[0xffff_ffff, 25_000_001, 255, 1, 0]));
    family_query(family, call, &c, &mut r)
}

/// Each family: the AHB codes from 11 on, with three pairs of APB codes, at 8 MHz and at an odd HSE, and refused, through each call.
pub const SKIPPED: usize = 3 * 3 * 5 * 3 * 3;
pub fn skipped(i: usize) -> Query {
    let mut d = Digits(i);
    let family = d.of(3);
    let call = d.of(3);
    let mut c = PLAIN;
    c.ahb = 11 + d.byte(5);
    let (apb1, apb2) = d.from(&[(0, 0), (4, 7), (6, 3)]);
    c.apb1 = apb1;
    c.apb2 = apb2;
    c.sys = 1;
    c.hse = d.from(&[Some(8_000_000), Some(25_000_001), None]);
    family_query(family, call, &c, &mut Random(i as u64))
}

/// Each family: every system clock and source, with and without PLL, HSE, PLL2/PLL3, USBHS and PREDIV1SRC.
pub const CHOICES: usize = 3 * 3 * 4 * 3 * 2 * 3 * 2 * 2 * 2 * 2;
pub fn choices(i: usize) -> Query {
    let mut d = Digits(i);
    let family = d.of(3);
    let call = d.of(3);
    let mut c = PLAIN;
    c.sys = d.byte(4);
    c.source = d.byte(3);
    c.pll = d.of(2) == 1;
    c.pre = 1 + d.byte(3);
    c.hse = d.from(&[None, Some(8_000_000)]);
    c.pllx = d.of(2) == 1;
    c.usbhs = d.from(&[None, Some((true, 0))]);
    c.prediv1src = d.of(2) == 1;
    if family < 2 {
        c.pre = c.pre.min(2);
        c.source &= 1;
    }
    family_query(family, call, &c, &mut Random(i as u64))
}

/// V30x USBHS: both sources, every prescaler, HSE at and beside the frequencies that give 3, 4, 5 and 8 MHz.
pub const USBHS: usize = 2 * 8 * 4 * 4 * 2;
pub fn usbhs(i: usize) -> Query {
    let mut d = Digits(i);
    let from_hse = d.of(2) == 1;
    let code = d.byte(8);
    let divisor = u32::from(code) + 1;
    let exact = d.from(&[3_000_000, 4_000_000, 5_000_000, 8_000_000]) * divisor;
    let mut c = PLAIN;
    c.sys = 0;
    c.hse = Some(d.from(&[exact - 1, exact, exact + divisor - 1, exact + divisor]));
    c.usbhs = Some((from_hse, code));
    c.pll = d.of(2) == 1;
    v30x_query(V30X_CHECK, &c, &mut Random(i as u64))
}

fn random_choice(r: &mut Random, doubled: &[u32; 16], pres: u32) -> Choice {
    let mut c = PLAIN;
    c.sys = r.pick(&[0, 1, 2, 2, 2, 3]);
    c.source = r.bits(1);
    c.pll = !r.once_in(6);
    c.pre = 1 + r.below(pres) as u8;
    c.mul = r.bits(4);
    c.ahb = if r.once_in(2) { 0 } else { r.bits(4) };
    c.apb1 = r.bits(3);
    c.apb2 = r.bits(3);
    c.hse = match r.below(8) {
        0 => None,
        1 | 2 => r.pick(&hse_limits(doubled[c.mul as usize], c.pre)),
        3 => Some(r.word()),
        4 => Some(r.below(1024)),
        _ => Some(1_000_000 * (3 + r.below(62))),
    };
    c
}

pub fn random(r: &mut Random) -> Query {
    let family = r.below(4) as usize;
    let call = r.below(3) as usize;
    if family < 2 {
        let c = random_choice(r, &V1_DOUBLED, 2);
        return v1_query(V1S[family][call], &c, r);
    }
    let mut c = random_choice(r, &V30X_DOUBLED, 16);
    if r.once_in(2) {
        c.pre = 1 + r.bits(1);
    }
    if r.once_in(12) {
        c.source = 2;
    }
    c.pllx = r.once_in(16);
    c.prediv1src = r.once_in(6);
    if r.once_in(3) {
        c.usbhs = Some((r.once_in(2), r.bits(3)));
    }
    v30x_query(V30X[call], &c, r)
}
