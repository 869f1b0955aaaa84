//! H4: every code.

use super::random::{Digits, Random};
use crate::record::*;

const FREQUENCIES: [u32; 8] = [0, 1, 3, 511, 20_000_000, 399_999_999, 0x8000_0000, 0xffff_ffff];

pub const AHBS: usize = 16 * 8;
pub fn ahbs(i: usize) -> Query {
    let mut d = Digits(i);
    let code = d.byte(16);
    query(H4_AHB, &[&d.from(&FREQUENCIES).to_be_bytes(), &[code]])
}

pub const HCLKS: usize = 256 * 2;
pub fn hclks(i: usize) -> Query {
    let mut d = Digits(i);
    let code = d.byte(256);
    query(H4_HCLK, &[&d.from(&[3u32, 0xffff_ffff]).to_be_bytes(), &[code]])
}

pub const PCLKS: usize = 8 * 8;
pub fn pclks(i: usize) -> Query {
    let mut d = Digits(i);
    let code = d.byte(8);
    query(H4_PCLK, &[&d.from(&FREQUENCIES).to_be_bytes(), &[code]])
}

pub const MULTIPLIERS: usize = 32;
pub fn multipliers(i: usize) -> Query {
    query(H4_MUL, &[&[i as u8]])
}

pub fn random(r: &mut Random) -> Query {
    let frequency = r.word().to_be_bytes();
    match r.below(3) {
        0 => query(H4_AHB, &[&frequency, &[r.bits(4)]]),
        1 => query(H4_HCLK, &[&frequency, &[r.byte()]]),
        _ => query(H4_PCLK, &[&frequency, &[r.bits(3)]]),
    }
}
