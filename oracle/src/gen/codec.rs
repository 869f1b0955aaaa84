//! Profiles and images: good ones, damaged ones, every length, every lent length.

use super::good::GOOD;
use super::random::{Digits, Random};
use super::{config, fields, wide};
use crate::paper::layout::{image_of, profile_of};
use crate::record::*;

fn read(kind: u8, length: usize, bytes: &[u8]) -> Query {
    let mut held = [0; LENT];
    let kept = length.min(bytes.len());
    held[..kept].copy_from_slice(&bytes[..kept]);
    query(kind, &[&[length as u8], &held])
}

/// Each good profile with each of its 80 bits turned over.
pub const DAMAGED: usize = GOOD.len() * 80;
pub fn damaged(i: usize) -> Query {
    turned_over(Digits(i), &GOOD)
}

fn turned_over(mut d: Digits, configs: &[[u8; CONFIG]]) -> Query {
    let mut profile = profile_of(&d.from(configs));
    let bit = d.of(80);
    profile[bit / 8] ^= 0x80 >> (bit % 8);
    read(READ_PROFILE, 10, &profile)
}

/// The same of the good profile without any part, and of one with every part.
pub const TURNED: usize = 2 * 80;
pub fn turned(i: usize) -> Query {
    turned_over(Digits(i), &[GOOD[0], GOOD[10]])
}

/// Readers and writers at every length.
pub const LENGTHS: usize = 4 * (LENT + 1);
pub fn lengths(i: usize) -> Query {
    let mut d = Digits(i);
    let mut r = Random(i as u64);
    let kind = d.from(&[READ_PROFILE, WRITE_PROFILE, READ_IMAGE, WRITE_IMAGE]);
    let length = d.of(LENT + 1);
    let profile = profile_of(&r.pick(&GOOD));
    let image = image_of(&fields::any(&mut r));
    let lent = [length as u8, r.byte()];
    match kind {
        READ_PROFILE => read(kind, length, &profile),
        READ_IMAGE => read(kind, length, &image),
        WRITE_PROFILE => query(kind, &[&r.pick(&GOOD), &lent]),
        _ => query(kind, &[&fields::any(&mut r), &lent]),
    }
}

/// Every single bit of an image, alone and as the only one missing.
pub const BITS: usize = 64 * 2;
pub fn bits(i: usize) -> Query {
    let mut d = Digits(i);
    let whole = 1u64 << d.of(64);
    let whole = if d.of(2) == 0 { whole } else { !whole & !31 };
    read(READ_IMAGE, 8, &whole.to_be_bytes())
}

pub fn random(r: &mut Random) -> Query {
    let lent = [
        if r.once_in(4) {
            r.below(LENT as u32 + 1) as u8
        } else {
            8 + r.bits(2)
        },
        r.byte(),
    ];
    match r.below(6) {
        0 => query(WRITE_PROFILE, &[&config::any(r), &lent]),
        1 => wide::write_profile(r, &lent),
        2 => query(WRITE_IMAGE, &[&fields::any(r), &lent]),
        3 => wide::write_image(r, &lent),
        4 => random_image(r),
        _ => random_profile(r),
    }
}

fn random_image(r: &mut Random) -> Query {
    let mut image = image_of(&fields::any(r));
    if r.once_in(3) {
        image[7] |= r.bits(5);
    }
    let length = if r.once_in(6) {
        r.below(LENT as u32 + 1) as usize
    } else {
        8
    };
    read(READ_IMAGE, length, &image)
}

/// A configuration's profile; some with one to three bits turned over, some rubbish.
pub fn damaged_profile(r: &mut Random, config: &[u8; CONFIG]) -> [u8; 10] {
    let mut profile = profile_of(config);
    match r.below(6) {
        0 | 1 => {
            for _ in 0..1 + r.below(3) {
                let at = r.below(10) as usize;
                profile[at] ^= 1 << r.below(8);
            }
        }
        2 => profile.iter_mut().for_each(|byte| *byte = r.byte()),
        _ => {}
    }
    profile
}

fn random_profile(r: &mut Random) -> Query {
    let config = config::any(r);
    let profile = damaged_profile(r, &config);
    let length = if r.once_in(8) {
        r.below(LENT as u32 + 1) as usize
    } else {
        10
    };
    read(READ_PROFILE, length, &profile)
}
