//! Profile and image, readers and writers: the Rust has none.

use super::codes::{in_width, named};
use super::layout::{config_of, fields_of, image_of, profile_of};
use crate::record::*;

/// A configuration without the bytes of its absent parts, which a configuration can't hold.
pub fn plain(c: &[u8]) -> [u8; CONFIG] {
    let mut config = [0; CONFIG];
    config.copy_from_slice(&c[..CONFIG]);
    // The byte that says whether the part is there, and the bytes of the part.
    for (present, part) in [(0, 1..6), (8, 9..10), (12, 13..14), (19, 20..21)] {
        if config[present] == 0 {
            config[part].fill(0);
        }
    }
    config
}

pub fn read_profile(q: &Query) -> Answer {
    if q[1] != 10 {
        return refused(READ_PROFILE, 29);
    }
    let (config, filling) = config_of(&q[2..12]);
    let absent_parts_zero = plain(&config) == config;
    if filling != 0 || !absent_parts_zero || !named(&config) {
        return refused(READ_PROFILE, 30);
    }
    accepted(READ_PROFILE, &[&config])
}

pub fn write_profile(q: &Query) -> Answer {
    let config = plain(&q[1..]);
    let lent = &q[1 + CONFIG..];
    let number = if lent[0] < 10 {
        32
    } else if !named(&config) {
        30
    } else {
        0
    };
    let bytes = if number == 0 { profile_of(&config) } else { [0; 10] };
    written(WRITE_PROFILE, number, lent, &bytes)
}

pub fn read_image(q: &Query) -> Answer {
    if q[1] != 8 {
        return refused(READ_IMAGE, 31);
    }
    let (fields, filling) = fields_of(&q[2..10]);
    if filling != 0 {
        return refused(READ_IMAGE, 31);
    }
    accepted(READ_IMAGE, &[&fields])
}

pub fn write_image(q: &Query) -> Answer {
    let mut fields = [0; FIELDS];
    fields.copy_from_slice(&q[1..1 + FIELDS]);
    let lent = &q[1 + FIELDS..];
    let number = if lent[0] < 8 {
        32
    } else if !in_width(&fields) {
        28
    } else {
        0
    };
    let bytes = if number == 0 { image_of(&fields) } else { [0; 8] };
    written(WRITE_IMAGE, number, lent, &bytes)
}

/// The lent output afterwards: `capi_give` is its length and what each of its bytes held before.
fn written(kind: u8, number: u8, lent: &[u8], bytes: &[u8]) -> Answer {
    let mut output = vec![lent[1]; lent[0] as usize];
    if number == 0 {
        output[..bytes.len()].copy_from_slice(bytes);
    }
    let mut a = accepted(kind, &[&output]);
    a[1] = number;
    a
}
