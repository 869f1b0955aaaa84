//! A profile read, then checked: the reader is document 01's, the check the Rust's.

use super::codec;
use crate::record::*;
use crate::rust;

/// The bytes of a profile.
pub const PROFILE: usize = 10;

/// What the reader and then the check refuse by; else the six clocks and the ADC, four bytes each.
pub fn clocks(profile: &[u8]) -> Result<[u8; 28], u8> {
    let read = codec::read_profile(&query(READ_PROFILE, &[&[profile.len() as u8], profile]));
    if read[1] != 0 {
        return Err(read[1]);
    }
    let checked = rust::answer(&query(CHECK, &[&read[2..2 + CONFIG]]));
    if checked[1] != 0 {
        return Err(checked[1]);
    }
    let mut clocks = [0; 28];
    clocks.copy_from_slice(&checked[2..30]);
    Ok(clocks)
}
