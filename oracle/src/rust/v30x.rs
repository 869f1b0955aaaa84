//! CH32V30x.

use super::refusal;
use crate::panics::caught;
use crate::record::*;
use hal_v30x::{pac, Setup, SOURCE};

fn setup(c: &[u8]) -> Setup {
    Setup {
        hse: hse(&[&c[..1], &c[2..6]].concat()).map(|freq| hal_v30x::rcc::Hse::new(freq, c[1] != 0)),
        sys: c[6],
        pll_src: c[7],
        pll: if c[8] != 0 { Some((c[9], c[10])) } else { None },
        pllx: c[11] != 0,
        ahb: c[12],
        apb1: c[13],
        apb2: c[14],
        hspll_hse: c[15] != 0,
        hspll: if c[16] != 0 { Some(c[17]) } else { None },
    }
}

fn fields(bytes: &[u8]) -> [u8; V30X_FIELDS] {
    let mut fields = [0; V30X_FIELDS];
    fields.copy_from_slice(&bytes[..V30X_FIELDS]);
    fields
}

/// The check and the fields: both are what `init` leaves. The check starts from fields that are all zero.
pub fn start(q: &Query) -> Answer {
    pac::put(fields(&q[1 + V30X_CONFIG..]));
    let setup = setup(&q[1..]);
    match caught(SOURCE, || hal_v30x::start(&setup)) {
        Ok((clocks, usb)) if q[0] == V30X_CHECK => accepted(V30X_CHECK, &[&clock_bytes(clocks), &[usb]]),
        Ok(_) => accepted(V30X_WRITTEN, &[&pac::take()]),
        Err(thrown) => refusal(q[0], thrown),
    }
}

pub fn decode(q: &Query) -> Answer {
    pac::put(fields(&q[1..]));
    match caught(SOURCE, || hal_v30x::decode(hse(&q[1 + V30X_FIELDS..]))) {
        Ok(clocks) => accepted(V30X_DECODE, &[&clock_bytes(clocks)]),
        Err(thrown) => refusal(V30X_DECODE, thrown),
    }
}
