//! CH32V1 and CH32L1: the same Rust, compiled twice.

macro_rules! family {
    ($family:ident $hal:ident $check:ident $written:ident $decode:ident) => {
        pub mod $family {
            use crate::panics::caught;
            use crate::record::*;
            use crate::rust::refusal;
            use $hal::{pac, Setup, SOURCE};

            fn setup(c: &[u8]) -> Setup {
                Setup {
                    hse: hse(&[&c[..1], &c[2..6]].concat()).map(|freq| $hal::rcc::Hse::new(freq, c[1] != 0)),
                    sys: c[6],
                    pll_hse: c[7] != 0,
                    pll: if c[8] != 0 { Some((c[9] == 2, c[10])) } else { None },
                    ahb: c[11],
                    apb1: c[12],
                    apb2: c[13],
                }
            }

            fn fields(bytes: &[u8]) -> [u8; V1_FIELDS] {
                let mut fields = [0; V1_FIELDS];
                fields.copy_from_slice(&bytes[..V1_FIELDS]);
                fields
            }

            /// The check and the fields: both are what `init` leaves. The check starts from fields that are all zero.
            pub fn start(q: &Query) -> Answer {
                pac::put(fields(&q[1 + V1_CONFIG..]));
                let setup = setup(&q[1..]);
                match caught(SOURCE, || $hal::start(&setup)) {
                    Ok((clocks, usb)) if q[0] == $check => accepted($check, &[&clock_bytes(clocks), &[usb]]),
                    Ok(_) => accepted($written, &[&pac::take()]),
                    Err(thrown) => refusal(q[0], thrown),
                }
            }

            pub fn decode(q: &Query) -> Answer {
                pac::put(fields(&q[1..]));
                match caught(SOURCE, || $hal::decode(hse(&q[1 + V1_FIELDS..]))) {
                    Ok(clocks) => accepted($decode, &[&clock_bytes(clocks)]),
                    Err(thrown) => refusal($decode, thrown),
                }
            }
        }
    };
}

family!(v1 hal_v1 V1_CHECK V1_WRITTEN V1_DECODE);
family!(l1 hal_l1 L1_CHECK L1_WRITTEN L1_DECODE);
