//! The Rust's answers.

mod h4;
pub mod startup;
mod v1;
mod v30x;
mod v4x7;

use crate::record::*;

/// What the Rust answers. The query holds only what the Rust's types hold, and there is Rust for its kind.
pub fn answer(q: &Query) -> Answer {
    match q[0] {
        CHECK => v4x7::check(q),
        DECODE => v4x7::decode(q),
        ADC | RNG => v4x7::ask(q),
        STARTUP => startup::run(q, false),
        V1_CHECK | V1_WRITTEN => v1::v1::start(q),
        V1_DECODE => v1::v1::decode(q),
        L1_CHECK | L1_WRITTEN => v1::l1::start(q),
        L1_DECODE => v1::l1::decode(q),
        V30X_CHECK | V30X_WRITTEN => v30x::start(q),
        V30X_DECODE => v30x::decode(q),
        H4_AHB | H4_HCLK | H4_PCLK | H4_MUL => h4::answer(q),
        kind => panic!("there is no Rust for kind {}", kind),
    }
}

/// A refusal's number, where only a number can come.
fn refusal(kind: u8, thrown: Option<u8>) -> Answer {
    refused(kind, thrown.expect("stopped without a script"))
}

/// The check of a V4x7 configuration: its six clocks, or the refusal.
pub fn checked(config: &[u8; CONFIG]) -> Result<[u32; 6], u8> {
    let a = v4x7::check(&query(CHECK, &[config]));
    clocks_of(&a)
}

/// V4x7 fields decoded.
pub fn decoded(fields: &[u8; FIELDS], hse: Option<u32>) -> Result<[u32; 6], u8> {
    let present = [u8::from(hse.is_some())];
    let a = v4x7::decode(&query(DECODE, &[fields, &present, &hse.unwrap_or(0).to_be_bytes()]));
    clocks_of(&a)
}

fn clocks_of(a: &Answer) -> Result<[u32; 6], u8> {
    if a[1] != 0 {
        return Err(a[1]);
    }
    let mut clocks = [0; 6];
    for (i, clock) in clocks.iter_mut().enumerate() {
        *clock = number(&a[2 + 4 * i..]);
    }
    Ok(clocks)
}
