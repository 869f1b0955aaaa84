//! Serial divisors (document 02, K1).

use crate::record::*;

/// BRR and the error.
pub type Divisor = (u16, i32);

pub fn answer(q: &Query) -> Answer {
    let given = match q[0] {
        SERIAL => divisor(number(&q[1..]), number(&q[5..])),
        _ => port(&q[1..25], q[25], number(&q[26..])),
    };
    match given {
        Err(number) => refused(q[0], number),
        Ok((brr, error)) => accepted(q[0], &[&brr.to_be_bytes(), &error.to_be_bytes()]),
    }
}

/// "The nearest whole number to PCLK / rate (halves up)": of the two whole numbers beside the quotient the one whose product with the rate is
/// nearer to PCLK, and of two that are equally near the higher one.
fn nearest(pclk: i128, rate: i128) -> i128 {
    let lower = pclk / rate;
    let higher = lower + 1;
    let distance = |n: i128| (pclk - rate * n).abs();
    if distance(higher) <= distance(lower) {
        higher
    } else {
        lower
    }
}

/// "33 for rate 0, then 34 for BRR outside 16..65,535"; "the signed error PCLK - rate x BRR".
pub fn divisor(pclk: u32, rate: u32) -> Result<Divisor, u8> {
    let (pclk, rate) = (i128::from(pclk), i128::from(rate));
    if rate == 0 {
        return Err(33);
    }
    let brr = nearest(pclk, rate);
    if !(16..=65_535).contains(&brr) {
        return Err(34);
    }
    let error = pclk - rate * brr;
    Ok((brr as u16, error as i32))
}

/// "The bus, 1 or 2": of PCLK1 and PCLK2 among the six clocks; "28 for another bus" stands first.
pub fn port(clocks: &[u8], bus: u8, rate: u32) -> Result<Divisor, u8> {
    let pclk = match bus {
        1 => number(&clocks[8..]),
        2 => number(&clocks[12..]),
        _ => return Err(28),
    };
    divisor(pclk, rate)
}
