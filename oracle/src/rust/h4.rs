//! CH32H4: arithmetic on numbers, without registers.

use crate::record::*;

pub fn answer(q: &Query) -> Answer {
    let frequency = number(&q[1..]);
    let code = q[5];
    match q[0] {
        H4_AHB => accepted(H4_AHB, &[&hal_h4::ahb(frequency, code).to_be_bytes()]),
        H4_HCLK => accepted(H4_HCLK, &[&hal_h4::hclk(frequency, code).to_be_bytes()]),
        H4_PCLK => {
            let (pclk, timer) = hal_h4::pclk(frequency, code);
            accepted(H4_PCLK, &[&pclk.to_be_bytes(), &timer.to_be_bytes()])
        }
        _ => accepted(H4_MUL, &[&hal_h4::doubled_multiplier(q[1]).to_be_bytes()]),
    }
}
