//! Refusal 28: a code too wide for its field or, in a V4x7 configuration, without a name in the Rust.

use super::layout::IMAGE;
use crate::record::*;

/// Whether every code of the query is within its field and, in a V4x7 configuration, has a name.
pub fn allowed(q: &Query) -> bool {
    match q[0] {
        CHECK | OWED | BOUND => named(&q[1..]),
        DECODE | ADC | RNG => in_width(&q[1..]),
        STARTUP | CALL => named(&q[1..]) && in_width(&q[24..]),
        V1_CHECK | L1_CHECK => v1_config(&q[1..]),
        V1_WRITTEN | L1_WRITTEN => v1_config(&q[1..]) && v1_fields(&q[1 + V1_CONFIG..]),
        V1_DECODE | L1_DECODE => v1_fields(&q[1..]),
        V30X_CHECK => v30x_config(&q[1..]),
        V30X_WRITTEN => v30x_config(&q[1..]) && v30x_fields(&q[1 + V30X_CONFIG..]),
        V30X_DECODE => v30x_fields(&q[1..]),
        H4_AHB => q[5] < 16,
        H4_PCLK => q[5] < 8,
        H4_MUL => q[1] < 32,
        _ => true,
    }
}

/// V4x7: a code of an absent part is no part of the configuration.
pub fn named(c: &[u8]) -> bool {
    let ahb = |code: u8| code == 0 || (8..16).contains(&code);
    let apb = |code: u8| code == 0 || (4..8).contains(&code);
    let sources = c[6] < 3 && c[7] < 2 && [0, 1, 2, 3, 6].contains(&c[10]) && c[18] < 3;
    let plls = (c[8] == 0 || c[9] < 32) && (c[12] == 0 || c[13] < 3);
    let dividers = c[11] < 8 && ahb(c[15]) && apb(c[16]) && apb(c[17]);
    sources && plls && dividers && c[21] < 4 && c[22] < 3
}

pub fn in_width(fields: &[u8]) -> bool {
    let mut pairs = fields[..FIELDS].iter().zip(&IMAGE);
    pairs.all(|(field, width)| u32::from(*field) < 1 << width)
}

fn v1_config(c: &[u8]) -> bool {
    c[6] < 4 && (c[8] == 0 || c[10] < 16) && c[11] < 16 && c[12] < 8 && c[13] < 8
}

/// SWS, PLLSRC, PLLXTPRE, PLLMUL, HPRE, PPRE1, PPRE2, the HSI predivider bit.
fn v1_fields(f: &[u8]) -> bool {
    f[0] < 4 && f[3] < 16 && f[4] < 16 && f[5] < 8 && f[6] < 8
}

fn v30x_config(c: &[u8]) -> bool {
    let pll = c[8] == 0 || c[9] < 16 && c[10] < 16;
    let usbhs = c[16] == 0 || c[17] < 8;
    c[6] < 4 && pll && usbhs && c[12] < 16 && c[13] < 8 && c[14] < 8
}

/// SWS, PLLSRC, PREDIV1, PREDIV1SRC, PLLMUL, HPRE, PPRE1, PPRE2, the HSI predivider bit.
fn v30x_fields(f: &[u8]) -> bool {
    f[0] < 4 && f[2] < 16 && f[4] < 16 && f[5] < 16 && f[6] < 8 && f[7] < 8
}
