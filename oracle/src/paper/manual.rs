//! AHB codes 12 to 15 of CH32V1, CH32L1 and CH32V30x (document 02, K4; D9 of docs/DIFFERENCES.md). The Rust divides by half of what the maker's manuals
//! say, so it is not asked for these codes, but for the same with the AHB at 1: SYSCLK, the USB divisor, the other fields and the refusals don't go by the
//! AHB. HCLK comes from the manuals' table, and what lies below it from document 01.

use crate::record::*;
use crate::rust;

/// HPRE of RCC_CFGR0 from 1100 on, and what SYSCLK is divided by: the manuals' table, by document 02's word.
const HPRE: [(u8, u32); 4] = [(0b1100, 64), (0b1101, 128), (0b1110, 256), (0b1111, 512)];

/// PPRE1 and PPRE2, and what HCLK is divided by.
fn ppre(bits: u8) -> u32 {
    match bits {
        0b100 => 2,
        0b101 => 4,
        0b110 => 8,
        0b111 => 16,
        _ => 1,
    }
}

/// Where a query has its AHB code; APB1's and APB2's follow.
fn ahb_place(kind: u8) -> Option<usize> {
    match kind {
        V1_CHECK | V1_WRITTEN | L1_CHECK | L1_WRITTEN => Some(12),
        V30X_CHECK | V30X_WRITTEN => Some(13),
        V1_DECODE | L1_DECODE => Some(5),
        V30X_DECODE => Some(6),
        _ => None,
    }
}

/// The six clocks, timers at twice PCLK where it is divided.
fn clocks(sysclk: u32, divisor: u32, apb: [u32; 2]) -> [u32; 6] {
    let hclk = sysclk / divisor;
    let [pclk1, pclk2] = apb.map(|by| hclk / by);
    let timer = |pclk, by| if by == 1 { pclk } else { 2 * pclk };
    [sysclk, hclk, pclk1, pclk2, timer(pclk1, apb[0]), timer(pclk2, apb[1])]
}

/// The row of the manuals' table for a query with such a code; none for others.
fn table_row(q: &Query) -> Option<(u8, u32)> {
    let code = q[ahb_place(q[0])?];
    HPRE.iter().copied().find(|row| row.0 == code)
}

/// The answer to a query with such a code; none to others.
pub fn answer(q: &Query) -> Option<Answer> {
    let (code, divisor) = table_row(q)?;
    let at = ahb_place(q[0])?;
    let mut undivided = *q;
    undivided[at] = 0;
    let mut a = rust::answer(&undivided);
    match q[0] {
        _ if a[1] != 0 => {}
        V1_WRITTEN | L1_WRITTEN => a[2 + 4] = code,
        V30X_WRITTEN => a[2 + 5] = code,
        _ => {
            let six = clocks(number(&a[2..]), divisor, [ppre(q[at + 1]), ppre(q[at + 2])]);
            a[2..26].copy_from_slice(&clock_bytes(six));
        }
    }
    Some(a)
}

/// The AHB code of a query whose answer shows the divisor: half of it, which is the Rust's, gives another HCLK. Refusals and fields show none.
pub fn shown(q: &Query, a: &Answer) -> Option<u8> {
    let (code, divisor) = table_row(q)?;
    let sysclk = match q[0] {
        _ if a[1] != 0 => 0,
        V1_WRITTEN | L1_WRITTEN | V30X_WRITTEN => 0,
        _ => number(&a[2..]),
    };
    Some(code).filter(|_| sysclk / divisor != sysclk / (divisor / 2))
}
