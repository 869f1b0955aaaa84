//! What the program writes for a whole input: a profile, and up to eight ports (document 02, K1). The seven numbers are the Rust's.

use super::profile::{clocks, PROFILE};
use super::serial;
use crate::record::number;

const NAMES: [&str; 7] = ["sysclk", "hclk", "pclk1", "pclk2", "pclk1_tim", "pclk2_tim", "adc"];
/// The most ports, and the bytes of a port.
pub const PORTS: usize = 8;
pub const PORT: usize = 5;

/// "Any other length is 29"; then what the profile is refused by.
fn sized(input: &[u8]) -> Result<[u8; 28], u8> {
    if !(0..=PORTS).any(|ports| input.len() == PROFILE + PORT * ports) {
        return Err(29);
    }
    clocks(&input[..PROFILE])
}

/// "Each adds one line, in order, as `brr 174 error -44800` or `refused 33`."
fn line(clocks: &[u8], port: &[u8]) -> String {
    match serial::port(clocks, port[0], number(&port[1..])) {
        Ok((brr, error)) => format!("brr {} error {}\n", brr, error),
        Err(number) => format!("refused {}\n", number),
    }
}

pub fn text(input: &[u8]) -> String {
    let clocks = match sized(input) {
        Ok(clocks) => clocks,
        Err(number) => return format!("refused {}\n", number),
    };
    let seven = NAMES.iter().zip(clocks.chunks_exact(4));
    let mut text: String = seven.map(|(name, hz)| format!("{} {}\n", name, number(hz))).collect();
    text.extend(input[PROFILE..].chunks_exact(PORT).map(|port| line(&clocks, port)));
    text
}
