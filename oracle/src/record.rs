//! The records that go over the pipe. oracle/README.md has the same as tables.

pub const QUERY: usize = 128;
pub const ANSWER: usize = 64;
pub type Query = [u8; QUERY];
pub type Answer = [u8; ANSWER];

/// Bytes of a V4x7 configuration, of its 33 fields, and of the other families' configurations and fields.
pub const CONFIG: usize = 23;
pub const FIELDS: usize = 33;
pub const V1_CONFIG: usize = 14;
pub const V1_FIELDS: usize = 8;
pub const V30X_CONFIG: usize = 18;
pub const V30X_FIELDS: usize = 9;
/// The longest profile, image or lent output that a query can hold.
pub const LENT: usize = 32;
/// The longest row of profiles, and the longest lent output, that a tray's query can hold.
pub const TRAY_IN: usize = 120;
pub const TRAY_OUT: usize = 448;
/// Segments of a startup's script.
pub const SEGMENTS: usize = 13;
/// Those of a startup's with ticks.
pub const TICKED_SEGMENTS: usize = 11;

pub const CHECK: u8 = 0x01;
pub const DECODE: u8 = 0x02;
pub const ADC: u8 = 0x03;
pub const RNG: u8 = 0x04;
pub const STARTUP: u8 = 0x05;
pub const CALL: u8 = 0x06;
pub const READ_PROFILE: u8 = 0x07;
pub const WRITE_PROFILE: u8 = 0x08;
pub const READ_IMAGE: u8 = 0x09;
pub const WRITE_IMAGE: u8 = 0x0a;
pub const OWED: u8 = 0x0b;
pub const BOUND: u8 = 0x0c;
pub const MAIN_PLL: u8 = 0x0d;
pub const SYSPLL: u8 = 0x0e;
pub const ADC_RATIO: u8 = 0x0f;
pub const V1_CHECK: u8 = 0x10;
pub const V1_WRITTEN: u8 = 0x11;
pub const V1_DECODE: u8 = 0x12;
pub const L1_CHECK: u8 = 0x18;
pub const L1_WRITTEN: u8 = 0x19;
pub const L1_DECODE: u8 = 0x1a;
pub const V30X_CHECK: u8 = 0x20;
pub const V30X_WRITTEN: u8 = 0x21;
pub const V30X_DECODE: u8 = 0x22;
pub const PLL_OUTPUT: u8 = 0x28;
pub const H4_AHB: u8 = 0x30;
pub const H4_HCLK: u8 = 0x31;
pub const H4_PCLK: u8 = 0x32;
pub const H4_MUL: u8 = 0x33;
pub const SERIAL: u8 = 0x40;
pub const PORT: u8 = 0x41;
pub const BOARD: u8 = 0x42;
pub const TRAY: u8 = 0x43;
pub const TICKED: u8 = 0x44;

/// Each kind, its name, and the refusals that document 01, or 02, gives it.
pub const KINDS: [(u8, &str, &[u8]); 34] = [
    (
        CHECK,
        "V4x7 check",
        &[1, 2, 3, 4, 5, 6, 7, 8, 9, 10, 11, 12, 13, 14, 15, 16, 28],
    ),
    (DECODE, "V4x7 decoder", &[3, 4, 5, 6, 8, 12, 17, 18, 19, 20, 28]),
    (ADC, "V4x7 ADC query", &[28]),
    (RNG, "V4x7 RNG query", &[28]),
    (
        STARTUP,
        "V4x7 startup",
        &[1, 2, 3, 4, 5, 6, 7, 8, 9, 10, 11, 12, 13, 14, 15, 16, 21, 22, 23, 28],
    ),
    (CALL, "V4x7 startup, one call", &[21, 22, 23, 28]),
    (READ_PROFILE, "profile reader", &[29, 30]),
    (WRITE_PROFILE, "profile writer", &[30, 32]),
    (READ_IMAGE, "image reader", &[31]),
    (WRITE_IMAGE, "image writer", &[28, 32]),
    (OWED, "V4x7 waits owed", &[28]),
    (BOUND, "V4x7 call bound", &[28]),
    (MAIN_PLL, "V4x7 main PLL", &[3, 4, 5, 28]),
    (SYSPLL, "V4x7 SYSPLL input", &[9, 19, 28]),
    (ADC_RATIO, "V4x7 ADC by USBHS", &[14, 28]),
    (V1_CHECK, "V1 check", &[3, 20, 24, 26, 28]),
    (V1_WRITTEN, "V1 fields", &[3, 20, 24, 26, 28]),
    (V1_DECODE, "V1 decoder", &[3, 24, 28]),
    (L1_CHECK, "L1 check", &[3, 20, 24, 26, 28]),
    (L1_WRITTEN, "L1 fields", &[3, 20, 24, 26, 28]),
    (L1_DECODE, "L1 decoder", &[3, 24, 28]),
    (V30X_CHECK, "V30x check", &[3, 8, 20, 24, 25, 26, 27, 28]),
    (V30X_WRITTEN, "V30x fields", &[3, 8, 20, 24, 25, 26, 27, 28]),
    (V30X_DECODE, "V30x decoder", &[3, 24, 27, 28]),
    (PLL_OUTPUT, "V1, L1, V30x PLL", &[3, 24, 28]),
    (H4_AHB, "H4 AHB", &[28]),
    (H4_HCLK, "H4 HCLK", &[]),
    (H4_PCLK, "H4 PCLK", &[28]),
    (H4_MUL, "H4 multiplier", &[28]),
    (SERIAL, "serial divisor", &[33, 34]),
    (PORT, "serial divisor, a port", &[28, 33, 34]),
    // a board's refusals stand in its record
    (BOARD, "a board", &[]),
    (TRAY, "a tray of boards", &[29, 32]),
    (
        TICKED,
        "V4x7 startup, ticks",
        &[1, 2, 3, 4, 5, 6, 7, 8, 9, 10, 11, 12, 13, 14, 15, 16, 21, 22, 23, 28],
    ),
];

pub fn name_of(kind: u8) -> &'static str {
    KINDS
        .iter()
        .find(|row| row.0 == kind)
        .map_or("unknown kind", |row| row.1)
}

/// A query of this kind: `parts` one after the other behind the kind, then zeros.
pub fn query(kind: u8, parts: &[&[u8]]) -> Query {
    let mut q = [0; QUERY];
    q[0] = kind;
    let mut at = 1;
    for part in parts {
        q[at..at + part.len()].copy_from_slice(part);
        at += part.len();
    }
    q
}

/// An accepted answer: `parts` one after the other behind kind and refusal number, then zeros.
pub fn accepted(kind: u8, parts: &[&[u8]]) -> Answer {
    let mut a = refused(kind, 0);
    let mut at = 2;
    for part in parts {
        a[at..at + part.len()].copy_from_slice(part);
        at += part.len();
    }
    a
}

pub fn refused(kind: u8, number: u8) -> Answer {
    let mut a = [0; ANSWER];
    a[0] = kind;
    a[1] = number;
    a
}

/// Four bytes, most significant first.
pub fn number(bytes: &[u8]) -> u32 {
    bytes[..4].iter().fold(0, |sum, byte| sum << 8 | u32::from(*byte))
}

/// The six clocks, four bytes each.
pub fn clock_bytes(clocks: [u32; 6]) -> [u8; 24] {
    let mut bytes = [0; 24];
    for (i, clock) in clocks.iter().enumerate() {
        bytes[4 * i..4 * i + 4].copy_from_slice(&clock.to_be_bytes());
    }
    bytes
}

/// The HSE of a decoder's query: present, frequency.
pub fn hse(bytes: &[u8]) -> Option<u32> {
    if bytes[0] != 0 {
        Some(number(&bytes[1..]))
    } else {
        None
    }
}

pub fn hex(bytes: &[u8]) -> String {
    bytes.iter().map(|byte| format!("{:02x}", byte)).collect()
}
