//! Codes too wide or without a name: refusal 28, and 30 from the profile writer.

use super::good::GOOD;
use super::random::{Digits, Random};
use super::{config, family, fields};
use crate::paper::layout::IMAGE;
use crate::record::*;

/// Places of a V4x7 configuration's codes; then the largest that has a name.
const CODES: [(usize, u8); 12] = [
    (6, 2),
    (7, 1),
    (9, 31),
    (10, 6),
    (11, 7),
    (13, 2),
    (15, 15),
    (16, 7),
    (17, 7),
    (18, 2),
    (21, 3),
    (22, 2),
];
/// Codes between the named ones.
const HOLES: [(usize, u8); 6] = [(10, 4), (10, 5), (15, 1), (15, 7), (16, 1), (17, 3)];

fn beyond(r: &mut Random, largest: u8) -> u8 {
    let others = 255 - u32::from(largest);
    match r.below(3) {
        0 => largest + 1,
        1 => 255,
        _ => largest + 1 + r.below(others) as u8,
    }
}

fn bad_config(r: &mut Random) -> [u8; CONFIG] {
    let mut c = config::any(r);
    let (at, code) = if r.once_in(3) {
        r.pick(&HOLES)
    } else {
        let (at, largest) = r.pick(&CODES);
        (at, beyond(r, largest))
    };
    // A code of an absent part is none: the part is made present.
    if at == 9 {
        c[8] = 1;
    }
    if at == 13 {
        c[12] = 1;
    }
    c[at] = code;
    c
}

fn bad_fields(r: &mut Random) -> [u8; FIELDS] {
    let mut fields = fields::any(r);
    let codes: Vec<usize> = (0..FIELDS).filter(|at| IMAGE[*at] > 1).collect();
    let at = r.pick(&codes);
    let largest = ((1u32 << IMAGE[at]) - 1) as u8;
    fields[at] = beyond(r, largest);
    fields
}

pub fn write_profile(r: &mut Random, lent: &[u8]) -> Query {
    query(WRITE_PROFILE, &[&bad_config(r), lent])
}

pub fn write_image(r: &mut Random, lent: &[u8]) -> Query {
    query(WRITE_IMAGE, &[&bad_fields(r), lent])
}

pub fn random(r: &mut Random) -> Query {
    match r.below(8) {
        0 | 1 => query(CHECK, &[&bad_config(r)]),
        2 => {
            let kind = r.pick(&[DECODE, ADC, RNG]);
            query(kind, &[&bad_fields(r), &[1], &25_000_000u32.to_be_bytes()])
        }
        3 => startup(r),
        4 => h4(r),
        _ => other_family(r),
    }
}

fn startup(r: &mut Random) -> Query {
    let script = vec![(1, [0x80, 0])];
    if r.once_in(2) {
        super::startup::startup(&bad_config(r), &fields::any(r), 10, &script)
    } else {
        super::startup::startup(&config::any(r), &bad_fields(r), 10, &script)
    }
}

fn h4(r: &mut Random) -> Query {
    let frequency = r.word().to_be_bytes();
    match r.below(3) {
        0 => query(H4_AHB, &[&frequency, &[beyond(r, 15)]]),
        1 => query(H4_PCLK, &[&frequency, &[beyond(r, 7)]]),
        _ => query(H4_MUL, &[&[beyond(r, 31)]]),
    }
}

/// Places of the codes in V1's and V30x's fields and configurations, each with the largest.
const V1_FIELD_CODES: [(usize, u8); 5] = [(0, 3), (3, 15), (4, 15), (5, 7), (6, 7)];
const V1_CONFIG_CODES: [(usize, u8); 5] = [(6, 3), (10, 15), (11, 15), (12, 7), (13, 7)];
const V30X_FIELD_CODES: [(usize, u8); 6] = [(0, 3), (2, 15), (4, 15), (5, 15), (6, 7), (7, 7)];
const V30X_CONFIG_CODES: [(usize, u8); 7] = [(6, 3), (9, 15), (10, 15), (12, 15), (13, 7), (14, 7), (17, 7)];

/// Where the codes of these kinds stand: the kind, the place of the first, and the codes behind it.
type Codes = (u8, usize, &'static [(usize, u8)]);
const OTHERS: [Codes; 12] = [
    (V1_CHECK, 1, &V1_CONFIG_CODES),
    (V1_WRITTEN, 1, &V1_CONFIG_CODES),
    (V1_WRITTEN, 1 + V1_CONFIG, &V1_FIELD_CODES),
    (V1_DECODE, 1, &V1_FIELD_CODES),
    (L1_CHECK, 1, &V1_CONFIG_CODES),
    (L1_WRITTEN, 1, &V1_CONFIG_CODES),
    (L1_WRITTEN, 1 + V1_CONFIG, &V1_FIELD_CODES),
    (L1_DECODE, 1, &V1_FIELD_CODES),
    (V30X_CHECK, 1, &V30X_CONFIG_CODES),
    (V30X_WRITTEN, 1, &V30X_CONFIG_CODES),
    (V30X_WRITTEN, 1 + V30X_CONFIG, &V30X_FIELD_CODES),
    (V30X_DECODE, 1, &V30X_FIELD_CODES),
];

/// A V1, L1 or V30x query with one code made too wide, of the configuration or of the earlier fields.
fn other_family(r: &mut Random) -> Query {
    let mut q = family::random(r);
    let groups: Vec<Codes> = OTHERS.iter().copied().filter(|group| group.0 == q[0]).collect();
    let (_, from, codes) = r.pick(&groups);
    let (at, largest) = r.pick(codes);
    widened(&mut q, from, at, beyond(r, largest));
    q
}

/// A code of an absent part is none: PLL and USBHS PLL are made present.
fn widened(q: &mut Query, from: usize, at: usize, code: u8) {
    let in_config = from == 1 && ![V1_DECODE, L1_DECODE, V30X_DECODE].contains(&q[0]);
    if in_config {
        q[1 + 8] = 1;
    }
    if in_config && at == 17 {
        q[1 + 16] = 1;
    }
    q[from + at] = code;
}

/// V4x7 kinds with a configuration, and with fields; and how many fields have more than one bit.
const WITH_CONFIG: [u8; 6] = [CHECK, STARTUP, CALL, WRITE_PROFILE, OWED, BOUND];
const WITH_FIELDS: [u8; 6] = [DECODE, ADC, RNG, WRITE_IMAGE, STARTUP, CALL];
const WIDE_FIELDS: usize = 14;
const CONFIGS: usize = WITH_CONFIG.len() * (CODES.len() + HOLES.len());
const FIELDS_OF: usize = WITH_FIELDS.len() * WIDE_FIELDS;
const OTHER: usize = {
    let (mut sum, mut at) = (0, 0);
    while at < OTHERS.len() {
        sum += OTHERS[at].2.len();
        at += 1;
    }
    sum
};

/// Each code of each call by itself one too wide, or without a name: where all else is accepted, and where all else is refused too.
pub const EACH: usize = (CONFIGS + FIELDS_OF + OTHER) * 2;
pub fn each(i: usize) -> Query {
    let refused = i % 2 == 1;
    let i = i / 2;
    if i < CONFIGS {
        return one_config(Digits(i), refused);
    }
    if i < CONFIGS + FIELDS_OF {
        return one_fields(Digits(i - CONFIGS), refused);
    }
    let mut left = i - CONFIGS - FIELDS_OF;
    let mut group = OTHERS[0];
    for one in OTHERS {
        group = one;
        if left < one.2.len() {
            break;
        }
        left -= one.2.len();
    }
    let (kind, from, codes) = group;
    let mut q = family::plain(kind, refused);
    widened(&mut q, from, codes[left].0, codes[left].1 + 1);
    q
}

/// A configuration with every part; refused: by 4.
fn one_config(mut d: Digits, refused: bool) -> Query {
    let kind = d.from(&WITH_CONFIG);
    with(kind, &one_code(d.of(CODES.len() + HOLES.len()), refused), &[0; FIELDS])
}

fn one_code(place: usize, refused: bool) -> [u8; CONFIG] {
    let mut config = GOOD[10];
    let (at, code) = match CODES.get(place) {
        Some((at, largest)) => (*at, largest + 1),
        None => HOLES[place - CODES.len()],
    };
    config[at] = code;
    if refused {
        config::set_frequency(&mut config, 4_999_999);
    }
    config
}

/// Fields all zero; refused: by 3 in the decoder, by 4 in the startup's calls.
fn one_fields(mut d: Digits, refused: bool) -> Query {
    let kind = d.from(&WITH_FIELDS);
    let (config, fields) = one_field(d.of(WIDE_FIELDS), refused);
    with(kind, &config, &fields)
}

fn one_field(place: usize, refused: bool) -> ([u8; CONFIG], [u8; FIELDS]) {
    let codes: Vec<usize> = (0..FIELDS).filter(|at| IMAGE[*at] > 1).collect();
    assert_eq!(codes.len(), WIDE_FIELDS);
    let at = codes[place];
    let mut config = GOOD[10];
    let mut fields = [0; FIELDS];
    if refused {
        config::set_frequency(&mut config, 4_999_999);
        fields[12] = 1;
    }
    fields[at] = 1 << IMAGE[at];
    (config, fields)
}

/// The same for what a startup is begun with: each code, then each field.
pub const BEGUN: usize = (CODES.len() + HOLES.len() + WIDE_FIELDS) * 2;
pub fn begun(i: usize) -> ([u8; CONFIG], [u8; FIELDS]) {
    let (refused, place) = (i % 2 == 1, i / 2);
    match place.checked_sub(CODES.len() + HOLES.len()) {
        None => (one_code(place, refused), [0; FIELDS]),
        Some(place) => one_field(place, refused),
    }
}

/// A V4x7 query of a kind: at step 1 with no reading, or with ten lent bytes.
fn with(kind: u8, config: &[u8; CONFIG], fields: &[u8; FIELDS]) -> Query {
    match kind {
        STARTUP => super::startup::startup(config, fields, 10, &vec![(1, [0x80, 0])]),
        CALL => query(CALL, &[config, fields, &[1]]),
        WRITE_PROFILE => query(kind, &[config, &[10, 0xee]]),
        WRITE_IMAGE => query(kind, &[fields, &[10, 0xee]]),
        CHECK | OWED | BOUND => query(kind, &[config]),
        _ => query(kind, &[fields]),
    }
}
