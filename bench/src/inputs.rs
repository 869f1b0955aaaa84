//! What both sides are measured on: the configurations, and what is made of them before.

use crate::ours::{self, Place};
use crate::record::{CONFIG, FIELDS};
use crate::theirs;
use hal_v4x7::Config;
use std::cell::Cell;

pub type Profile = [u8; 10];

/// Accepted: rows of document 01, and the profile with every part of docs/FORMATS.md.
pub const ACCEPTED: [(&str, Profile); 5] = [
    (
        "A11, the default: HSI",
        [0x00, 0x00, 0x00, 0x00, 0x00, 0x18, 0x00, 0x00, 0x00, 0x34],
    ),
    (
        "A6: HSE 8,000,001 Hz, main PLL by 12.5",
        [0x80, 0x1e, 0x84, 0x80, 0x6c, 0xb8, 0x00, 0x00, 0x00, 0x34],
    ),
    (
        "A7: HSE 25 MHz, two thirds of the ETH PLL by 2",
        [0x80, 0x5f, 0x5e, 0x10, 0x20, 0x0c, 0x88, 0x00, 0x00, 0x34],
    ),
    (
        "A9: USBHS PLL from HSI, ADC from it by 2",
        [0x00, 0x00, 0x00, 0x00, 0x00, 0x18, 0x50, 0x00, 0x40, 0xb4],
    ),
    (
        "every part",
        [0xc0, 0x5f, 0x5e, 0x10, 0x2d, 0x98, 0xcc, 0x58, 0xc1, 0x34],
    ),
];

/// Refused: the number, and what the Rust's panic says.
pub const REFUSED: [(&str, Profile, u8, &str); 4] = [
    (
        "A2: HSE 4,999,999 Hz",
        [0x80, 0x13, 0x12, 0xcf, 0xc0, 0x18, 0x00, 0x00, 0x00, 0x34],
        4,
        "HSE must be 5..32 MHz",
    ),
    (
        "A4: HSI by 21",
        [0x00, 0x00, 0x00, 0x00, 0x06, 0xb8, 0x00, 0x00, 0x00, 0x34],
        5,
        "PLL output must be 100..400 MHz",
    ),
    (
        "HSI by 20: HCLK 400 MHz",
        [0x00, 0x00, 0x00, 0x00, 0x26, 0x98, 0x00, 0x00, 0x00, 0x34],
        12,
        "CH32V4x7 HCLK exceeds the 200 MHz rated limit",
    ),
    (
        "A8: ADC above 30 MHz by a fraction",
        [0x80, 0x43, 0xd1, 0x1c, 0xac, 0xf8, 0x80, 0x00, 0x00, 0x14],
        15,
        "ADC clock exceeds 30 MHz",
    ),
];

/// A serial port: PCLK and the wanted rate, and the BRR and the error that they give, worked by hand.
pub struct Port {
    pub pclk: u32,
    pub rate: u32,
    pub set: (u16, i32),
}

const fn port(pclk: u32, rate: u32, set: (u16, i32)) -> Port {
    Port { pclk, rate, set }
}

/// Document 02's own, a rate that divides PCLK, and the highest PCLK with the largest BRR.
pub const PORTS: [Port; 3] = [
    port(20_000_000, 115_200, (174, -44_800)),
    port(72_000_000, 9_600, (7_500, 0)),
    port(4_294_967_295, 65_537, (65_535, 0)),
];

/// An accepted configuration: as both sides take it, and its registers after the startup.
pub struct Good {
    pub name: &'static str,
    pub profile: Profile,
    pub bytes: [u8; CONFIG],
    pub config: Config,
    pub hse: Option<u32>,
    /// The ADC's frequency: the Rust's check does not give it, but its query does, over the registers of the running chip.
    pub adc: Option<u32>,
    pub image: [u8; 8],
    pub fields: [u8; FIELDS],
    /// The bytes and the fields with the filling behind them, as our calls take them.
    pub profile_fields: ours::ProfileFields,
    pub image_fields: ours::ImageFields,
    /// Its startup before step 23, which writes; before step 2, which waits for HSI; and there again, after a reading that was unmet.
    pub writing: Place,
    pub waiting: Place,
    pub meeting: Place,
}

pub struct Bad {
    pub name: &'static str,
    pub profile: Profile,
    pub config: Config,
    pub number: u8,
    pub message: &'static str,
}

/// The boards of a tray.
pub const BOARDS: usize = 400;

/// A tray, the accepted or the refused boards in turn: as both sides take it.
pub struct Tray {
    pub profiles: Vec<Profile>,
    pub configs: Vec<Config>,
}

pub struct Inputs {
    pub good: Vec<Good>,
    /// Every call of their startups, and the one whose turn it is.
    pub turns: Vec<Turn>,
    pub turn: Cell<usize>,
    pub bad: Vec<Bad>,
    pub good_tray: Tray,
    pub bad_tray: Tray,
}

fn bytes_of(profile: &Profile) -> [u8; CONFIG] {
    theirs::config_bytes(profile).expect("a profile that can be read")
}

/// The startup of a profile before a step.
fn before(profile: &Profile, step: u8) -> Place {
    let mut place = ours::NO_PLACE;
    let mut number = ours::start(profile, &mut place);
    while number == 0 && place[ours::STEP] != step {
        let reading = ours::reading(&place);
        number = ours::step(&mut place, reading, 0);
    }
    assert!(number == 0, "the startup is refused by {}", number);
    place
}

/// A call of a startup: the place before it, and the reading.
pub type Turn = (Place, u16);

/// Every call of a profile's startup, with an unmet reading before each met one: its ready bits and SWS are not those of the chip.
fn turns(profile: &Profile) -> Vec<Turn> {
    let mut turns = Vec::new();
    let mut place = ours::NO_PLACE;
    let mut number = ours::start(profile, &mut place);
    while number == 0 && place[ours::PHASE] == 0 {
        let unmet = place[ours::REPORT] != ours::WAITING;
        let reading = ours::reading(&place) ^ if unmet { ours::READY_AND_SWS } else { 0 };
        turns.push((place, reading));
        number = ours::step(&mut place, reading, turns.len() as u32);
    }
    assert!(number == 0, "the startup is refused by {}", number);
    turns
}

/// A wait's place after its first reading, at tick 5, which is unmet.
fn read_once(waiting: &Place) -> Place {
    let mut place = *waiting;
    let number = ours::step(&mut place, 0, 5);
    assert!(number == 0, "the startup is refused by {}", number);
    place
}

fn tray(profiles: &[Profile]) -> Tray {
    let profiles: Vec<Profile> = profiles.iter().copied().cycle().take(BOARDS).collect();
    let configs = profiles.iter().map(|profile| theirs::config_of(&bytes_of(profile)));
    Tray {
        configs: configs.collect(),
        profiles,
    }
}

/// The filling, zero, behind the fields.
fn filled<const N: usize>(fields: &[u8]) -> [u8; N] {
    let mut all = [0; N];
    all[..fields.len()].copy_from_slice(fields);
    all
}

fn good(name: &'static str, profile: Profile) -> Good {
    let bytes = bytes_of(&profile);
    let config = theirs::config_of(&bytes);
    // The registers as the Rust leaves them: both decoders are handed what the Rust wrote.
    theirs::theirs_startup(&config);
    let fields = hal_v4x7::pac::fields();
    let waiting = before(&profile, 2);
    Good {
        name,
        profile,
        bytes,
        config,
        hse: config.hse.map(|hse| hse.freq.0),
        adc: hal_v4x7::adc(),
        image: theirs::theirs_write_image(&fields).expect("fields within their widths"),
        fields,
        profile_fields: filled(&bytes),
        image_fields: filled(&fields),
        writing: before(&profile, 23),
        waiting,
        meeting: read_once(&waiting),
    }
}

pub fn inputs() -> Inputs {
    let bad = |(name, profile, number, message): &(&'static str, Profile, u8, &'static str)| Bad {
        name,
        profile: *profile,
        config: theirs::config_of(&bytes_of(profile)),
        number: *number,
        message,
    };
    Inputs {
        good: ACCEPTED.iter().map(|(name, profile)| good(name, *profile)).collect(),
        turns: ACCEPTED.iter().flat_map(|(_, profile)| turns(profile)).collect(),
        turn: Cell::new(0),
        bad: REFUSED.iter().map(bad).collect(),
        good_tray: tray(&ACCEPTED.map(|(_, profile)| profile)),
        bad_tray: tray(&REFUSED.map(|(_, profile, ..)| profile)),
    }
}
