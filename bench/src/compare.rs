//! Both sides' answers to every input, which must be the same before anything is measured.

use crate::inputs::{Bad, Good, Inputs, Port, Profile, Tray, ACCEPTED, BOARDS, PORTS, REFUSED};
use crate::{fast, ours, theirs};
use std::fmt::Debug;
use std::panic::catch_unwind;

fn same<T: PartialEq + Debug>(input: &str, what: &str, ours: T, theirs: T) -> bool {
    let same = ours == theirs;
    if !same {
        eprintln!(
            "bench: {} of '{}' differs: ours {:?}, the Rust's {:?}",
            what, input, ours, theirs
        );
    }
    same
}

/// The codec, each way. The fields of the inputs are the oracle's reading, or the Rust's registers.
fn codec(g: &Good) -> bool {
    let (mut profile, mut image) = ([0; 10], [0; 8]);
    let (mut profile_fields, mut image_fields) = ([0; 24], [0; 34]);
    let numbers = [
        ours::write_profile(&g.profile_fields, &mut profile),
        ours::write_image(&g.image_fields, &mut image),
        ours::read_profile(&g.profile, &mut profile_fields),
        ours::read_image(&g.image, &mut image_fields),
    ];
    let written = (
        theirs::theirs_write_profile(&g.bytes),
        theirs::theirs_write_image(&g.fields),
    );
    same(g.name, "the codec", numbers, [0; 4])
        & same(
            g.name,
            "what is read",
            (profile_fields, image_fields),
            (g.profile_fields, g.image_fields),
        )
        & same(g.name, "what is written", (Some(profile), Some(image)), written)
}

/// The seven frequencies by the Rust.
fn frequencies(g: &Good) -> Vec<u32> {
    let clocks = theirs::theirs_check(&g.config).numbers();
    clocks.into_iter().chain(g.adc).collect()
}

/// The Rust counts no ticks: ours are held to numbers worked by hand. A wait that its first reading meets has 0; step 2, read at 5 and met at 12, has 7.
fn ticks(g: &Good, place: &ours::Place, wanted: &[u32]) -> bool {
    let right = ours::ticks(place) == wanted;
    if !right {
        eprintln!("bench: the ticks of '{}' are {:?}, and not {:?}", g.name, ours::ticks(place), wanted);
    }
    right
}

fn good(g: &Good) -> bool {
    let mut out = ours::NONE;
    let number = ours::check(&g.profile, &mut out);
    let checked = frequencies(g);
    let mut decoded = ours::NO_CLOCKS;
    let refused = ours::decode(&g.image, g.hse.unwrap_or(0), &mut decoded);
    theirs::theirs_read_and_decode(&g.image, g.hse);
    let mut place = ours::NO_PLACE;
    let ended = ours::ours_startup(&g.profile, &mut place);
    let mut met = g.meeting;
    let number_met = ours::step(&mut met, ours::HSI_READY, 12);
    same(g.name, "the check", (number, ours::numbers(&out)), (0, checked))
        & same(
            g.name,
            "decoding",
            (refused, ours::numbers(&decoded)),
            (0, hal_v4x7::rcc::clocks().numbers().to_vec()),
        )
        & same(g.name, "the startup", (ended, ours::image(&place)), (1, g.image))
        & ticks(g, &place, &[0; 9])
        & (number_met == 0 && ticks(g, &met, &[7, 0, 0, 0, 0, 0, 0, 0, 7]))
        & codec(g)
}

fn bad(b: &Bad) -> bool {
    let mut out = ours::NONE;
    let number = ours::check(&b.profile, &mut out);
    let thrown = catch_unwind(|| theirs::theirs_check(&b.config)).err();
    let message = match &thrown {
        Some(thrown) => thrown.downcast_ref::<&str>().copied().unwrap_or("another message"),
        None => "none",
    };
    same(b.name, "the refusal", number, b.number) & same(b.name, "the panic", b.message, message)
}

/// The numbers of a board's record: the Rust's frequencies where its profile is accepted, the listed refusal where not.
fn record(inputs: &Inputs, profile: &Profile) -> Vec<u32> {
    let accepted = inputs.good.iter().find(|g| g.profile == *profile);
    let refused = inputs.bad.iter().find(|b| b.profile == *profile);
    let number = refused.map_or(0, |b| u32::from(b.number));
    let frequencies = accepted.map_or(vec![0; 7], frequencies);
    [vec![number], frequencies].concat()
}

/// Every board of a tray.
fn tray(inputs: &Inputs, tray: &Tray) -> bool {
    let mut out = [[0; 32]; BOARDS];
    let number = ours::tray(&tray.profiles, &mut out);
    let found: Vec<_> = out.iter().map(ours::board).collect();
    let wanted = tray.profiles.iter().map(|profile| record(inputs, profile)).collect();
    same("400 boards", "the tray", (number, found), (0, wanted))
}

/// The Rust has no serial divisors: ours is held to the answers worked by hand.
fn port(p: &Port) -> bool {
    let is = ours::serial(p.pclk, p.rate);
    let right = is == (0, p.set.0, p.set.1);
    if !right {
        eprintln!("bench: the serial divisor of {} at {} is {:?}, and not {:?}", p.pclk, p.rate, is, p.set);
    }
    right
}

/// The fast peer's answers to a profile, and what it leaves in lent words and bytes, are ours.
fn same_as_fast(profile: &[u8], words: usize, bytes: usize) -> bool {
    type Check = fn(&[u8], &mut [u32]) -> u8;
    type Read = fn(&[u8], &mut [u8]) -> u8;
    let answers = |check: Check, read: Read| {
        let (mut checked, mut fields) = ([1; 9], [1; 26]);
        let number = check(profile, &mut checked[..words]);
        (number, checked, read(profile, &mut fields[..bytes]), fields)
    };
    let mine = answers(ours::check, ours::read_profile);
    let peers = answers(fast::fast_check, fast::fast_read_profile);
    same(&format!("{:02x?}", profile), "the fast peer", mine, peers)
}

/// Numbers that look random, the same at every run.
fn scattered(state: &mut u64) -> usize {
    *state = state.wrapping_mul(6_364_136_223_846_793_005).wrapping_add(1);
    (*state >> 33) as usize
}

/// The listed profiles with up to three bits turned over. One in ten has another length, up to twelve bytes, and lends what may be too short or too long.
fn fast_profiles() -> bool {
    const PROFILES: usize = 100_000;
    let refused = REFUSED.iter().map(|row| row.1);
    let listed: Vec<Profile> = ACCEPTED.iter().map(|row| row.1).chain(refused).collect();
    let mut state = 1;
    let mut below = |limit: usize| scattered(&mut state) % limit;
    let differing = (0..PROFILES).filter(|k| {
        let mut bytes = [0; 12];
        bytes[..10].copy_from_slice(&listed[k % listed.len()]);
        for _ in 0..below(4) {
            let bit = below(80);
            bytes[bit / 8] ^= 1 << (bit % 8);
        }
        if k % 10 == 0 {
            !same_as_fast(&bytes[..below(13)], below(10), below(27))
        } else {
            !same_as_fast(&bytes[..10], 7, 24)
        }
    });
    differing.take(8).count() == 0
}

/// The bit reader at every place of up to 16 bytes and past their end, and at the last places of all, with every count up to 70.
fn fast_bits() -> bool {
    let mut state = 1;
    let bytes: Vec<u8> = (0..16).map(|_| scattered(&mut state) as u8).collect();
    let places = (0..150).chain([usize::MAX - 63, usize::MAX - 7, usize::MAX]);
    let asked = places.flat_map(|at| (0..=70).chain([usize::MAX]).map(move |count| (at, count)));
    let questions = asked.flat_map(|(at, count)| (0..=16).map(move |length| (length, at, count)));
    let differing = questions.filter(|(length, at, count)| {
        let s = &bytes[..*length];
        let question = format!("{} bits from place {} of {:02x?}", count, at, s);
        let answers = (ours::bits(s, *at, *count), fast::fast_bits(s, *at, *count));
        !same(&question, "the bit reader", answers.0, answers.1)
    });
    differing.take(8).count() == 0
}

pub fn same_answers(inputs: &Inputs) -> bool {
    let good = inputs.good.iter().filter(|g| !good(g)).count();
    let bad = inputs.bad.iter().filter(|b| !bad(b)).count();
    let ports = PORTS.iter().filter(|p| !port(p)).count();
    let trays = tray(inputs, &inputs.good_tray) & tray(inputs, &inputs.bad_tray);
    let fast = fast_profiles() & fast_bits();
    trays && fast && good + bad + ports == 0
}
