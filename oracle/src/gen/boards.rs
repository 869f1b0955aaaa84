//! Boards and trays (document 02, K2): a board of every length and every refusal; trays of every length with lent outputs around what they need;
//! refused boards among accepted ones; then random ones.

use super::codec::damaged_profile;
use super::config::{self, with};
use super::good::GOOD;
use super::random::{Digits, Random};
use crate::paper::layout::profile_of;
use crate::paper::profile::PROFILE;
use crate::paper::tray::RECORD;
use crate::record::*;

pub type Profile = [u8; PROFILE];

fn board(bytes: &[u8]) -> Query {
    query(BOARD, &[&[bytes.len() as u8], bytes])
}

/// A tray's profiles, the length of the lent output, what each of its bytes holds before, and the place from which it is shown.
fn tray(profiles: &[u8], lent: usize, held: u8, place: usize) -> Query {
    let mut bytes = [0; TRAY_IN];
    bytes[..profiles.len()].copy_from_slice(profiles);
    let two = |number: usize| (number as u16).to_be_bytes();
    let length = [profiles.len() as u8];
    query(TRAY, &[&length, &bytes, &two(lent), &[held], &two(place)])
}

/// All that a profile of ten bytes can be refused by; 16, which no configuration is known to give, apart.
pub const REFUSALS: [u8; 16] = [1, 2, 3, 4, 5, 6, 7, 8, 9, 10, 11, 12, 13, 14, 15, 30];

/// A profile that is refused by this number: row A11 with something changed.
pub fn refused(number: u8) -> Profile {
    let config = match number {
        1 => with(0, &[(18, 1)]),
        2 => with(0, &[(18, 2)]),
        3 => with(0, &[(6, 1)]),
        4 => with(4_999_999, &[(6, 1)]),
        5 => with(0, &[(8, 1), (9, 21)]),
        6 => with(24_000_000, &[(14, 1)]),
        7 => with(0, &[(12, 1), (13, 2)]),
        8 => with(20_000_001, &[(12, 1)]),
        9 => with(0, &[(6, 2)]),
        10 => with(0, &[(6, 2), (10, 0)]),
        11 => with(0, &[(6, 2), (10, 1)]),
        12 => with(0, &[(6, 2), (8, 1), (9, 20)]),
        13 => with(0, &[(19, 1), (20, 2)]),
        14 => with(0, &[(12, 1), (13, 1), (19, 1), (20, 33)]),
        15 => with(0, &[(12, 1), (13, 1), (19, 1), (20, 1)]),
        _ => with(0, &[]),
    };
    let mut profile = profile_of(&config);
    // 30: the filling is not zero.
    profile[PROFILE - 1] |= u8::from(number == 30);
    profile
}

/// An accepted profile whose seven frequencies all differ: HSE 29,876,543, AHB by 4, APB1 by 4, APB2 by 16, the ADC by 6.
fn all_differ() -> Profile {
    profile_of(&with(29_876_543, &[(6, 1), (15, 9), (16, 5), (17, 7), (21, 2)]))
}

/// A profile of each refusal, and as many that are accepted, in turn.
pub const EACH: usize = 2 * REFUSALS.len();
pub fn each(i: usize) -> Profile {
    let at = i / 2 % REFUSALS.len();
    match i % 2 {
        0 if at == 0 => all_differ(),
        0 => profile_of(&GOOD[at]),
        _ => refused(REFUSALS[at]),
    }
}

pub const BOARDS: usize = EACH;
pub fn boards(i: usize) -> Query {
    board(&each(i))
}

/// A board's profile at every length: cut off, or with more of the same behind it.
pub const LENGTHS: usize = LENT + 1;
pub fn lengths(i: usize) -> Query {
    let bytes: Vec<u8> = all_differ().into_iter().cycle().take(i).collect();
    board(&bytes)
}

/// What each lent byte holds before.
const HELD: [u8; 3] = [0x00, 0xff, 0xa5];
/// How much of the lent output an answer shows.
const WINDOW: usize = ANSWER - 2;

/// So many bytes of profiles, accepted and refused in turn.
fn bytes(length: usize) -> Vec<u8> {
    (0..EACH).flat_map(each).take(length).collect()
}

/// The start of the lent output, or what lies around the end of the records.
fn at_end(d: &mut Digits, length: usize) -> usize {
    d.of(2) * (length / PROFILE * RECORD).saturating_sub(WINDOW / 2)
}

/// Every length of up to four boards and a half, with lent outputs at every multiple of 32 up to 160 and one to each side.
pub const SIZES: usize = 46 * 6 * 3 * 2;
pub fn sizes(i: usize) -> Query {
    let mut d = Digits(i);
    let length = d.of(46);
    let lent = (RECORD * d.of(6) + d.of(3)).saturating_sub(1);
    tray(&bytes(length), lent, HELD[i % 3], at_end(&mut d, length))
}

/// Lengths with and without a rest, with as much lent as the whole boards need, and as the board that was begun would: where 32 and 29 compete.
pub const COMPETING: usize = 7 * 5 * 2;
pub fn competing(i: usize) -> Query {
    let mut d = Digits(i);
    let length = d.from(&[0, 9, 10, 19, 20, 25, 39]);
    let needed = length / PROFILE * RECORD;
    let lent = d.from(&[needed.saturating_sub(1), needed, needed + 31, needed + 32, needed + 64]);
    tray(&bytes(length), lent, 0xa5, at_end(&mut d, length))
}

/// Twelve boards with every window of the longest lent output: accepted and refused in turn; others, beginning with a refused one; all refused.
pub const WINDOWS: usize = 3 * HELD.len() * 8;
pub fn windows(i: usize) -> Query {
    let mut d = Digits(i);
    let profiles: Vec<u8> = match d.of(3) {
        0 => (0..12).flat_map(each).collect(),
        1 => (13..25).flat_map(each).collect(),
        _ => (4..16).flat_map(|at| refused(REFUSALS[at])).collect(),
    };
    let held = d.from(&HELD);
    tray(&profiles, TRAY_OUT, held, WINDOW * d.of(8))
}

/// A board of each refusal before, between and behind accepted ones; the first two records, then the last two.
pub const AMONG: usize = REFUSALS.len() * 3 * 2;
pub fn among(i: usize) -> Query {
    let mut d = Digits(i);
    let mut profiles = [all_differ(), profile_of(&GOOD[7]), profile_of(&GOOD[10])];
    let number = d.from(&REFUSALS);
    profiles[d.of(3)] = refused(number);
    let lent = 3 * RECORD;
    tray(&profiles.concat(), lent, HELD[i % 3], d.from(&[0, lent - WINDOW]))
}

/// The profile of a random configuration; one of five may be damaged.
pub fn random_profile(r: &mut Random) -> Profile {
    let config = config::any(r);
    if r.once_in(5) {
        damaged_profile(r, &config)
    } else {
        profile_of(&config)
    }
}

pub fn random(r: &mut Random) -> Query {
    if r.once_in(3) {
        return board(&random_profile(r));
    }
    let boards = r.below(13);
    let mut profiles: Vec<u8> = (0..boards).flat_map(|_| random_profile(r)).collect();
    if r.once_in(6) {
        profiles.truncate(r.below(TRAY_IN as u32) as usize);
    }
    let needed = profiles.len() / PROFILE * RECORD;
    let more = r.below((TRAY_OUT - needed) as u32 + 1) as usize;
    let lent = match r.below(6) {
        0 => r.below(TRAY_OUT as u32 + 1) as usize,
        1 => needed.saturating_sub(1),
        2 => needed,
        _ => needed + more,
    };
    tray(&profiles, lent, r.byte(), r.below(lent as u32 + 1) as usize)
}
