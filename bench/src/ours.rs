//! Our calls, as include/wontabeli.h has them. What a call gives is taken apart here alone: frequencies are words.

extern "C" {
    fn wontabeli_check(profile: *const u8, profile_len: usize, out: *mut u32, out_len: usize) -> u8;
    fn wontabeli_tray(profiles: *const u8, profiles_len: usize, out: *mut u8, out_len: usize) -> u8;
    fn wontabeli_decode(image: *const u8, image_len: usize, hse: u32, out: *mut u32, out_len: usize) -> u8;
    fn wontabeli_read_profile(profile: *const u8, profile_len: usize, out: *mut u8, out_len: usize) -> u8;
    fn wontabeli_write_profile(fields: *const u8, fields_len: usize, out: *mut u8, out_len: usize) -> u8;
    fn wontabeli_read_image(image: *const u8, image_len: usize, out: *mut u8, out_len: usize) -> u8;
    fn wontabeli_write_image(fields: *const u8, fields_len: usize, out: *mut u8, out_len: usize) -> u8;
    fn wontabeli_start(
        profile: *const u8,
        profile_len: usize,
        image: *const u8,
        image_len: usize,
        place: *mut u8,
        place_len: usize,
    ) -> u8;
    fn wontabeli_step(place: *mut u8, place_len: usize, reading: u16, tick: u32) -> u8;
    fn wontabeli_serial_divisor(pclk: u32, rate: u32, brr: *mut u16, error: *mut i32) -> u8;
    /// `layout::bits`, which is no call of the header: bench/run makes it one.
    fn bench_bits(s: *const u8, s_len: usize, at: usize, count: usize) -> u64;
}

pub type Checked = [u32; 7];
/// The record of a board: the refusal number or 0, and the frequencies, four bytes each.
pub type Board = [u8; 32];
pub type Decoded = [u32; 6];
pub type Place = [u8; 72];
/// The fields one a byte, the filling last.
pub type ProfileFields = [u8; 24];
pub type ImageFields = [u8; 34];
pub const NONE: Checked = [0; 7];
pub const NO_CLOCKS: Decoded = [0; 6];

/// A place before anything is started in it; and where it has its image, its step, its phase, what the last call reports, and the ticks of the waits with
/// the longest behind them.
pub const NO_PLACE: Place = [0; 72];
const IMAGE: usize = 10;
pub const STEP: usize = 18;
pub const PHASE: usize = 27;
pub const REPORT: usize = 28;
const TICKS: usize = 36;

/// What a call reports whose reading didn't meet the wait.
pub const WAITING: u8 = 1;

/// The bits of a reading that are ready bits and SWS.
pub const READY_AND_SWS: u16 = 0x7f;

/// The reading of a chip whose HSI is ready, and nothing else.
pub const HSI_READY: u16 = 1;

/// The inner functions that cost is asked of, as the archives name them: the check, the decoder, the readers.
pub const CHECK: &str = "v4x7::Config::clocks";
pub const DECODE: &str = "decoder::decode";
pub const READ_PROFILE: &str = "profile::read_profile";
pub const READ_IMAGE: &str = "image::read_image";

/// The frequencies of an answer.
pub fn numbers(out: &[u32]) -> Vec<u32> {
    out.to_vec()
}

#[inline]
pub fn bits(s: &[u8], at: usize, count: usize) -> u64 {
    unsafe { bench_bits(s.as_ptr(), s.len(), at, count) }
}

#[inline]
pub fn check(profile: &[u8], out: &mut [u32]) -> u8 {
    unsafe { wontabeli_check(profile.as_ptr(), profile.len(), out.as_mut_ptr(), out.len()) }
}

#[inline]
pub fn tray(profiles: &[[u8; 10]], out: &mut [Board]) -> u8 {
    unsafe {
        wontabeli_tray(
            profiles.as_ptr().cast(),
            profiles.len() * 10,
            out.as_mut_ptr().cast(),
            out.len() * 32,
        )
    }
}

/// The numbers of a board's record.
pub fn board(record: &Board) -> Vec<u32> {
    words(record)
}

/// Numbers of four bytes, the most significant first.
fn words(bytes: &[u8]) -> Vec<u32> {
    bytes
        .chunks(4)
        .map(|four| four.iter().fold(0, |number, byte| number << 8 | u32::from(*byte)))
        .collect()
}

#[inline]
pub fn decode(image: &[u8; 8], hse: u32, out: &mut Decoded) -> u8 {
    unsafe { wontabeli_decode(image.as_ptr(), image.len(), hse, out.as_mut_ptr(), out.len()) }
}

#[inline]
pub fn read_profile(profile: &[u8], out: &mut [u8]) -> u8 {
    unsafe { wontabeli_read_profile(profile.as_ptr(), profile.len(), out.as_mut_ptr(), out.len()) }
}

#[inline]
pub fn write_profile(fields: &ProfileFields, out: &mut [u8; 10]) -> u8 {
    unsafe { wontabeli_write_profile(fields.as_ptr(), fields.len(), out.as_mut_ptr(), out.len()) }
}

#[inline]
pub fn read_image(image: &[u8; 8], out: &mut ImageFields) -> u8 {
    unsafe { wontabeli_read_image(image.as_ptr(), image.len(), out.as_mut_ptr(), out.len()) }
}

#[inline]
pub fn write_image(fields: &ImageFields, out: &mut [u8; 8]) -> u8 {
    unsafe { wontabeli_write_image(fields.as_ptr(), fields.len(), out.as_mut_ptr(), out.len()) }
}

#[inline]
pub fn start(profile: &[u8; 10], place: &mut Place) -> u8 {
    let image = [0; 8];
    unsafe {
        wontabeli_start(
            profile.as_ptr(),
            profile.len(),
            image.as_ptr(),
            image.len(),
            place.as_mut_ptr(),
            place.len(),
        )
    }
}

#[inline]
pub fn step(place: &mut Place, reading: u16, tick: u32) -> u8 {
    unsafe { wontabeli_step(place.as_mut_ptr(), place.len(), reading, tick) }
}

#[inline]
pub fn serial(pclk: u32, rate: u32) -> (u8, u16, i32) {
    let (mut brr, mut error) = (0, 0);
    (unsafe { wontabeli_serial_divisor(pclk, rate, &mut brr, &mut error) }, brr, error)
}

pub fn image(place: &Place) -> [u8; 8] {
    let mut image = [0; 8];
    image.copy_from_slice(&place[IMAGE..IMAGE + 8]);
    image
}

/// The reading of a chip on which what is on is ready and the clock that was asked for is in use, at once.
#[inline]
pub fn reading(place: &Place) -> u16 {
    let b = &place[IMAGE..IMAGE + 8];
    let bit = |at: u32| u16::from(b[0] >> at & 1);
    let ready = bit(7) | bit(5) << 1 | bit(3) << 2 | bit(2) << 3 | bit(1) << 4;
    let sws = u16::from(b[1] & 3);
    let sckmod = u16::from((b[6] & 1) << 1 | b[7] >> 7);
    ready | sws << 5 | sckmod << 7
}

/// The ticks of the eight waits, and the longest.
pub fn ticks(place: &Place) -> Vec<u32> {
    words(&place[TICKS..])
}

/// A whole startup: 1 where it runs, else the refusal. The tick is the number of the call.
#[no_mangle]
#[inline(never)]
pub extern "C" fn ours_startup(profile: &[u8; 10], place: &mut Place) -> u8 {
    let mut number = start(profile, place);
    let mut tick = 0;
    while number == 0 && place[PHASE] == 0 {
        number = step(place, reading(place), tick);
        tick += 1;
    }
    if number == 0 {
        place[PHASE]
    } else {
        number
    }
}
