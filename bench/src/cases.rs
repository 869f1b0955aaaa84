//! What is measured: for each line of the table our side and the Rust's.

use crate::inputs::{Bad, Good, Inputs, Port, Tray, BOARDS, PORTS};
use crate::{fast, ours, theirs};
use std::panic::catch_unwind;

/// What of a run is a call's cost.
pub enum Cost {
    /// This function, with all that it calls.
    Call(&'static str),
    /// The first, an inner function; where the compiler has put it into the second, the second without the third.
    Inner(&'static str, &'static str, &'static str),
    /// This function and the Rust's own, without the panic that they call.
    ToPanic(&'static str),
}

pub struct Half {
    /// Calls on each input, several times; gives the number of calls.
    pub run: fn(&Inputs) -> u32,
    pub cost: Cost,
    /// Whether the calls of `run` are the cost, so that a clock can measure it.
    pub timed: bool,
}

pub struct Case {
    pub name: &'static str,
    pub ours: Half,
    pub theirs: Option<Half>,
}

/// A value of which the compiler knows nothing.
fn opaque<T: Copy>(value: T) -> T {
    unsafe { std::ptr::read_volatile(&value) }
}

/// A result that the compiler can't leave out.
fn keep<T: Copy>(result: T) {
    opaque(result);
}

fn each<T>(list: &[T], call: impl Fn(&T)) -> u32 {
    const ROUNDS: u32 = 8;
    for _ in 0..ROUNDS {
        for item in list {
            call(opaque(&item));
        }
    }
    ROUNDS * list.len() as u32
}

/// Callgrind counts in here, and writes a file of counts whenever it is left.
#[no_mangle]
#[inline(never)]
pub fn measured(run: fn(&Inputs) -> u32, inputs: &Inputs) -> u32 {
    opaque(run(inputs))
}

fn call(symbol: &'static str, run: fn(&Inputs) -> u32) -> Half {
    Half {
        run,
        cost: Cost::Call(symbol),
        timed: true,
    }
}

/// An inner function of a call: counted, not timed.
fn inner(cost: Cost, run: fn(&Inputs) -> u32) -> Half {
    Half {
        run,
        cost,
        timed: false,
    }
}

fn check(profile: &[u8; 10]) {
    let mut out = ours::NONE;
    keep((ours::check(profile, &mut out), out));
}

fn fast_check(profile: &[u8; 10]) {
    let mut out = ours::NONE;
    keep((fast::fast_check(profile, &mut out), out));
}

/// 32 bits of a profile, from each place of its first byte on.
fn words(inputs: &Inputs, bits: fn(&[u8], usize, usize) -> u64) -> u32 {
    const PLACES: u32 = 8;
    let calls = each(&inputs.good, |g| {
        for place in 0..PLACES as usize {
            keep(bits(&g.profile, opaque(place), opaque(32)));
        }
    });
    calls * PLACES
}

/// A call for a whole tray.
fn tray(tray: &Tray) -> u32 {
    each(&[tray], |tray| {
        let mut out = [[0; 32]; BOARDS];
        keep((ours::tray(&tray.profiles, &mut out), out));
    })
}

/// The Rust has no call for many boards: one check after the other.
fn checked_tray(tray: &Tray) -> u32 {
    each(&[tray], |tray| {
        for config in &tray.configs {
            keep(theirs::theirs_check(opaque(&config)));
        }
    })
}

fn start(profile: &[u8; 10]) {
    let mut place = ours::NO_PLACE;
    keep((ours::start(profile, &mut place), place));
}

fn decode(input: &Good) {
    let mut out = ours::NO_CLOCKS;
    keep((ours::decode(&input.image, input.hse.unwrap_or(0), &mut out), out));
}

fn step(place: &ours::Place, reading: u16) {
    let mut place = *place;
    keep((ours::step(&mut place, reading, opaque(12)), place));
}

fn serial(port: &Port) {
    keep(ours::serial(port.pclk, port.rate));
}

fn caught(input: &Bad) {
    keep(catch_unwind(|| theirs::theirs_check(&input.config)).is_ok());
}

// In `wontabeli_start` the check is a function of its own.
fn checks() -> Vec<Case> {
    vec![
        Case {
            name: "check alone, accepted",
            ours: inner(Cost::Call(ours::CHECK), |i| each(&i.good, |g| start(&g.profile))),
            theirs: Some(call("theirs_check", |i| {
                each(&i.good, |g| keep(theirs::theirs_check(&g.config)))
            })),
        },
        Case {
            name: "check alone, refused",
            ours: inner(Cost::Call(ours::CHECK), |i| each(&i.bad, |b| start(&b.profile))),
            theirs: Some(inner(Cost::ToPanic("theirs_check"), |i| each(&i.bad, caught))),
        },
        Case {
            name: "profile read and check, accepted (fast)",
            ours: call("wontabeli_check", |i| each(&i.good, |g| check(&g.profile))),
            theirs: Some(call("fast_check", |i| each(&i.good, |g| fast_check(&g.profile)))),
        },
        Case {
            name: "profile read and check, refused (fast)",
            ours: call("wontabeli_check", |i| each(&i.bad, |b| check(&b.profile))),
            theirs: Some(call("fast_check", |i| each(&i.bad, |b| fast_check(&b.profile)))),
        },
    ]
}

/// A tray a call, then a board of it a call.
fn trays() -> Vec<Case> {
    vec![
        Case {
            name: "tray of 400 boards, accepted",
            ours: call("wontabeli_tray", |i| tray(&i.good_tray)),
            theirs: Some(call("theirs_check", |i| checked_tray(&i.good_tray))),
        },
        Case {
            name: "tray of 400 boards, refused",
            ours: call("wontabeli_tray", |i| tray(&i.bad_tray)),
            theirs: None,
        },
        Case {
            name: "a board of such a tray, accepted",
            ours: call("wontabeli_tray", |i| tray(&i.good_tray) * BOARDS as u32),
            theirs: Some(call("theirs_check", |i| checked_tray(&i.good_tray) * BOARDS as u32)),
        },
        Case {
            name: "a board of such a tray, refused",
            ours: call("wontabeli_tray", |i| tray(&i.bad_tray) * BOARDS as u32),
            theirs: None,
        },
    ]
}

fn decodes() -> Vec<Case> {
    let alone = Cost::Inner(ours::DECODE, "wontabeli_decode", ours::READ_IMAGE);
    vec![
        Case {
            name: "decode alone",
            ours: inner(alone, |i| each(&i.good, decode)),
            theirs: Some(inner(Cost::Call("theirs_decode"), |i| {
                each(&i.good, |g| {
                    hal_v4x7::pac::put(&g.fields);
                    theirs::theirs_decode(g.hse)
                })
            })),
        },
        Case {
            name: "image read and decode (oracle)",
            ours: call("wontabeli_decode", |i| each(&i.good, decode)),
            theirs: Some(call("theirs_read_and_decode", |i| {
                each(&i.good, |g| theirs::theirs_read_and_decode(&g.image, g.hse))
            })),
        },
    ]
}

/// The bit reader, and the readers of both records, which are functions of their own inside `wontabeli_check` and `wontabeli_decode`.
fn readers() -> Vec<Case> {
    vec![
        Case {
            name: "32 bits at any place (fast)",
            ours: call("bench_bits", |i| words(i, ours::bits)),
            theirs: Some(call("fast_bits", |i| words(i, fast::fast_bits))),
        },
        Case {
            name: "profile read alone",
            ours: inner(Cost::Call(ours::READ_PROFILE), |i| each(&i.good, |g| check(&g.profile))),
            theirs: None,
        },
        Case {
            name: "image read alone",
            ours: inner(Cost::Call(ours::READ_IMAGE), |i| each(&i.good, decode)),
            theirs: None,
        },
    ]
}

fn profile_codec() -> Vec<Case> {
    vec![
        Case {
            name: "profile read (fast)",
            ours: call("wontabeli_read_profile", |i| {
                each(&i.good, |g| {
                    let mut out = [0; 24];
                    keep((ours::read_profile(&g.profile, &mut out), out));
                })
            }),
            theirs: Some(call("fast_read_profile", |i| {
                each(&i.good, |g| {
                    let mut out = [0; 24];
                    keep((fast::fast_read_profile(&g.profile, &mut out), out));
                })
            })),
        },
        Case {
            name: "profile written (oracle)",
            ours: call("wontabeli_write_profile", |i| {
                each(&i.good, |g| {
                    let mut out = [0; 10];
                    keep((ours::write_profile(&g.profile_fields, &mut out), out));
                })
            }),
            theirs: Some(call("theirs_write_profile", |i| {
                each(&i.good, |g| keep(theirs::theirs_write_profile(&g.bytes)))
            })),
        },
    ]
}

fn image_codec() -> Vec<Case> {
    vec![
        Case {
            name: "image read (oracle)",
            ours: call("wontabeli_read_image", |i| {
                each(&i.good, |g| {
                    let mut out = [0; 34];
                    keep((ours::read_image(&g.image, &mut out), out));
                })
            }),
            theirs: Some(call("theirs_read_image", |i| {
                each(&i.good, |g| keep(theirs::theirs_read_image(&g.image)))
            })),
        },
        Case {
            name: "image written (oracle)",
            ours: call("wontabeli_write_image", |i| {
                each(&i.good, |g| {
                    let mut out = [0; 8];
                    keep((ours::write_image(&g.image_fields, &mut out), out));
                })
            }),
            theirs: Some(call("theirs_write_image", |i| {
                each(&i.good, |g| keep(theirs::theirs_write_image(&g.fields)))
            })),
        },
    ]
}

fn startups() -> Vec<Case> {
    vec![
        Case {
            name: "startup, a call that writes (step 23)",
            ours: call("wontabeli_step", |i| each(&i.good, |g| step(&g.writing, 0))),
            theirs: None,
        },
        Case {
            name: "startup, a call that waits (step 2, not ready)",
            ours: call("wontabeli_step", |i| each(&i.good, |g| step(&g.waiting, 0))),
            theirs: None,
        },
        Case {
            name: "startup, a call that meets a wait (step 2)",
            ours: call("wontabeli_step", |i| each(&i.good, |g| step(&g.meeting, ours::HSI_READY))),
            theirs: None,
        },
        Case {
            name: "startup, whole",
            ours: call("ours_startup", |i| {
                each(&i.good, |g| {
                    let mut place = ours::NO_PLACE;
                    keep((ours::ours_startup(&g.profile, &mut place), place));
                })
            }),
            theirs: Some(call("theirs_startup", |i| {
                each(&i.good, |g| theirs::theirs_startup(&g.config))
            })),
        },
    ]
}

/// The call whose turn it is.
pub const ONE_CALL: Half = Half {
    run: |i| {
        let (place, reading) = &i.turns[i.turn.get()];
        step(place, *reading);
        1
    },
    cost: Cost::Call("wontabeli_step"),
    timed: false,
};

fn serials() -> Vec<Case> {
    vec![Case {
        name: "serial divisor",
        ours: call("wontabeli_serial_divisor", |_| each(&PORTS, serial)),
        theirs: None,
    }]
}

pub fn cases() -> Vec<Case> {
    let mut cases = checks();
    cases.append(&mut trays());
    cases.append(&mut decodes());
    cases.append(&mut readers());
    cases.append(&mut profile_codec());
    cases.append(&mut image_codec());
    cases.append(&mut startups());
    cases.append(&mut serials());
    cases
}
