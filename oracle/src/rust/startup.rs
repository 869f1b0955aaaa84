//! CH32V4x7: whole startups, `init` over scripted readings.

use super::v4x7::{config, fields};
use crate::panics::caught;
use crate::paper::codes::in_width;
use crate::paper::layout::image_of;
use crate::record::*;
use hal_v4x7::pac::chip;
use hal_v4x7::script::{Chip, Reading, Segment};
use hal_v4x7::SOURCE;

/// What `init` must have written to KEYR, then to MODEKEYR (document 01, step 19).
const KEYS: [(bool, u32); 4] = [
    (false, 0x4567_0123),
    (false, 0xcdef_89ab),
    (true, 0x4567_0123),
    (true, 0xcdef_89ab),
];

fn reading(bytes: &[u8]) -> Reading {
    let ready = |i: u8| bytes[0] >> (7 - i) & 1;
    Reading {
        ready: [ready(0), ready(1), ready(2), ready(3), ready(4)],
        sws: bytes[1] >> 4,
        sckmod: bytes[1] & 15,
    }
}

/// The script: up to the first segment of count 0, which stands for the end.
fn segments(bytes: &[u8]) -> Vec<Segment> {
    let mut segments = Vec::new();
    for segment in bytes.chunks(5).take(SEGMENTS) {
        let count = number(&[0, segment[0], segment[1], segment[2]]);
        if count == 0 && !segments.is_empty() {
            break;
        }
        segments.push((count, reading(&segment[3..])));
    }
    segments
}

/// What `init` answers. Where the record is `held`, step 28 decodes the last used reading, as document 01 has it; else what the chip shows next.
pub fn run(q: &Query, held: bool) -> Answer {
    let config = config(&q[1..]);
    let limit = number(&q[57..]);
    let script = segments(&q[61..]);
    chip(|chip| *chip = Chip::scripted(fields(&q[24..]), script, limit, held));
    if let Err(thrown) = caught(SOURCE, || config.clocks()) {
        return super::refusal(STARTUP, thrown);
    }
    let end = caught(SOURCE, || hal_v4x7::start(config));
    match end {
        Ok(()) => told(0, 1, hal_v4x7::rcc::clocks().numbers()),
        Err(Some(number)) => told(number, 2, [0; 6]),
        Err(None) => told(0, 0, [0; 6]),
    }
}

/// What `init` answers over a record that is held, and the step that each call worked; none where it was not started.
pub fn worked(q: &Query) -> (Answer, Vec<u8>) {
    let a = run(q, true);
    (a, chip(|chip| std::mem::take(&mut chip.steps)))
}

/// Whether `init`, at step 28, sees another SWS than the last used reading's.
pub fn switched_away(q: &Query) -> bool {
    run(q, false);
    chip(|chip| chip.away)
}

/// The unmet readings of the wait that is going on or failed: where the next call would have been the same step's, or the wait was its last.
fn unmet(chip: &Chip, number: u8, over: u8) -> u32 {
    if number == 21 || over == 0 && chip.next == chip.step {
        chip.readings
    } else {
        0
    }
}

/// The answer from what the chip saw. 23 names no step.
fn told(number: u8, over: u8, clocks: [u32; 6]) -> Answer {
    chip(|chip| {
        assert!(
            chip.keys.is_empty() || chip.keys == KEYS,
            "init wrote other keys: {:x?}",
            chip.keys
        );
        assert!(in_width(&chip.fields), "init wrote a code too wide: {:?}", chip.fields);
        let step = if number == 23 { 0 } else { chip.step };
        let mut keys = [0; 17];
        for (i, (_, key)) in chip.keys.iter().enumerate() {
            keys[4 * i..4 * i + 4].copy_from_slice(&key.to_be_bytes());
            keys[16] = 1;
        }
        let mut a = accepted(
            STARTUP,
            &[
                &[step, over],
                &chip.used.to_be_bytes(),
                &chip.calls.to_be_bytes(),
                &image_of(&chip.fields),
                &clock_bytes(clocks),
                &keys,
                &unmet(chip, number, over).to_be_bytes()[1..],
            ],
        );
        a[1] = number;
        a
    })
}
