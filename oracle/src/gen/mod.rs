//! The queries of a run: every combination first where that can be had, then random ones; the same from the same seed.

pub mod boards;
mod check;
mod codec;
pub mod config;
pub mod family;
mod fields;
pub mod good;
mod h4;
pub mod inputs;
pub mod random;
mod rules;
pub mod serial;
pub mod startup;
pub mod ticks;
pub mod trays;
mod wide;

use crate::record::Query;
use random::Random;

/// A set of all combinations of something: how many, how many of them the recorded list takes, and each by its place.
type Set = (usize, usize, fn(usize) -> Query);

const SETS: [Set; 52] = [
    (check::DIVIDERS, 90, check::dividers),
    (check::MULTIPLIERS, 90, check::multipliers),
    (check::LIMITS, 180, check::limits),
    (check::EDGES, check::EDGES, check::edges),
    (fields::EDGES, fields::EDGES, fields::edges),
    (check::MULTIPLIED, check::MULTIPLIED, check::multiplied),
    (fields::MULTIPLIED, fields::MULTIPLIED, fields::multiplied),
    (family::MULTIPLIED, family::MULTIPLIED, family::multiplied),
    (fields::DIVIDERS, 90, fields::dividers),
    (fields::MULTIPLIERS, 90, fields::multipliers),
    (fields::ADCS, 90, fields::adcs),
    (fields::ADC_DIVISORS, 90, fields::adc_divisors),
    (fields::RNGS, 90, fields::rngs),
    (family::DIVIDERS, 90, family::dividers),
    (family::SKIPPED, family::SKIPPED, family::skipped),
    (family::V1_MULTIPLIERS, 90, family::v1_multipliers),
    (family::V30X_MULTIPLIERS, 90, family::v30x_multipliers),
    (family::CHOICES, 90, family::choices),
    (family::USBHS, 90, family::usbhs),
    (family::NAMED, family::NAMED, family::named),
    (h4::AHBS, 90, h4::ahbs),
    (h4::HCLKS, 90, h4::hclks),
    (h4::PCLKS, 90, h4::pclks),
    (h4::MULTIPLIERS, 90, h4::multipliers),
    (codec::DAMAGED, 90, codec::damaged),
    (codec::TURNED, codec::TURNED, codec::turned),
    (codec::LENGTHS, 90, codec::lengths),
    (codec::BITS, 90, codec::bits),
    (startup::STOPPED, 150, startup::stopped),
    (startup::MODES, 90, startup::modes),
    (startup::SWITCHED, startup::SWITCHED, startup::switched),
    (startup::COMPARED, startup::COMPARED, startup::compared),
    (startup::STANDING, startup::STANDING, startup::standing),
    (startup::OVER, startup::OVER, startup::over),
    (startup::ASKED, startup::ASKED, startup::asked),
    (startup::LONG, 0, startup::long),
    (wide::EACH, wide::EACH, wide::each),
    (rules::MAIN_PLLS, rules::MAIN_PLLS, rules::main_plls),
    (rules::SYSPLLS, rules::SYSPLLS, rules::syspll_inputs),
    (rules::ADC_RATIOS, rules::ADC_RATIOS, rules::adc_ratios),
    (rules::PLL_OUTPUTS, rules::PLL_OUTPUTS, rules::pll_outputs),
    (serial::LINKS, serial::LINKS, serial::links),
    (serial::HALVES, serial::HALVES, serial::halves),
    (serial::ENDS, serial::ENDS, serial::ends),
    (serial::PORTS, serial::PORTS, serial::ports),
    (boards::BOARDS, boards::BOARDS, boards::boards),
    (boards::LENGTHS, boards::LENGTHS, boards::lengths),
    (boards::COMPETING, boards::COMPETING, boards::competing),
    (boards::WINDOWS, boards::WINDOWS, boards::windows),
    (boards::AMONG, boards::AMONG, boards::among),
    (boards::SIZES, 0, boards::sizes),
    (fields::SELECTIONS, 400, fields::selections),
];

/// Startups with ticks: the recorded list draws them behind all others.
const TICKED: [Set; 9] = [
    (ticks::WAITED, 150, ticks::waited),
    (ticks::ACROSS, 100, ticks::across),
    (ticks::LONGEST, 100, ticks::longest),
    (ticks::STOPPED, 150, ticks::stopped),
    (ticks::MODES, ticks::MODES, ticks::modes),
    (ticks::ENDED, ticks::ENDED, ticks::ended),
    (ticks::REFUSED, ticks::REFUSED, ticks::refused),
    (ticks::WIDE, ticks::WIDE, ticks::wide),
    (ticks::LONG, 0, ticks::long),
];

/// A query of document 01's calls.
pub fn random_query(r: &mut Random) -> Query {
    match r.below(32) {
        0..=9 => check::random(r),
        10..=13 => fields::random_decode(r),
        14 => fields::random_ask(r),
        15..=18 => startup::random(r),
        19 => startup::call(r),
        20..=22 => codec::random(r),
        23..=29 => family::random(r),
        30 => h4::random(r),
        _ => wide::random(r),
    }
}

/// The queries of a run: the sets, then random ones; cut off after `count`.
#[derive(Clone)]
pub struct Queries {
    random: Random,
    set: usize,
    at: usize,
    left: usize,
}

impl Queries {
    pub fn new(seed: u64, count: usize) -> Queries {
        Queries {
            random: Random(seed),
            set: 0,
            at: 0,
            left: count,
        }
    }
}

impl Iterator for Queries {
    type Item = Query;

    fn next(&mut self) -> Option<Query> {
        if self.left == 0 {
            return None;
        }
        self.left -= 1;
        let mut sets = SETS.iter().chain(&TICKED).skip(self.set).peekable();
        while sets.next_if(|set| set.0 == self.at).is_some() {
            self.set += 1;
            self.at = 0;
        }
        if let Some(set) = sets.next() {
            self.at += 1;
            return Some((set.2)(self.at - 1));
        }
        // One in 32 is a serial divisor, one a startup with ticks, and one a board or a tray.
        Some(match self.left % 32 {
            0 => serial::random(&mut self.random),
            8 => ticks::random(&mut self.random),
            16 => boards::random(&mut self.random),
            _ => random_query(&mut self.random),
        })
    }
}

/// The queries of the recorded list: some of each set, then random ones. Long waits are few: a gate replays them.
pub fn recorded(r: &mut Random) -> Vec<Query> {
    let mut queries = drawn(r, &SETS);
    // A timeout at the first wait, and the last wait met at its 1,000,000th reading.
    queries.push(startup::long(0));
    queries.push(startup::last_moment());
    queries.extend((0..2_000).map(|_| random_query(r)));
    queries
}

/// Those with ticks, and of the long waits one that fails.
pub fn recorded_ticks(r: &mut Random) -> Vec<Query> {
    let mut queries = drawn(r, &TICKED);
    queries.push(ticks::long(0));
    queries.extend((0..60).map(|_| ticks::random(r)));
    queries
}

/// As many of each set as the recorded list takes: all, or some of them by chance.
fn drawn(r: &mut Random, sets: &[Set]) -> Vec<Query> {
    let mut queries = Vec::new();
    for (size, wanted, query) in sets {
        for i in 0..*wanted.min(size) {
            let at = if wanted < size {
                r.below(*size as u32) as usize
            } else {
                i
            };
            queries.push(query(at));
        }
    }
    queries
}
