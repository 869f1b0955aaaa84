//! What document 01 decides and the Rust doesn't: refusals that only the port has, the codecs, a startup's single call,
//! and the listed differences; and document 02: what the Rust has nothing of, and where it goes by the maker's manuals.

pub mod call;
pub mod codec;
pub mod codes;
pub mod layout;
pub mod manual;
pub mod profile;
mod rules;
pub mod serial;
pub mod text;
pub mod ticks;
pub mod tray;

use crate::record::*;
use crate::rust::startup;

/// The answer where the Rust has none to give: its types don't hold the query, or it has no such call.
pub fn alone(q: &Query) -> Option<Answer> {
    match q[0] {
        CALL => Some(call::answer(q)),
        OWED | BOUND => Some(call::owed(q)),
        MAIN_PLL | SYSPLL | ADC_RATIO | PLL_OUTPUT => Some(rules::answer(q)),
        READ_PROFILE => Some(codec::read_profile(q)),
        WRITE_PROFILE => Some(codec::write_profile(q)),
        READ_IMAGE => Some(codec::read_image(q)),
        WRITE_IMAGE => Some(codec::write_image(q)),
        SERIAL | PORT => Some(serial::answer(q)),
        BOARD | TRAY => Some(tray::answer(q)),
        TICKED => Some(ticks::answer(q)),
        kind if !codes::allowed(q) => Some(refused(kind, 28)),
        _ => None,
    }
}

/// Listed differences: the Rust has an answer, and document 01 another. (The one by document 02, D9, is in manual.rs.)
/// V30x decoder: 27 where the PLL is in use and runs from HSE with PREDIV1SRC set. The Rust doesn't look at PREDIV1SRC (D1).
/// Startup: step 28 decodes the fields, in which SWS is the last used reading's. The Rust reads CFGR0 once more (D8).
pub fn listed(q: &Query) -> Option<Answer> {
    if q[0] == STARTUP && startup::switched_away(q) {
        return Some(startup::run(q, true));
    }
    let (sws, pllsrc, prediv1src) = (q[1], q[2], q[4]);
    if q[0] == V30X_DECODE && sws == 2 && pllsrc != 0 && prediv1src != 0 {
        return Some(refused(V30X_DECODE, 27));
    }
    None
}
