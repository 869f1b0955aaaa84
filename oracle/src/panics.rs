//! A Rust panic is a refusal: its message and its place give document 01's number.

use std::cell::{Cell, RefCell};
use std::panic::{catch_unwind, AssertUnwindSafe};

struct Panic {
    message: String,
    file: String,
    line: u32,
}

thread_local! {
    /// Whether the Rust is being asked: its panics are noted, all others printed.
    static ASKING: Cell<bool> = Cell::new(false);
    /// Whether no panic is printed.
    static QUIET: Cell<bool> = Cell::new(false);
    static LAST: RefCell<Option<Panic>> = RefCell::new(None);
}

/// Messages of the Rust, and their numbers.
const MESSAGES: [(&str, u8); 27] = [
    ("RNG requires USBHS PLL", 1),
    ("RNG requires ETH PLL", 2),
    ("CH32V4x7 HSE frequency is required", 3),
    ("RCC: HSE frequency required", 3),
    ("HSE must be 5..32 MHz", 4),
    ("PLL output must be 100..400 MHz", 5),
    ("ETH PLL requires a 25 MHz HSE", 6),
    ("USBHS PLL ETH input requires ETH PLL", 7),
    ("USBHS PLL reference must be 20, 24, 25 or 32 MHz", 8),
    ("SYSPLL requires the main PLL", 9),
    ("SYSPLL requires USBHS PLL", 10),
    ("SYSPLL requires ETH PLL", 11),
    ("CH32V4x7 HCLK exceeds the 200 MHz rated limit", 12),
    ("ADC requires USBHS PLL", 13),
    ("ADC USBHS PLL divisor must be 1 through 32", 14),
    ("ADC clock exceeds 30 MHz", 15),
    ("ADC clock is below 1 Hz", 16),
    ("Reserved USBHS PLL reference source", 17),
    ("USBHS PLL reference selection mismatch", 18),
    ("Reserved SYSPLL clock source", 19),
    ("Reserved system clock source", 20),
    ("entered unreachable code", 20),
    ("CH32V4x7 clock startup or switch timed out", 21),
    ("attempt to multiply with overflow", 24),
    ("If HSI is selected as the PLL source", 25),
    ("not yet implemented", 27),
    // v3.rs has one `panic!()` in the d8c build: the USBHS reference.
    ("explicit panic", 8),
];

/// Places, by the text of the panicking line and the one after it, where the message says too little.
const PLACES: [(&str, u8); 5] = [
    ("hse.unwrap()", 3),
    ("pll_clk.unwrap()", 26),
    ("assert_eq!(hse_frequency(hse).0, 25_000_000);", 6),
    ("assert_eq!( FLASH.ctlr().read().sckmod(),", 22),
    ("assert_eq!(*super::clocks(), clocks);", 23),
];

/// Notes the Rust's panics instead of printing them.
pub fn note_panics() {
    let usual = std::panic::take_hook();
    std::panic::set_hook(Box::new(move |info| {
        if !ASKING.with(Cell::get) {
            if !QUIET.with(Cell::get) {
                usual(info);
            }
            return;
        }
        let payload = info.payload();
        let message = match (payload.downcast_ref::<&str>(), payload.downcast_ref::<String>()) {
            (Some(text), _) => text.to_string(),
            (_, Some(text)) => text.clone(),
            _ => String::new(),
        };
        let (file, line) = info.location().map_or(("", 0), |place| (place.file(), place.line()));
        let file = file.to_string();
        LAST.with(|last| *last.borrow_mut() = Some(Panic { message, file, line }));
    }));
}

/// What `work` gives; or the number of its panic; or None where the script of readings stopped it.
pub fn caught<T>(source: &str, work: impl FnOnce() -> T) -> Result<T, Option<u8>> {
    ASKING.with(|asking| asking.set(true));
    let result = catch_unwind(AssertUnwindSafe(work));
    ASKING.with(|asking| asking.set(false));
    match result {
        Ok(value) => Ok(value),
        Err(thrown) if thrown.is::<hal_v4x7::script::Stopped>() => Err(None),
        Err(_) => Err(Some(number_of_last(source))),
    }
}

/// What `work` gives; none where it panics, of which nothing is printed.
pub fn quietly<T>(work: impl FnOnce() -> T) -> Option<T> {
    QUIET.with(|quiet| quiet.set(true));
    let result = catch_unwind(AssertUnwindSafe(work));
    QUIET.with(|quiet| quiet.set(false));
    result.ok()
}

fn number_of_last(source: &str) -> u8 {
    let panic = LAST.with(|last| last.borrow_mut().take());
    let panic = panic.expect("a panic that the hook did not see");
    let place = place(source, &panic);
    let by_message = MESSAGES.iter().find(|(text, _)| panic.message.contains(text));
    // The message of an `unwrap` or of a bare `assert_eq!` is the same everywhere.
    let by_place = PLACES.iter().find(|(text, _)| starts_or_has(&place, text));
    match by_message.or(by_place) {
        // The stand-ins have no refusals: a panic of theirs is a fault of the oracle.
        Some((_, number)) if panic.file.contains("/src/rcc/") => *number,
        _ => panic!("an unknown panic: {} in {} at `{}`", panic.message, panic.file, place),
    }
}

/// The panicking line and the next one, without the indentation.
fn place(source: &str, panic: &Panic) -> String {
    let from = source.lines().skip((panic.line as usize).saturating_sub(1));
    let lines: Vec<&str> = from.take(2).map(str::trim).collect();
    lines.join(" ")
}

fn starts_or_has(place: &str, text: &str) -> bool {
    if text.starts_with("assert") {
        place.starts_with(text)
    } else {
        place.contains(text)
    }
}
