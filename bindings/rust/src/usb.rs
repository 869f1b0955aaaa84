use crate::numbers::MORE;
use crate::Clocks;

/// What a checked configuration of V1, L1 or V30x promises.
#[derive(Clone, Copy, Debug, PartialEq, Eq)]
pub struct Checked {
    /// The six clocks.
    pub clocks: Clocks,
    /// Twice the divisor that makes USB's 48 MHz of the PLL's output (3 is 1.5); `None` where none does.
    pub usb_divisor_x2: Option<u32>,
}

impl Checked {
    pub(crate) fn from_words(words: &[u32]) -> Checked {
        let usb_divisor_x2 = match words[MORE] {
            0 => None,
            doubled => Some(doubled),
        };
        Checked { clocks: Clocks::from_words(words), usb_divisor_x2 }
    }
}
