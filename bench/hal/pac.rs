//! Stands in for ch32_metapac as v4x7.rs uses it: a register is a word of memory, read and written by one instruction, its fields by shift and mask.
//! Where in the word a field stands is not the chip's, and counts for nothing here.

use std::marker::PhantomData;
use std::sync::atomic::{AtomicU32, Ordering::Relaxed};

const ZERO: AtomicU32 = AtomicU32::new(0);
/// CTLR, CFGR0, CFGR2, CFGR3, FLASH CTLR, KEYR, MODEKEYR.
static WORDS: [AtomicU32; 7] = [ZERO; 7];

/// The fields in the image's order: register, first bit, width.
const PLACES: [(usize, u32, u32); 33] = [
    (0, 0, 1),  // HSION
    (0, 18, 1), // HSEBYP
    (0, 16, 1), // HSEON
    (0, 19, 1), // CSSON
    (0, 24, 1), // PLLON
    (0, 26, 1), // USBHS_PLLON
    (0, 28, 1), // ETH_PLLON
    (0, 1, 1),  // HSIRDY
    (0, 17, 1), // HSERDY
    (0, 25, 1), // PLLRDY
    (0, 27, 1), // USBHS_PLLRDY
    (0, 29, 1), // ETH_PLLRDY
    (1, 2, 2),  // SWS
    (1, 0, 2),  // SW
    (1, 16, 1), // PLLSRC
    (1, 18, 5), // PLLMUL
    (1, 4, 4),  // HPRE
    (1, 8, 3),  // PPRE1
    (1, 11, 3), // PPRE2
    (1, 14, 2), // ADCPRE
    (1, 24, 1), // ADCSRC
    (1, 25, 2), // ADC_DUTY
    (2, 0, 2),  // USBHSPLLSRC
    (2, 2, 2),  // USBHSPLLCLK
    (2, 4, 3),  // SYSPLLSRC
    (2, 8, 3),  // SYSPLLDIV
    (2, 12, 1), // SYSPLL_GATE
    (2, 13, 1), // RNGSRC
    (2, 14, 1), // I2SPLLSRC
    (3, 0, 5),  // ADC_CLKDIV
    (4, 0, 2),  // SCKMOD
    (4, 7, 1),  // LOCK
    (4, 15, 1), // FLOCK
];

/// All registers zero.
#[inline]
pub fn clear() {
    for word in &WORDS {
        word.store(0, Relaxed);
    }
}

/// Puts the registers at these fields.
pub fn put(fields: &[u8; 33]) {
    let mut words = [0; 5];
    for (field, (register, at, _)) in fields.iter().zip(PLACES) {
        words[register] |= u32::from(*field) << at;
    }
    for (word, value) in WORDS.iter().zip(words) {
        word.store(value, Relaxed);
    }
}

pub fn fields() -> [u8; 33] {
    PLACES.map(|(register, at, width)| (WORDS[register].load(Relaxed) >> at & ((1 << width) - 1)) as u8)
}

pub trait View {
    const AT: usize;
    fn of(word: u32) -> Self;
    fn word(&self) -> u32;
}

/// What the chip makes of a written word: what is on is ready, and the clock that was asked for is in use, at once.
fn settled(at: usize, word: u32) -> u32 {
    const ON: u32 = 1 << 0 | 1 << 16 | 1 << 24 | 1 << 26 | 1 << 28;
    match at {
        0 => word & !(ON << 1) | (word & ON) << 1,
        1 => word & !12 | (word & 3) << 2,
        _ => word,
    }
}

pub struct Reg<V>(PhantomData<V>);

impl<V: View> Reg<V> {
    pub fn read(&self) -> V {
        V::of(WORDS[V::AT].load(Relaxed))
    }

    pub fn modify<R>(&self, change: impl FnOnce(&mut V) -> R) -> R {
        let mut view = self.read();
        let result = change(&mut view);
        WORDS[V::AT].store(settled(V::AT, view.word()), Relaxed);
        result
    }
}

macro_rules! view {
    ($name:ident $at:literal) => {
        pub struct $name(u32);

        impl View for $name {
            const AT: usize = $at;
            fn of(word: u32) -> Self {
                $name(word)
            }
            fn word(&self) -> u32 {
                self.0
            }
        }

        impl $name {
            fn get(&self, field: usize) -> u8 {
                let (_, at, width) = PLACES[field];
                (self.0 >> at & ((1 << width) - 1)) as u8
            }
            fn set(&mut self, field: usize, value: u8) {
                let (_, at, width) = PLACES[field];
                let mask = (1 << width) - 1;
                self.0 = self.0 & !(mask << at) | (u32::from(value) & mask) << at;
            }
        }
    };
}

/// A field of one bit, by its number in PLACES.
macro_rules! flag {
    ($get:ident $set:ident $field:literal) => {
        pub fn $get(&self) -> bool {
            self.get($field) != 0
        }
        pub fn $set(&mut self, on: bool) {
            self.set($field, u8::from(on));
        }
    };
}

/// A field of several bits, by its number in PLACES.
macro_rules! code {
    ($get:ident $set:ident $field:literal) => {
        pub fn $get(&self) -> u8 {
            self.get($field)
        }
        pub fn $set(&mut self, code: u8) {
            self.set($field, code);
        }
    };
}

view!(Ctlr 0);
view!(Cfgr0 1);
view!(Cfgr2 2);
view!(Cfgr3 3);
view!(FlashCtlr 4);

impl Ctlr {
    flag!(hsion set_hsion 0);
    flag!(hsebyp set_hsebyp 1);
    flag!(hseon set_hseon 2);
    flag!(csson set_csson 3);
    flag!(pllon set_pllon 4);
    flag!(usbhs_pllon set_usbhs_pllon 5);
    flag!(eth_pllon set_eth_pllon 6);
    flag!(hsirdy set_hsirdy 7);
    flag!(hserdy set_hserdy 8);
    flag!(pllrdy set_pllrdy 9);
    flag!(usbhs_pllrdy set_usbhs_pllrdy 10);
    flag!(eth_pllrdy set_eth_pllrdy 11);
}

impl Cfgr0 {
    code!(sws set_sws 12);
    code!(sw set_sw 13);
    flag!(pllsrc set_pllsrc 14);
    code!(pllmul set_pllmul 15);
    code!(hpre set_hpre 16);
    code!(ppre1 set_ppre1 17);
    code!(ppre2 set_ppre2 18);
    code!(adcpre set_adcpre 19);
    flag!(adcsrc set_adcsrc 20);
    code!(adc_duty_sel set_adc_duty_sel 21);
}

impl Cfgr2 {
    code!(usbhspllsrc set_usbhspllsrc 22);
    code!(usbhspllclk set_usbhspllclk 23);
    code!(syspllsrc set_syspllsrc 24);
    code!(sysplldiv set_sysplldiv 25);
    flag!(syspll_gate set_syspll_gate 26);
    flag!(rngsrc set_rngsrc 27);
    flag!(i2spllsrc set_i2spllsrc 28);
}

impl Cfgr3 {
    code!(adc_clkdiv set_adc_clkdiv 29);
}

impl FlashCtlr {
    code!(sckmod set_sckmod 30);
    flag!(lock set_lock 31);
    flag!(flock set_flock 32);
}

/// KEYR or MODEKEYR: write only.
pub struct KeyReg {
    mode: bool,
}

#[derive(Default)]
pub struct Key(u32);

impl Key {
    pub fn set_keyr(&mut self, key: u32) {
        self.0 = key
    }
    pub fn set_modekeyr(&mut self, key: u32) {
        self.0 = key
    }
}

impl KeyReg {
    pub fn write<R>(&self, change: impl FnOnce(&mut Key) -> R) -> R {
        let mut key = Key::default();
        let result = change(&mut key);
        WORDS[5 + usize::from(self.mode)].store(key.0, Relaxed);
        result
    }
}

pub struct Rcc;
pub struct Flash;
pub const RCC: Rcc = Rcc;
pub const FLASH: Flash = Flash;

impl Rcc {
    pub fn ctlr(&self) -> Reg<Ctlr> {
        Reg(PhantomData)
    }
    pub fn cfgr0(&self) -> Reg<Cfgr0> {
        Reg(PhantomData)
    }
    pub fn cfgr2(&self) -> Reg<Cfgr2> {
        Reg(PhantomData)
    }
    pub fn cfgr3(&self) -> Reg<Cfgr3> {
        Reg(PhantomData)
    }
}

impl Flash {
    pub fn keyr(&self) -> KeyReg {
        KeyReg { mode: false }
    }
    pub fn modekeyr(&self) -> KeyReg {
        KeyReg { mode: true }
    }
    pub fn ctlr(&self) -> Reg<FlashCtlr> {
        Reg(PhantomData)
    }
}
