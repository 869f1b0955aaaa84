//! Stands in for ch32_metapac as v4x7.rs uses it: one record of 33 fields in memory, seen through its registers.

use crate::script::{Chip, Record};
use std::cell::RefCell;
use std::marker::PhantomData;

thread_local! {
    static CHIP: RefCell<Chip> = RefCell::new(Chip::still([0; 33]));
}

/// Works on the chip that the registers show.
pub fn chip<R>(work: impl FnOnce(&mut Chip) -> R) -> R {
    CHIP.with(|chip| work(&mut chip.borrow_mut()))
}

/// A register's value: the whole record, and which fields were set through it.
pub trait View {
    fn of(record: Record) -> Self;
    fn record(&self) -> Record;
    /// What reading this register does: a reading is used, or nothing.
    fn look(chip: &mut Chip) -> [u8; 33];
}

pub struct Reg<V>(PhantomData<V>);

impl<V: View> Reg<V> {
    pub fn read(&self) -> V {
        let fields = chip(V::look);
        V::of(Record { fields, touched: 0 })
    }

    pub fn modify<R>(&self, change: impl FnOnce(&mut V) -> R) -> R {
        let fields = chip(|chip| chip.fields);
        let mut view = V::of(Record { fields, touched: 0 });
        let result = change(&mut view);
        chip(|chip| chip.write(view.record()));
        result
    }
}

macro_rules! view {
    ($name:ident $look:path) => {
        pub struct $name(Record);

        impl View for $name {
            fn of(record: Record) -> Self {
                $name(record)
            }
            fn record(&self) -> Record {
                self.0
            }
            fn look(chip: &mut Chip) -> [u8; 33] {
                $look(chip)
            }
        }
    };
}

/// A field of one bit, at its place in the record.
macro_rules! flag {
    ($get:ident $set:ident $at:literal) => {
        pub fn $get(&self) -> bool {
            self.0.fields[$at] != 0
        }
        pub fn $set(&mut self, on: bool) {
            self.0.set($at, u8::from(on));
        }
    };
}

/// A field of several bits, at its place in the record.
macro_rules! code {
    ($get:ident $set:ident $at:literal) => {
        pub fn $get(&self) -> u8 {
            self.0.fields[$at]
        }
        pub fn $set(&mut self, code: u8) {
            self.0.set($at, code);
        }
    };
}

view!(Ctlr Chip::look_with_reading);
view!(Cfgr0 Chip::look_with_reading);
view!(Cfgr2 Chip::look);
view!(Cfgr3 Chip::look);
view!(FlashCtlr Chip::look_at_flash);

impl Ctlr {
    flag!(hsion set_hsion 0);
    flag!(hsebyp set_hsebyp 1);
    flag!(hseon set_hseon 2);
    flag!(csson set_csson 3);
    flag!(pllon set_pllon 4);
    flag!(usbhs_pllon set_usbhs_pllon 5);
    flag!(eth_pllon set_eth_pllon 6);
    flag!(hsirdy set_hsirdy 7);
    flag!(hserdy set_hserdy 8);
    flag!(pllrdy set_pllrdy 9);
    flag!(usbhs_pllrdy set_usbhs_pllrdy 10);
    flag!(eth_pllrdy set_eth_pllrdy 11);
}

impl Cfgr0 {
    code!(sws set_sws 12);
    code!(sw set_sw 13);
    flag!(pllsrc set_pllsrc 14);
    code!(pllmul set_pllmul 15);
    code!(hpre set_hpre 16);
    code!(ppre1 set_ppre1 17);
    code!(ppre2 set_ppre2 18);
    code!(adcpre set_adcpre 19);
    flag!(adcsrc set_adcsrc 20);
    code!(adc_duty_sel set_adc_duty_sel 21);
}

impl Cfgr2 {
    code!(usbhspllsrc set_usbhspllsrc 22);
    code!(usbhspllclk set_usbhspllclk 23);
    code!(syspllsrc set_syspllsrc 24);
    code!(sysplldiv set_sysplldiv 25);
    flag!(syspll_gate set_syspll_gate 26);
    flag!(rngsrc set_rngsrc 27);
    flag!(i2spllsrc set_i2spllsrc 28);
}

impl Cfgr3 {
    code!(adc_clkdiv set_adc_clkdiv 29);
}

impl FlashCtlr {
    code!(sckmod set_sckmod 30);
    flag!(lock set_lock 31);
    flag!(flock set_flock 32);
}

/// KEYR or MODEKEYR: write only.
pub struct KeyReg {
    mode: bool,
}

#[derive(Default)]
pub struct Key(u32);

impl Key {
    pub fn set_keyr(&mut self, key: u32) {
        self.0 = key
    }
    pub fn set_modekeyr(&mut self, key: u32) {
        self.0 = key
    }
}

impl KeyReg {
    pub fn write<R>(&self, change: impl FnOnce(&mut Key) -> R) -> R {
        let mut key = Key::default();
        let result = change(&mut key);
        chip(|chip| chip.key(self.mode, key.0));
        result
    }
}

pub struct Rcc;
pub struct Flash;
pub const RCC: Rcc = Rcc;
pub const FLASH: Flash = Flash;

impl Rcc {
    pub fn ctlr(&self) -> Reg<Ctlr> {
        Reg(PhantomData)
    }
    pub fn cfgr0(&self) -> Reg<Cfgr0> {
        Reg(PhantomData)
    }
    pub fn cfgr2(&self) -> Reg<Cfgr2> {
        Reg(PhantomData)
    }
    pub fn cfgr3(&self) -> Reg<Cfgr3> {
        Reg(PhantomData)
    }
}

impl Flash {
    pub fn keyr(&self) -> KeyReg {
        KeyReg { mode: false }
    }
    pub fn modekeyr(&self) -> KeyReg {
        KeyReg { mode: true }
    }
    pub fn ctlr(&self) -> Reg<FlashCtlr> {
        Reg(PhantomData)
    }
}
