//! A host in Rust: checks a profile, asks for a serial divisor, decodes a V30x board, then starts a simulated chip, with a good crystal and with a dead one.
use std::num::NonZeroU32;
use wontabeli::numbers::*;
use wontabeli::{call_bound, check, read_image, v30x, Chip, Config, FlashKey, Hse, PllMul, PllSource, Reading, Refusal, Report, Startup, Sysclk, WAITS};

/// HSE 8 MHz, main PLL from it by 12.5, the system clock from that.
fn config() -> Config {
    let hse = Some(Hse { bypass: false, freq: 8_000_000 });
    Config { hse, sys: Sysclk::Pll, pll_src: PllSource::Hse, pll: Some(PllMul::Mul12_5), ..Config::default() }
}

/// The simulated register file is an image. A crystal that fails never sets HSERDY.
#[derive(Default)]
struct Simulated {
    image: [u8; IMAGE_SIZE],
    crystal: bool,
    keys: u32,
    /// How many readings HSI, HSE and the main PLL have been on for.
    hsi: u32,
    hse: u32,
    pll: u32,
    /// A counter of 32 bits that goes 100 on with each reading. It begins 2,500 before its end, so that it wraps while the crystal is waited for.
    tick: u32,
}

/// The reading since a part is on at which it is ready; and the ticks of a reading.
const HSI_READY: u32 = 2;
const HSE_READY: u32 = 31;
const PLL_READY: u32 = 4;
const TICKS_A_READING: u32 = 100;

fn ready(on: u8, readings: &mut u32, needed: u32) -> bool {
    *readings = if on == 1 { *readings + 1 } else { 0 };
    *readings >= needed
}

impl Chip for Simulated {
    // On a chip: the fields that changed, but never the ready bits and SWS; at step 20 SCKMOD, LOCK and FLOCK in any case.
    fn write(&mut self, image: [u8; IMAGE_SIZE]) {
        self.image = image;
    }

    fn write_key(&mut self, _key: FlashKey) {
        self.keys += 1;
    }

    // What is on becomes ready, and the clock that was asked for is in use.
    fn read(&mut self) -> Reading {
        let f = read_image(&self.image).expect("the startup's own image");
        self.tick = self.tick.wrapping_add(TICKS_A_READING);
        Reading {
            hsirdy: ready(f[IMAGE_HSION], &mut self.hsi, HSI_READY),
            hserdy: ready(f[IMAGE_HSEON], &mut self.hse, HSE_READY) && self.crystal,
            pllrdy: ready(f[IMAGE_PLLON], &mut self.pll, PLL_READY),
            usbhs_pllrdy: f[IMAGE_USBHS_PLLON] == 1,
            eth_pllrdy: f[IMAGE_ETH_PLLON] == 1,
            sws: f[IMAGE_SW],
            sckmod: f[IMAGE_SCKMOD],
        }
    }

    fn tick(&mut self) -> u32 {
        self.tick
    }
}

/// How many ticks each wait took: examples/c/main.c has them by hand.
fn tell(startup: &Startup) {
    let ticks: String = WAITS.iter().map(|step| format!(" {step}:{}", startup.ticks(*step))).collect();
    println!("ticks{ticks}, longest {}", startup.longest_wait());
}

fn start(profile: &[u8], crystal: bool) -> Result<(), Refusal> {
    let mut chip = Simulated { crystal, tick: 0u32.wrapping_sub(2_500), ..Simulated::default() };
    let mut startup = Startup::start(profile, &chip.image)?;
    match startup.run(&mut chip)? {
        Report::Running { used, .. } => println!("running, {used} readings, {} keys written", chip.keys),
        Report::Failed { refusal, step, used } => println!("stopped by {} at step {step}, {used} readings", refusal.number()),
        Report::Worked { .. } | Report::Waiting { .. } => {
            println!("not over after {} calls", call_bound(profile)?);
            std::process::exit(1);
        }
    }
    tell(&startup);
    Ok(())
}

/// A CH32V30x board by its registers: HSE 8 MHz by 18 is SYSCLK, and HPRE reads as 12.
fn decode_v30x() -> Result<(), Refusal> {
    let mut fields = [0; V30X_FIELDS_SIZE];
    fields[V30X_FIELDS_SWS] = Sysclk::Pll.code();
    fields[V30X_FIELDS_PLLSRC] = 1;
    fields[V30X_FIELDS_PLLMUL] = v30x::PllMul::Mul18.code();
    fields[V30X_FIELDS_HPRE] = 12;
    let k = v30x::decode(&fields, NonZeroU32::new(8_000_000))?;
    println!("v30x: sysclk {} hclk {}", k.sysclk, k.hclk);
    Ok(())
}

fn answers() -> Result<(), Refusal> {
    let profile = config().to_profile()?;
    let promised = check(&profile)?;
    let k = promised.clocks;
    let numbers = [k.sysclk, k.hclk, k.pclk1, k.pclk2, k.pclk1_tim, k.pclk2_tim, promised.adc];
    for (name, hz) in ["sysclk", "hclk", "pclk1", "pclk2", "pclk1_tim", "pclk2_tim", "adc"].iter().zip(numbers) {
        println!("{name} {hz}");
    }
    // A serial port of the first bus, at 115,200.
    let port = wontabeli::serial_divisor(k.pclk1, 115_200)?;
    println!("brr {} error {}", port.brr, port.error);
    if let Err(refusal) = check(&profile[..9]) {
        println!("nine bytes: refused {}", refusal.number());
    }
    decode_v30x()?;
    start(&profile, true)?;
    start(&profile, false)
}

fn main() {
    if let Err(refusal) = answers() {
        println!("refused {}: {refusal}", refusal.number());
        std::process::exit(1);
    }
}
