//! Every wrapper of bindings/rust, with answers worked by hand from documents 01 and 02 (those of tests/calls.c). A wrong one panics.
use std::num::NonZeroU32;
use wontabeli::numbers::*;
use wontabeli::*;

fn clocks(sysclk: u32, hclk: u32, pclk1: u32, pclk2: u32, pclk1_tim: u32, pclk2_tim: u32) -> Clocks {
    Clocks { sysclk, hclk, pclk1, pclk2, pclk1_tim, pclk2_tim }
}

fn profiles() {
    let config = Config {
        hse: Some(Hse { bypass: false, freq: 8_000_000 }),
        sys: Sysclk::Pll,
        pll_src: PllSource::Hse,
        pll: Some(PllMul::Mul12_5),
        hspll: Some(HsPllSource::Hsi),
        ahb_pre: AhbPrescaler::Div2,
        apb1_pre: ApbPrescaler::Div4,
        apb2_pre: ApbPrescaler::Div2,
        adc_src: AdcClockSource::UsbHsPll { divisor: 16 },
        adc_pre: AdcPrescaler::Div4,
        adc_duty: AdcDutyCycle::Percent75,
        ..Config::default()
    };
    let profile = config.to_profile().unwrap();
    assert_eq!(profile, [0x80, 0x1e, 0x84, 0x80, 0x2c, 0xb8, 0x54, 0x58, 0x44, 0x18]);
    assert_eq!(Config::from_profile(&profile), Ok(config));
    let promised = check(&profile).unwrap();
    assert_eq!(promised.clocks, clocks(100_000_000, 50_000_000, 12_500_000, 25_000_000, 25_000_000, 50_000_000));
    assert_eq!(promised.adc, 3_750_000);
    assert_eq!(waits_owed(&profile), Ok(7));
    assert_eq!(call_bound(&profile), Ok(7_000_020));
    // HSE 25 MHz bypassed, SYSPLL source 3 by 4, the ETH PLL, the RNG from it
    let other = Config {
        hse: Some(Hse { bypass: true, freq: 25_000_000 }),
        syspll_src: SysPllSource::EthMul2Div3,
        syspll_pre: SysPllPrescaler::Div4,
        ethpll: true,
        rng_src: RngClockSource::EthPll,
        ..Config::default()
    };
    let profile = other.to_profile().unwrap();
    assert_eq!(profile, [0xc0, 0x5f, 0x5e, 0x10, 0x00, 0x0d, 0x88, 0x01, 0x00, 0x34]);
    assert_eq!(Config::from_profile(&profile), Ok(other));
    // AHB 1
    assert_eq!(Config::from_profile(&[0, 0, 0, 0, 0, 0x18, 0, 0x80, 0, 0x34]), Err(Refusal::ProfileCode));
    assert_eq!(Config::default().to_profile(), Ok([0, 0, 0, 0, 0, 0x18, 0, 0, 0, 0x34]));
    assert_eq!(check(&profile[..9]), Err(Refusal::ProfileLength));
    assert_eq!(Refusal::ProfileLength.number(), 29);
    assert_eq!(Refusal::ProfileLength.to_string(), "Profile not 10 bytes.");
}

fn images() {
    let image = [0xa2, 0x46, 0x46, 0x66, 0x50, 0x8a, 0xa6, 0xa0];
    let mut fields = read_image(&image).unwrap();
    assert_eq!((fields[IMAGE_SWS], fields[IMAGE_HPRE], fields[IMAGE_ADC_CLKDIV]), (1, 9, 19));
    assert_eq!(write_image(&fields), Ok(image));
    let hse = NonZeroU32::new(12_000_000);
    assert_eq!(decode(&image, hse), Ok(clocks(12_000_000, 3_000_000, 1_500_000, 375_000, 3_000_000, 750_000)));
    assert_eq!(decode(&image, None), Err(Refusal::HseMissing));
    assert_eq!(adc_frequency(&image, 12_000_000), Ok(Some(93_750)));
    assert_eq!(rng_source_frequency(&image, 12_000_000), Ok(None));
    fields[IMAGE_USBHS_PLLRDY] = 1;
    assert_eq!(rng_source_frequency(&write_image(&fields).unwrap(), 12_000_000), Ok(Some(480_000_000)));
    fields[IMAGE_SCKMOD] = 4;
    assert_eq!(write_image(&fields), Err(Refusal::CodeNotAllowed));
}

fn startups() {
    let mut startup = Startup::start(&[0, 0, 0, 0, 0, 0x18, 0, 0, 0, 0x34], &[0; 8]).unwrap();
    assert_eq!(startup.step(Reading::default(), 0), Ok(Report::Worked { step: 1, used: 0 }));
    assert_eq!(startup.image(), [0x80, 0, 0, 0, 0, 0, 0, 0]);
    let other = Reading { hserdy: true, pllrdy: true, usbhs_pllrdy: true, eth_pllrdy: true, sws: 3, sckmod: 2, ..Reading::default() };
    assert_eq!(startup.step(other, 10), Ok(Report::Waiting { step: 2, used: 1 }));
    // HSION; HSERDY, PLLRDY, USBHS_PLLRDY, ETH_PLLRDY and SWS as they were read
    assert_eq!(startup.image(), [0x80, 0xfc, 0, 0, 0, 0, 0, 0]);
    let mut again = Startup::from_bytes(startup.bytes());
    let ready = Reading { hsirdy: true, ..Reading::default() };
    assert_eq!(again.step(ready, 13), Ok(Report::Worked { step: 2, used: 2 }));
    assert_eq!((again.ticks(2), again.longest_wait()), (3, 3));
    assert_eq!(FlashKey::at(1), Ok(FlashKey { register: KeyRegister::Keyr, key: 0xCDEF_89AB }));
    assert_eq!(FlashKey::at(2), Ok(FlashKey { register: KeyRegister::ModeKeyr, key: 0x4567_0123 }));
    assert_eq!(FlashKey::at(4), Err(Refusal::CodeNotAllowed));
}

// How startups end. Waits 2, 4, 7 and 27 take one reading each, and so does step 21.
fn ends() {
    let started = || Startup::start(&[0, 0, 0, 0, 0, 0x18, 0, 0, 0, 0x34], &[0; 8]).unwrap();
    let good = Reading { hsirdy: true, ..Reading::default() };
    let until_over = |startup: &mut Startup, reading| {
        for _ in 0..4_000_020 {
            match startup.step(reading, 0).unwrap() {
                Report::Worked { .. } | Report::Waiting { .. } => {}
                report => return report,
            }
        }
        panic!("not over within the bound of the calls")
    };
    let mut startup = started();
    let failed = Report::Failed { refusal: Refusal::WaitFailed, step: 2, used: 1_000_000 };
    assert_eq!(until_over(&mut startup, Reading::default()), failed);
    stays_over(startup, failed);
    let other_mode = Reading { sckmod: 1, ..good };
    let mut startup = started();
    let failed = Report::Failed { refusal: Refusal::FlashModeDiffers, step: 21, used: 4 };
    assert_eq!(until_over(&mut startup, other_mode), failed);
    stays_over(startup, failed);
    let mut startup = Startup::from_bytes(before_28(&[0, 0, 0, 0, 0, 0x18, 0, 0, 0, 0x34], 0, 0));
    let place = startup.bytes();
    assert_eq!(startup.step(good, 0), Ok(Report::Running { step: 28, used: 5 }));
    stays_over(startup, Report::Running { step: 28, used: 5 });
    let mut place = place;
    place[PLACE_STEP] = 0;
    let mut startup = Startup::from_bytes(place);
    assert_eq!(startup.step(good, 0), Err(Refusal::CodeNotAllowed));
    assert_eq!(startup.bytes(), place);
}

// Over: a call changes no byte and gives the last report again, also where the bytes that it doesn't look at are damaged.
fn stays_over(startup: Startup, report: Report) {
    let mut damaged = startup.bytes();
    damaged[PLACE_REPORT..PLACE_FIRST_TICK].fill(0xee);
    for place in [startup.bytes(), damaged] {
        let mut startup = Startup::from_bytes(place);
        for tick in [0, 5, u32::MAX] {
            assert_eq!(startup.step(Reading { hsirdy: true, ..Reading::default() }, tick), Ok(report));
            assert_eq!(startup.bytes(), place);
        }
    }
}

// A startup before step 28, of a configuration with at most the main PLL: each reading meets its wait.
fn before_28(profile: &[u8; PROFILE_SIZE], sys: u8, sckmod: u8) -> [u8; PLACE_SIZE] {
    let mut startup = Startup::start(profile, &[0; IMAGE_SIZE]).unwrap();
    for _ in 0..28 {
        let step = startup.bytes()[PLACE_STEP];
        if step == 28 {
            break;
        }
        let sws = if step == 27 { sys } else { 0 };
        startup.step(Reading { hsirdy: true, pllrdy: step == 18, sws, sckmod, ..Reading::default() }, 0).unwrap();
    }
    startup.bytes()
}

// Step 28 with fields that don't hold what was written: one clock alone is another than the check promised.
fn differs() {
    let changed = |place: [u8; PLACE_SIZE], codes: &[(usize, u8)]| {
        let mut place = place;
        let mut fields = read_image(&place[PLACE_IMAGE..PLACE_IMAGE + IMAGE_SIZE]).unwrap();
        for (field, code) in codes {
            fields[*field] = *code;
        }
        place[PLACE_IMAGE..PLACE_IMAGE + IMAGE_SIZE].copy_from_slice(&write_image(&fields).unwrap());
        let mut startup = Startup::from_bytes(place);
        let report = startup.step(Reading::default(), 9);
        // where the clocks differ, the startup stays as it was, and says so again
        if report.is_err() {
            assert_eq!(startup.bytes(), place);
            assert_eq!(startup.step(Reading::default(), 10), report);
        }
        report
    };
    let differ = Err(Refusal::ClocksDiffer);
    // Row A11: PCLK1, then PCLK2, 10 MHz, the timer 20 as before. HPRE 7 divides by 1 too. SWS 3 can't be decoded.
    let a11 = before_28(&[0, 0, 0, 0, 0, 0x18, 0, 0, 0, 0x34], 0, 0);
    assert_eq!(changed(a11, &[(IMAGE_PPRE1, 4)]), differ);
    assert_eq!(changed(a11, &[(IMAGE_PPRE2, 4)]), differ);
    assert_eq!(changed(a11, &[(IMAGE_HPRE, 7)]), Ok(Report::Running { step: 28, used: 5 }));
    assert_eq!(changed(a11, &[(IMAGE_SWS, 3)]), differ);
    // Row A5 with both buses by 4: SYSCLK 400 MHz by 2 again; then HCLK 100 MHz, and the buses by 2.
    let a5 = before_28(&[0, 0, 0, 0, 0x26, 0x98, 0x80, 0x5a, 0, 0x34], 2, 1);
    assert_eq!(changed(a5, &[]), Ok(Report::Running { step: 28, used: 6 }));
    assert_eq!(changed(a5, &[(IMAGE_SYSPLLDIV, 0), (IMAGE_HPRE, 8)]), differ);
    assert_eq!(changed(a5, &[(IMAGE_HPRE, 8), (IMAGE_PPRE1, 4), (IMAGE_PPRE2, 4)]), differ);
    // Damaged bytes: no phase, a profile without a name, an image's filling. They stay.
    let damaged = |at: usize, byte: u8, refusal| {
        let mut place = a11;
        place[at] = byte;
        let mut startup = Startup::from_bytes(place);
        assert_eq!(startup.step(Reading::default(), 9), Err(refusal));
        assert_eq!(startup.bytes(), place);
    };
    damaged(PLACE_PHASE, 7, Refusal::CodeNotAllowed);
    damaged(9, 0x35, Refusal::ProfileCode);
    damaged(17, 1, Refusal::ImageLengthOrFilling);
}

// The profile with every part of docs/FORMATS.md. Each wait has so many unmet readings, and the counter goes 1,000 on with each call, 1,000 ticks for each
// of them. It begins at 2^32 - 30,000. Step 10's first reading is call 25 (before it 1 + 5 + 1 + 6 + 1 + 1 + 7 + 1 + 1 for the steps 1 to 9), at 2^32 - 6,000,
// and the met one is call 35, at 4,000: 10,000 ticks.
fn waits() {
    let every_part = [0xc0, 0x5f, 0x5e, 0x10, 0x2d, 0x98, 0xcc, 0x58, 0xc1, 0x34];
    assert_eq!(waits_owed(&every_part), Ok(8));
    let mut startup = Startup::start(&every_part, &[0; IMAGE_SIZE]).unwrap();
    let mut tick = 0u32.wrapping_sub(30_000);
    let mut unmet = [4, 5, 6, 10, 1, 2, 3, 7];
    let mut report = Report::Worked { step: 0, used: 0 };
    while let Report::Worked { .. } | Report::Waiting { .. } = report {
        let step = startup.bytes()[PLACE_STEP];
        let wait = WAITS.iter().position(|wait| *wait == step);
        let meets = wait.map_or(true, |wait| unmet[wait] == 0);
        if let Some(wait) = wait {
            unmet[wait] -= i32::from(!meets);
        }
        let at = |wait| meets && step == wait;
        let reading = Reading {
            hsirdy: at(2),
            hserdy: at(10) || step == 7 && !meets,
            eth_pllrdy: at(12),
            usbhs_pllrdy: at(15),
            pllrdy: at(18),
            sws: if at(27) { 2 } else { u8::from(step == 4 && !meets) },
            sckmod: 0,
        };
        report = startup.step(reading, tick).unwrap();
        tick = tick.wrapping_add(1_000);
    }
    // 38 unmet readings, the eight that meet a wait, and step 21's
    assert_eq!(report, Report::Running { step: 28, used: 47 });
    assert_eq!([2, 4, 7, 10, 12, 15, 18, 27].map(|step| startup.ticks(step)), [4_000, 5_000, 6_000, 10_000, 1_000, 2_000, 3_000, 7_000]);
    assert_eq!(WAITS, [2, 4, 7, 10, 12, 15, 18, 27]);
    assert_eq!(startup.longest_wait(), 10_000);
    // steps without a wait
    assert!((0..=u8::MAX).filter(|step| !WAITS.contains(step)).all(|step| startup.ticks(step) == 0));
    assert_eq!(Startup::start(&every_part, &[0; IMAGE_SIZE]).unwrap().longest_wait(), 0);
}

// Step 2's readings at these ticks, the last of them met: how many ticks the wait took.
fn odd_ticks() {
    let lists: [(&[u32], u32); 6] = [
        (&[0xffff_fff0, 0x10], 32),
        (&[0x1234_5678], 0),
        (&[1, 0], 0xffff_ffff),
        (&[0xffff_ffff, 0], 1),
        (&[1_000, 3_000_000_000, 500, 1_007], 7),
        (&[5, 4_000_000_000, 3, 999, 105], 100),
    ];
    for (at, ticks) in lists {
        let mut startup = Startup::start(&[0, 0, 0, 0, 0, 0x18, 0, 0, 0, 0x34], &[0; 8]).unwrap();
        startup.step(Reading::default(), 77).unwrap();
        for (n, tick) in at.iter().enumerate() {
            assert_eq!((startup.ticks(2), startup.longest_wait()), (0, 0));
            startup.step(Reading { hsirdy: n + 1 == at.len(), ..Reading::default() }, *tick).unwrap();
        }
        assert_eq!((startup.ticks(2), startup.longest_wait()), (ticks, ticks));
    }
}

// A chip whose flash takes SCKMOD only while it is unlocked: by the keys in their order, until LOCK is written.
// The main PLL is ready at the third reading since it is on. The counter is half of the readings, and begins 6 before its end.
struct Locked {
    fields: [u8; IMAGE_FIELDS],
    sckmod: u8,
    keys: u8,
    readings: u32,
    on: u32,
}

impl Chip for Locked {
    fn write(&mut self, image: [u8; IMAGE_SIZE]) {
        self.fields = read_image(&image).unwrap();
        if self.keys == 4 {
            self.sckmod = self.fields[IMAGE_SCKMOD];
        }
        if self.fields[IMAGE_LOCK] == 1 {
            self.keys = 0;
        }
    }

    fn write_key(&mut self, key: FlashKey) {
        assert_eq!(FlashKey::at(self.keys), Ok(key));
        self.keys += 1;
    }

    fn read(&mut self) -> Reading {
        let f = self.fields;
        self.readings += 1;
        self.on += u32::from(f[IMAGE_PLLON]);
        Reading { hsirdy: f[IMAGE_HSION] == 1, pllrdy: self.on >= 3, sws: f[IMAGE_SW], sckmod: self.sckmod, ..Reading::default() }
    }

    fn tick(&mut self) -> u32 {
        (self.readings / 2).wrapping_sub(6)
    }
}

// HSI x 20 by 2 (row A5): above 100 MHz, so SCKMOD is 1; one wait more, 18. The flash is locked before. The keys come after step 19's fields.
// The steps 1 to 7, 16 and 17 take readings 1 to 9; step 18's first is 10, at 10 / 2 - 6, which is the counter's last tick, and the met one 12, at 0.
fn runs() {
    let locked = [0, 0, 0, 0, 0, 0, 0, 0x60];
    let mut chip = Locked { fields: read_image(&locked).unwrap(), sckmod: 0, keys: 0, readings: 0, on: 0 };
    let mut startup = Startup::start(&[0, 0, 0, 0, 0x26, 0x98, 0x80, 0, 0, 0x34], &locked).unwrap();
    assert_eq!(startup.run(&mut chip), Ok(Report::Running { step: 28, used: 8 }));
    assert_eq!((chip.sckmod, chip.keys), (1, 0));
    assert_eq!(WAITS.map(|step| startup.ticks(step)), [0, 0, 0, 0, 0, 0, 1, 0]);
    assert_eq!(startup.longest_wait(), 1);
}

fn families() {
    let hse = Some(Hse { bypass: false, freq: 12_000_000 });
    let hz = NonZeroU32::new(12_000_000);
    let config = v1::Config {
        hse,
        sys: Sysclk::Pll,
        pll_from_hse: true,
        pll: Some(v1::Pll { halved: true, mul: v1::PllMul::Mul9 }),
        apb1_pre: ApbPrescaler::Div2,
        ..v1::Config::default()
    };
    let run = clocks(54_000_000, 54_000_000, 27_000_000, 54_000_000, 54_000_000, 54_000_000);
    assert_eq!(v1::check(v1::Part::V1, &config), Ok(v1::Checked { clocks: run, usb_divisor_x2: None }));
    let fields = v1::init_fields(v1::Part::V1, &config, &[0, 0, 0, 0, 0, 0, 0, 1]).unwrap();
    assert_eq!(fields, [2, 1, 1, 7, 0, 4, 0, 1]);
    assert_eq!(v1::decode(v1::Part::V1, &fields, hz), Ok(run));
    let whole = v1::Config { pll: Some(v1::Pll { halved: false, mul: v1::PllMul::Mul16Or18 }), ..config };
    assert_eq!(v1::check(v1::Part::V1, &whole).map(|x| x.clocks.sysclk), Ok(192_000_000));
    assert_eq!(v1::check(v1::Part::L1, &whole).map(|x| x.clocks.sysclk), Ok(216_000_000));
    // AHB code 12: 54 MHz by 64
    let slow = v1::Config { ahb_pre: v1::AhbPrescaler::Div64, ..config };
    let slow_fields = v1::init_fields(v1::Part::V1, &slow, &[0; V1_FIELDS_SIZE]).unwrap();
    assert_eq!(slow_fields[V1_FIELDS_HPRE], 12);
    for part in [v1::Part::V1, v1::Part::L1] {
        assert_eq!(v1::check(part, &slow).map(|x| x.clocks.hclk), Ok(843_750));
        assert_eq!(v1::decode(part, &slow_fields, hz).map(|x| x.hclk), Ok(843_750));
    }
    // 12 MHz x 6 is 72 MHz, by 1.5
    let usb = v1::Config { pll: Some(v1::Pll { halved: false, mul: v1::PllMul::Mul6 }), ..config };
    assert_eq!(v1::check(v1::Part::V1, &usb).map(|x| x.usb_divisor_x2), Ok(Some(3)));

    let config = v30x::Config {
        hse,
        sys: Sysclk::Pll,
        pll_src: v30x::PllSource::Hse,
        pll: Some(v30x::Pll { prediv: v30x::PllPreDiv::Div2, mul: v30x::PllMul::Mul18 }),
        ahb_pre: v30x::AhbPrescaler::Div2,
        apb2_pre: ApbPrescaler::Div2,
        hspll_from_hse: true,
        hspll: Some(v30x::HsPllPrescaler::Div3),
        ..v30x::Config::default()
    };
    let run = clocks(108_000_000, 54_000_000, 54_000_000, 27_000_000, 54_000_000, 54_000_000);
    assert_eq!(v30x::check(&config), Ok(v30x::Checked { clocks: run, usb_divisor_x2: None }));
    let fields = v30x::init_fields(&config, &[0; V30X_FIELDS_SIZE]).unwrap();
    assert_eq!(fields, [2, 1, 1, 0, 0, 8, 0, 4, 0]);
    assert_eq!(v30x::decode(&fields, hz), Ok(run));
    assert_eq!(v30x::check(&v30x::Config { pllx: true, ..config }), Err(Refusal::Pll2OrPll3));
    // AHB code 15: 108 MHz by 512
    let slow = v30x::Config { ahb_pre: v30x::AhbPrescaler::Div512, ..config };
    let slow_fields = v30x::init_fields(&slow, &[0; V30X_FIELDS_SIZE]).unwrap();
    assert_eq!(slow_fields[V30X_FIELDS_HPRE], 15);
    assert_eq!(v30x::check(&slow).map(|x| x.clocks.hclk), Ok(210_937));
    assert_eq!(v30x::decode(&slow_fields, hz).map(|x| x.hclk), Ok(210_937));
    let whole = v30x::Config { pll: Some(v30x::Pll { prediv: v30x::PllPreDiv::Div1, mul: v30x::PllMul::Mul12 }), ..config };
    assert_eq!(v30x::check(&whole).map(|x| x.usb_divisor_x2), Ok(Some(6)));

    let codes = h4::Prescale { hpre: 8, fpre: 2, ppre1: 4, ppre2: 5 };
    let run = clocks(400_000_000, 50_000_000, 25_000_000, 12_500_000, 25_000_000, 12_500_000);
    assert_eq!(h4::clocks_from_sysclk(400_000_000, codes), Ok((run, 200_000_000)));
    assert_eq!(h4::ahb_from_sysclk(400_000_000, 12), Ok(6_250_000));
    assert_eq!(h4::hclk_from_ahb(400_000_000, 7), Ok(100_000_000));
    assert_eq!(h4::pclk_from_hclk(100_000_000, 6), Ok((12_500_000, 12_500_000)));
    assert_eq!(h4::pll_mul_x2(4), Ok(17));
}

fn serials() {
    let set = |brr, error| Ok(SerialDivisor { brr, error });
    assert_eq!(serial_divisor(20_000_000, 115_200), set(174, -44_800));
    assert_eq!(serial_divisor(20_000_000, 9_600), set(2_083, 3_200));
    assert_eq!(serial_divisor(72_000_000, 9_600), set(7_500, 0));
    assert_eq!(serial_divisor(31_000_000, 2_000_000), set(16, -1_000_000));
    assert_eq!(serial_divisor(30_999_999, 2_000_000), Err(Refusal::BrrOutOfRange));
    assert_eq!(serial_divisor(4_294_967_295, 65_537), set(65_535, 0));
    assert_eq!(serial_divisor(19_660_650, 300), Err(Refusal::BrrOutOfRange));
    assert_eq!(serial_divisor(0, 0), Err(Refusal::RateZero));
    assert_eq!((Refusal::RateZero.number(), Refusal::BrrOutOfRange.number()), (33, 34));
    assert_eq!((Refusal::from_number(34), Refusal::from_number(35)), (Some(Refusal::BrrOutOfRange), None));
}

// The boards of tests/boards.h: the number of each, and its profile.
fn listed() -> Vec<(u8, Vec<u8>)> {
    let lines = include_str!("boards.h").lines().filter_map(|line| line.strip_prefix("BOARD(")?.strip_suffix(')'));
    let board = |line: &str| {
        let mut words = line.split(", ");
        let number = words.next().unwrap().parse().unwrap();
        (number, words.map(|word| u8::from_str_radix(&word[2..], 16).unwrap()).collect())
    };
    lines.map(board).collect()
}

fn trays() {
    // HSI, AHB by 2, APB1 by 4, APB2 by 16, the ADC by 8; row A2; row A11
    let profiles = [
        [0, 0, 0, 0, 0, 0x18, 0x04, 0x5e, 0, 0x34],
        [0x80, 0x13, 0x12, 0xcf, 0xc0, 0x18, 0, 0, 0, 0x34],
        [0, 0, 0, 0, 0, 0x18, 0, 0, 0, 0x34],
    ];
    // Room for two boards more than there are: what lies beyond the records is not given back, and stays.
    let mut lent = [0xee; 5 * BOARD_SIZE];
    let records = tray(&profiles.concat(), &mut lent).unwrap();
    assert_eq!(records.len(), 3 * BOARD_SIZE);
    let divided = Checked { clocks: clocks(20_000_000, 10_000_000, 2_500_000, 625_000, 5_000_000, 1_250_000), adc: 78_125 };
    let a11 = Checked { clocks: clocks(20_000_000, 20_000_000, 20_000_000, 20_000_000, 20_000_000, 20_000_000), adc: 2_500_000 };
    assert_eq!(boards(records).collect::<Vec<_>>(), [Ok(divided), Err(Refusal::HseOutOfRange), Ok(a11)]);
    assert_eq!(lent[3 * BOARD_SIZE..], [0xee; 2 * BOARD_SIZE]);
    // numbers that no tray writes: 16,843,009 and 35; and a record that is cut off
    assert_eq!(boards(&[1; BOARD_SIZE]).next(), Some(Err(Refusal::CodeNotAllowed)));
    let mut record = [0; BOARD_SIZE];
    record[3] = 35;
    assert_eq!(boards(&record).next(), Some(Err(Refusal::CodeNotAllowed)));
    assert_eq!(boards(&[0; 2 * BOARD_SIZE - 1]).count(), 1);

    assert_eq!(tray(&[], &mut []), Ok(&[][..]));
    assert_eq!(tray(&[], &mut record), Ok(&[][..]));
    let mut lent = [0xee; BOARD_SIZE];
    assert_eq!(tray(&profiles.concat()[..19], &mut lent[..31]), Err(Refusal::OutputTooShort));
    assert_eq!(tray(&profiles.concat()[..19], &mut lent), Err(Refusal::ProfileLength));
    assert_eq!(lent, [0xee; BOARD_SIZE]);

    let listed = listed();
    let many: Vec<_> = listed.iter().cycle().take(1_000).collect();
    let mut lent = vec![0xee; 1_000 * BOARD_SIZE];
    let records = tray(&many.iter().flat_map(|board| board.1.clone()).collect::<Vec<_>>(), &mut lent).unwrap();
    assert!(boards(records).eq(many.iter().map(|board| check(&board.1))));
    assert!(many.iter().all(|board| check(&board.1).err() == Refusal::from_number(board.0)));
    assert_eq!((listed.len(), boards(records).count()), (22, 1_000));
}

fn main() {
    profiles();
    images();
    startups();
    ends();
    differs();
    waits();
    odd_ticks();
    runs();
    families();
    serials();
    trays();
    println!("calls: every wrapper of the Rust crate is right");
}
