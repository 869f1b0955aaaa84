//! A peer that is meant to be fast: the reading and the check of a profile, and a bit reader, in safe Rust, unproved.
//! It was written from document 01 and the Rust's names for codes, apart from our library.

/// A refusal's number, as wide as a frequency: a `Result` of both then stays in two registers.
type Number = u32;

const HSI: u32 = 20_000_000;
const USBHS: u32 = 480_000_000;
const ADC_LIMIT: u32 = 30_000_000;

/// The sources 0 to 3 of SYSPLL: USBHS, ETH, two thirds of USBHS, two thirds of ETH.
const SYSPLL_INPUTS: [u32; 4] = [USBHS, 500_000_000, 320_000_000, 333_333_333];
/// The source that is the main PLL.
const MAIN_PLL: u64 = 6;

const DOUBLED_MULTIPLIERS: [u8; 32] = [
    16, 18, 20, 22, 24, 25, 26, 27, 28, 29, 30, 31, 32, 33, 34, 35, 36, 37, 38, 39, 40, 42, 44, 48, 52, 56, 60, 64, 68,
    72, 76, 80,
];

/// The divisors as shifts, by the AHB's code. An APB's code divides as the AHB's code that is 4 higher.
const SHIFTS: [u8; 16] = [0, 0, 0, 0, 0, 0, 0, 0, 1, 2, 3, 4, 6, 7, 8, 9];

/// A field in the last 64 of the profile's 80 bits.
#[derive(Clone, Copy)]
struct Field {
    /// The bits behind it.
    low: u32,
    /// Its highest number.
    ones: u64,
}

const fn field(place: u32, width: u32) -> Field {
    Field {
        low: 80 - place - width,
        ones: (1 << width) - 1,
    }
}

impl Field {
    const fn all(self) -> u64 {
        self.ones << self.low
    }

    const fn first_bit(self) -> u64 {
        self.all() - self.other_bits()
    }

    const fn other_bits(self) -> u64 {
        (self.ones >> 1) << self.low
    }
}

const SYSTEM_CLOCK: Field = field(34, 2);
const PLL_SOURCE: Field = field(36, 1);
const PLL_PRESENT: Field = field(37, 1);
const MULTIPLIER: Field = field(38, 5);
const SYSPLL_SOURCE: Field = field(43, 3);
const SYSPLL_DIVISOR: Field = field(46, 3);
const USBHS_PRESENT: Field = field(49, 1);
const USBHS_SOURCE: Field = field(50, 2);
const ETH_PLL: Field = field(52, 1);
const AHB: Field = field(53, 4);
const APB1: Field = field(57, 3);
const APB2: Field = field(60, 3);
const RNG: Field = field(63, 2);
const ADC_FROM_USBHS: Field = field(65, 1);
const ADC_DIVISOR: Field = field(66, 8);
const ADC_PRESCALER: Field = field(74, 2);
const DUTY: Field = field(76, 2);
const FILLING: Field = field(78, 2);

/// A leader stands just above its followers. Where it is clear they must be: a part's presence bit above the part's field, the first bit of a code above
/// its others.
const LEADERS: u64 = PLL_PRESENT.all()
    | SYSPLL_SOURCE.first_bit()
    | USBHS_PRESENT.all()
    | AHB.first_bit()
    | APB1.first_bit()
    | APB2.first_bit()
    | ADC_FROM_USBHS.all();
const FOLLOWERS: u64 = MULTIPLIER.all()
    | SYSPLL_SOURCE.other_bits()
    | USBHS_SOURCE.all()
    | AHB.other_bits()
    | APB1.other_bits()
    | APB2.other_bits()
    | ADC_DIVISOR.all();
/// SYSPLL's source obeys that rule with these bits turned over: of 0 to 3 and 6 they make 6, 7, 4, 5 and 0.
const TURNED: u64 = MAIN_PLL << SYSPLL_SOURCE.low;
/// The codes of two bits of which 3 has no name.
const NO_THREES: u64 = SYSTEM_CLOCK.first_bit() | USBHS_SOURCE.first_bit() | RNG.first_bit() | DUTY.first_bit();

#[derive(Clone, Copy)]
struct Profile {
    /// The first 34 bits: HSE present, bypass, frequency.
    hse: u64,
    /// The last 64 bits, with all other fields.
    rest: u64,
}

/// Eight bytes as a number, the first byte the highest.
fn word(eight: &[u8]) -> u64 {
    let mut bytes = [0; 8];
    bytes.copy_from_slice(eight);
    u64::from_be_bytes(bytes)
}

impl Profile {
    #[inline(always)]
    fn read(bytes: &[u8]) -> Result<Profile, Number> {
        if bytes.len() != 10 {
            return Err(29);
        }
        let profile = Profile {
            hse: word(&bytes[..8]) >> 30,
            rest: word(&bytes[2..]),
        };
        if profile.is_allowed() {
            Ok(profile)
        } else {
            Err(30)
        }
    }

    fn is_allowed(self) -> bool {
        let turned = self.rest ^ TURNED;
        // A follower that is set makes the sum carry into its leader's place.
        let unled = ((turned & FOLLOWERS) + FOLLOWERS) & !turned & LEADERS;
        let threes = self.rest & (self.rest << 1) & NO_THREES;
        let wrong = unled | threes | (self.rest & FILLING.all());
        wrong == 0 && (self.hse == 0 || self.hse_present())
    }

    fn hse_present(self) -> bool {
        self.hse >> 33 != 0
    }

    fn code(self, field: Field) -> usize {
        (self.rest >> field.low & field.ones) as usize
    }

    fn has(self, field: Field) -> bool {
        self.rest & field.all() != 0
    }

    /// One a byte, the filling last, which is zero in what was read.
    fn fields(self) -> [u8; 24] {
        let frequency = (self.hse as u32).to_be_bytes();
        let byte = |field| self.code(field) as u8;
        [
            (self.hse >> 33) as u8,
            (self.hse >> 32 & 1) as u8,
            frequency[0],
            frequency[1],
            frequency[2],
            frequency[3],
            byte(SYSTEM_CLOCK),
            byte(PLL_SOURCE),
            byte(PLL_PRESENT),
            byte(MULTIPLIER),
            byte(SYSPLL_SOURCE),
            byte(SYSPLL_DIVISOR),
            byte(USBHS_PRESENT),
            byte(USBHS_SOURCE),
            byte(ETH_PLL),
            byte(AHB),
            byte(APB1),
            byte(APB2),
            byte(RNG),
            byte(ADC_FROM_USBHS),
            byte(ADC_DIVISOR),
            byte(ADC_PRESCALER),
            byte(DUTY),
            0,
        ]
    }
}

/// The check, in document 01's order. A clock that is absent has frequency 0: no other has.
impl Profile {
    #[inline(always)]
    fn check(self) -> Result<[u32; 7], Number> {
        self.check_rng()?;
        let hse = self.check_hse()?;
        let main_pll = self.check_main_pll(hse)?;
        self.check_eth_pll(hse)?;
        self.check_usbhs_pll(hse)?;
        let sysclk = self.check_sysclk(hse, main_pll)?;
        let ahb = SHIFTS[self.code(AHB)];
        let hclk = sysclk >> ahb;
        if hclk > 200_000_000 {
            return Err(12);
        }
        let apb2 = self.apb_shift(APB2);
        let pclk2 = hclk >> apb2;
        let adc = self.check_adc(sysclk, ahb, apb2, pclk2)?;
        let pclk1 = hclk >> self.apb_shift(APB1);
        let (timer1, timer2) = (self.timer(pclk1, APB1), self.timer(pclk2, APB2));
        Ok([sysclk, hclk, pclk1, pclk2, timer1, timer2, adc])
    }

    #[inline(always)]
    fn check_rng(self) -> Result<(), Number> {
        if !self.has(RNG) {
            return Ok(());
        }
        match self.code(RNG) {
            1 if !self.has(USBHS_PRESENT) => Err(1),
            2 if !self.has(ETH_PLL) => Err(2),
            _ => Ok(()),
        }
    }

    #[inline(always)]
    fn check_hse(self) -> Result<u32, Number> {
        let frequency = self.hse as u32;
        if self.hse_present() && !(5_000_000..=32_000_000).contains(&frequency) {
            return Err(4);
        }
        Ok(frequency)
    }

    #[inline(always)]
    fn check_main_pll(self, hse: u32) -> Result<u32, Number> {
        if !self.has(PLL_PRESENT) {
            return Ok(0);
        }
        let input = if self.has(PLL_SOURCE) { needed(hse)? } else { HSI };
        // At most 32 MHz x 80, for which 32 bits are enough.
        let output = input * u32::from(DOUBLED_MULTIPLIERS[self.code(MULTIPLIER)]) / 2;
        if !(100_000_000..=400_000_000).contains(&output) {
            return Err(5);
        }
        Ok(output)
    }

    #[inline(always)]
    fn check_eth_pll(self, hse: u32) -> Result<(), Number> {
        if self.has(ETH_PLL) && needed(hse)? != 25_000_000 {
            return Err(6);
        }
        Ok(())
    }

    #[inline(always)]
    fn check_usbhs_pll(self, hse: u32) -> Result<(), Number> {
        if !self.has(USBHS_PRESENT) {
            return Ok(());
        }
        match self.code(USBHS_SOURCE) {
            0 => match needed(hse)? {
                20_000_000 | 24_000_000 | 25_000_000 | 32_000_000 => Ok(()),
                _ => Err(8),
            },
            2 if !self.has(ETH_PLL) => Err(7),
            // HSI, or the ETH PLL's 20 MHz.
            _ => Ok(()),
        }
    }

    #[inline(always)]
    fn check_sysclk(self, hse: u32, main_pll: u32) -> Result<u32, Number> {
        match self.code(SYSTEM_CLOCK) {
            0 => Ok(HSI),
            1 => needed(hse),
            _ => Ok(self.syspll_input(main_pll)? / (self.code(SYSPLL_DIVISOR) as u32 + 1)),
        }
    }

    #[inline(always)]
    fn syspll_input(self, main_pll: u32) -> Result<u32, Number> {
        // Above 3 the reader takes the main PLL alone.
        if self.rest & SYSPLL_SOURCE.first_bit() != 0 {
            return if main_pll != 0 { Ok(main_pll) } else { Err(9) };
        }
        let source = self.code(SYSPLL_SOURCE) % 4;
        match source % 2 {
            0 if !self.has(USBHS_PRESENT) => Err(10),
            1 if !self.has(ETH_PLL) => Err(11),
            _ => Ok(SYSPLL_INPUTS[source]),
        }
    }

    /// Dividing in steps, as PCLK2 is divided, rounds as dividing once does.
    #[inline(always)]
    fn check_adc(self, sysclk: u32, ahb: u8, apb2: u8, pclk2: u32) -> Result<u32, Number> {
        let prescaler = 2 * (self.code(ADC_PRESCALER) as u32 + 1);
        if self.has(ADC_FROM_USBHS) {
            return self.check_adc_on_usbhs(prescaler, apb2);
        }
        let limit = ADC_LIMIT * prescaler;
        // The second test is the document's. The first is cheaper, and most profiles need no more.
        if pclk2 >= limit && u64::from(sysclk) > u64::from(limit) << (ahb + apb2) {
            return Err(15);
        }
        match pclk2 / prescaler {
            0 => Err(16),
            adc => Ok(adc),
        }
    }

    /// The divisor is at most 32 x 16 x 8, so that 16 can't come.
    #[inline(always)]
    fn check_adc_on_usbhs(self, prescaler: u32, apb2: u8) -> Result<u32, Number> {
        if !self.has(USBHS_PRESENT) {
            return Err(13);
        }
        let divisor = self.code(ADC_DIVISOR) as u32;
        if !(1..=32).contains(&divisor) {
            return Err(14);
        }
        let total = (divisor * prescaler) << apb2;
        // 480 MHz is a multiple of the limit.
        if total < USBHS / ADC_LIMIT {
            return Err(15);
        }
        Ok(USBHS / total)
    }

    fn apb_shift(self, apb: Field) -> u8 {
        SHIFTS[self.code(apb) + 4]
    }

    /// Timers run twice as fast as a bus that is divided.
    fn timer(self, pclk: u32, apb: Field) -> u32 {
        pclk << u32::from(self.has(apb))
    }
}

fn needed(hse: u32) -> Result<u32, Number> {
    if hse != 0 {
        Ok(hse)
    } else {
        Err(3)
    }
}

/// The same as `wontabeli_check`: 0 and the seven frequencies, or the refusal; a refusal leaves `out` as it was.
#[no_mangle]
#[inline(never)]
pub fn fast_check(profile: &[u8], out: &mut [u32]) -> u8 {
    if out.len() < 7 {
        return 32;
    }
    match Profile::read(profile).and_then(Profile::check) {
        Ok(frequencies) => {
            out[..7].copy_from_slice(&frequencies);
            0
        }
        Err(number) => number as u8,
    }
}

/// The same as `wontabeli_read_profile`: 0 and the 24 fields, one a byte, the filling last, or the refusal; a refusal leaves `out` as it was.
/// HSE's frequency is four of these bytes.
#[no_mangle]
#[inline(never)]
pub fn fast_read_profile(profile: &[u8], out: &mut [u8]) -> u8 {
    if out.len() < 24 {
        return 32;
    }
    match Profile::read(profile) {
        Ok(profile) => {
            out[..24].copy_from_slice(&profile.fields());
            0
        }
        Err(number) => number as u8,
    }
}

/// The number that up to 64 bits from place `at` on spell: places past the end are 0, and a count above 64 reads 64 bits.
#[no_mangle]
#[inline(never)]
pub fn fast_bits(s: &[u8], at: usize, count: usize) -> u64 {
    let (from, skipped) = (at / 8, at % 8);
    let count = count.min(64);
    if count == 0 {
        return 0;
    }
    let mut bits = eight_bytes(s, from) << skipped;
    if skipped + count > 64 {
        let ninth = s.get(from + 8).copied().unwrap_or(0);
        bits |= u64::from(ninth) >> (8 - skipped);
    }
    bits >> (64 - count)
}

/// Eight bytes from a place on as a number, zeros past the end.
fn eight_bytes(s: &[u8], from: usize) -> u64 {
    if let Some(eight) = s.get(from..from + 8) {
        return word(eight);
    }
    if from >= s.len() {
        return 0;
    }
    // The bytes up to the end, moved up: those before the place fall out.
    let last = match s.len().checked_sub(8) {
        Some(start) => word(&s[start..]),
        None => s.iter().fold(0, |number, byte| number << 8 | u64::from(*byte)),
    };
    last << (8 * (from + 8 - s.len()))
}
