// Made by include/numbers; change what it reads and run it again.
//! Sizes, places in records, and values of the bytes of a startup: those of include/wontabeli_numbers.h.

// The clocks, by their place in what a check or a decoder gives; MORE is the number after them.
pub const SYSCLK: usize = 0;
pub const HCLK: usize = 1;
pub const PCLK1: usize = 2;
pub const PCLK2: usize = 3;
pub const PCLK1_TIM: usize = 4;
pub const PCLK2_TIM: usize = 5;
pub const MORE: usize = 6;

// The numbers of crates/capi_give.
/// The six clocks, in words.
pub const CLOCKS_WORDS: usize = 6;
/// The six clocks and one more number, in words.
pub const CHECK_WORDS: usize = 7;
/// Two numbers, in words.
pub const PAIR_WORDS: usize = 2;

// The numbers of crates/capi.
/// The register of the first two keys, KEYR.
pub const KEYR: u32 = 0;
/// The register of the other two, MODEKEYR.
pub const MODEKEYR: u32 = 1;

// The numbers of crates/capi_codec.
/// A profile, in bytes.
pub const PROFILE_SIZE: usize = 10;
/// The fields of a profile, in bytes, one a field; HSE's frequency is four, and the filling the last.
pub const PROFILE_FIELDS: usize = 24;
/// An image, in bytes.
pub const IMAGE_SIZE: usize = 8;
/// The fields of an image, in bytes, one a field; the filling is the last.
pub const IMAGE_FIELDS: usize = 34;

// The numbers of crates/capi_startup.
/// A place's bytes. Its first ten are the profile.
pub const PLACE_SIZE: usize = 72;
/// The image, eight bytes: after a call the host writes its fields to the chip, but for the ready bits and SWS.
pub const PLACE_IMAGE: usize = 10;
/// The step whose turn it is.
pub const PLACE_STEP: usize = 18;
/// The unmet readings of its wait, four bytes.
pub const PLACE_UNMET: usize = 19;
/// All readings used, four bytes.
pub const PLACE_USED: usize = 23;
/// Whether the startup is over: PHASE_GOING, PHASE_RUNNING, or the refusal that ended it (21 or 22).
pub const PLACE_PHASE: usize = 27;
/// What the last call that changed the place reports: a REPORT_ number.
pub const PLACE_REPORT: usize = 28;
/// That call's refusal: 0, 21 or 22.
pub const PLACE_NUMBER: usize = 29;
/// The step that it names; 0 before the first call.
pub const PLACE_NAMED: usize = 30;
/// The tick of the first reading of the wait whose turn it is, four bytes; it counts where PLACE_UNMET is not 0.
pub const PLACE_FIRST_TICK: usize = 32;
/// The ticks of the eight waits (steps 2, 4, 7, 10, 12, 15, 18 and 27), four bytes each.
pub const PLACE_TICKS: usize = 36;
/// The longest of them, four bytes.
pub const PLACE_LONGEST: usize = 68;
/// In byte PLACE_PHASE: not over, call again.
pub const PHASE_GOING: u8 = 0;
/// In byte PLACE_PHASE: over, and the clocks run as the check promised.
pub const PHASE_RUNNING: u8 = 1;
/// In byte PLACE_REPORT: the step is worked; at 19 the host writes the keys.
pub const REPORT_WORKED: u8 = 0;
/// In byte PLACE_REPORT: the reading did not meet the step's wait.
pub const REPORT_WAITING: u8 = 1;
/// In byte PLACE_REPORT: over, and the clocks run as the check promised.
pub const REPORT_RUNNING: u8 = 2;
/// In byte PLACE_REPORT: over, by the refusal in byte PLACE_NUMBER.
pub const REPORT_FAILED: u8 = 3;
/// HSI is ready. A reading is the sum of these.
pub const HSIRDY: u16 = 1;
/// HSE is ready.
pub const HSERDY: u16 = 2;
/// The main PLL is ready.
pub const PLLRDY: u16 = 4;
/// The USBHS PLL is ready.
pub const USBHS_PLLRDY: u16 = 8;
/// The ETH PLL is ready.
pub const ETH_PLLRDY: u16 = 16;
/// SWS, two bits: its value times this.
pub const SWS: u16 = 32;
/// SCKMOD, two bits: its value times this.
pub const SCKMOD: u16 = 128;

// The numbers of crates/capi_v1.
/// The part CH32V1.
pub const V1_PART_V1: u8 = 0;
/// The part CH32L1.
pub const V1_PART_L1: u8 = 1;
/// Bytes of a configuration of CH32V1 or CH32L1.
pub const V1_CONFIG_SIZE: usize = 14;
/// Bytes of register fields of CH32V1 or CH32L1.
pub const V1_FIELDS_SIZE: usize = 8;

// The numbers of crates/capi_v30x.
/// Bytes of a configuration of CH32V30x.
pub const V30X_CONFIG_SIZE: usize = 18;
/// Bytes of register fields of CH32V30x.
pub const V30X_FIELDS_SIZE: usize = 9;

// The numbers of crates/boards.
/// The bytes of a board's record.
pub const BOARD_SIZE: usize = 32;

// The fields of a profile, by their place.
pub const PROFILE_HSE_PRESENT: usize = 0;
pub const PROFILE_HSE_BYPASS: usize = 1;
pub const PROFILE_HSE_FREQUENCY: usize = 2;
pub const PROFILE_SYSTEM_CLOCK: usize = 6;
pub const PROFILE_PLL_SOURCE: usize = 7;
pub const PROFILE_PLL_PRESENT: usize = 8;
pub const PROFILE_MULTIPLIER: usize = 9;
pub const PROFILE_SYSPLL_SOURCE: usize = 10;
pub const PROFILE_SYSPLL_DIVISOR_LESS_ONE: usize = 11;
pub const PROFILE_USBHS_PRESENT: usize = 12;
pub const PROFILE_USBHS_SOURCE: usize = 13;
pub const PROFILE_ETH_PLL: usize = 14;
pub const PROFILE_AHB: usize = 15;
pub const PROFILE_APB1: usize = 16;
pub const PROFILE_APB2: usize = 17;
pub const PROFILE_RNG: usize = 18;
pub const PROFILE_ADC_FROM_USBHS: usize = 19;
pub const PROFILE_ADC_DIVISOR: usize = 20;
pub const PROFILE_ADC_PRESCALER: usize = 21;
pub const PROFILE_DUTY: usize = 22;
pub const PROFILE_FILLING: usize = 23;

// The fields of an image, by their place.
pub const IMAGE_HSION: usize = 0;
pub const IMAGE_HSEBYP: usize = 1;
pub const IMAGE_HSEON: usize = 2;
pub const IMAGE_CSSON: usize = 3;
pub const IMAGE_PLLON: usize = 4;
pub const IMAGE_USBHS_PLLON: usize = 5;
pub const IMAGE_ETH_PLLON: usize = 6;
pub const IMAGE_HSIRDY: usize = 7;
pub const IMAGE_HSERDY: usize = 8;
pub const IMAGE_PLLRDY: usize = 9;
pub const IMAGE_USBHS_PLLRDY: usize = 10;
pub const IMAGE_ETH_PLLRDY: usize = 11;
pub const IMAGE_SWS: usize = 12;
pub const IMAGE_SW: usize = 13;
pub const IMAGE_PLLSRC: usize = 14;
pub const IMAGE_PLLMUL: usize = 15;
pub const IMAGE_HPRE: usize = 16;
pub const IMAGE_PPRE1: usize = 17;
pub const IMAGE_PPRE2: usize = 18;
pub const IMAGE_ADCPRE: usize = 19;
pub const IMAGE_ADCSRC: usize = 20;
pub const IMAGE_ADC_DUTY: usize = 21;
pub const IMAGE_USBHSPLLSRC: usize = 22;
pub const IMAGE_USBHSPLLCLK: usize = 23;
pub const IMAGE_SYSPLLSRC: usize = 24;
pub const IMAGE_SYSPLLDIV: usize = 25;
pub const IMAGE_SYSPLL_GATE: usize = 26;
pub const IMAGE_RNGSRC: usize = 27;
pub const IMAGE_I2SPLLSRC: usize = 28;
pub const IMAGE_ADC_CLKDIV: usize = 29;
pub const IMAGE_SCKMOD: usize = 30;
pub const IMAGE_LOCK: usize = 31;
pub const IMAGE_FLOCK: usize = 32;
pub const IMAGE_FILLING: usize = 33;

// The places in the record V1_CONFIG.
pub const V1_CONFIG_HSE_PRESENT: usize = 0;
pub const V1_CONFIG_HSE_BYPASS: usize = 1;
pub const V1_CONFIG_HSE_FREQUENCY: usize = 2;
pub const V1_CONFIG_SYSTEM_CLOCK: usize = 6;
pub const V1_CONFIG_PLL_FROM_HSE: usize = 7;
pub const V1_CONFIG_PLL_PRESENT: usize = 8;
pub const V1_CONFIG_PLL_HALVED: usize = 9;
pub const V1_CONFIG_MULTIPLIER: usize = 10;
pub const V1_CONFIG_AHB: usize = 11;
pub const V1_CONFIG_APB1: usize = 12;
pub const V1_CONFIG_APB2: usize = 13;

// The places in the record V1_FIELDS.
pub const V1_FIELDS_SWS: usize = 0;
pub const V1_FIELDS_PLLSRC: usize = 1;
pub const V1_FIELDS_PLLXTPRE: usize = 2;
pub const V1_FIELDS_PLLMUL: usize = 3;
pub const V1_FIELDS_HPRE: usize = 4;
pub const V1_FIELDS_PPRE1: usize = 5;
pub const V1_FIELDS_PPRE2: usize = 6;
pub const V1_FIELDS_HSI_PREDIVIDER: usize = 7;

// The places in the record V30X_CONFIG.
pub const V30X_CONFIG_HSE_PRESENT: usize = 0;
pub const V30X_CONFIG_HSE_BYPASS: usize = 1;
pub const V30X_CONFIG_HSE_FREQUENCY: usize = 2;
pub const V30X_CONFIG_SYSTEM_CLOCK: usize = 6;
pub const V30X_CONFIG_PLL_SOURCE: usize = 7;
pub const V30X_CONFIG_PLL_PRESENT: usize = 8;
pub const V30X_CONFIG_PREDIVIDER: usize = 9;
pub const V30X_CONFIG_MULTIPLIER: usize = 10;
pub const V30X_CONFIG_PLLX: usize = 11;
pub const V30X_CONFIG_AHB: usize = 12;
pub const V30X_CONFIG_APB1: usize = 13;
pub const V30X_CONFIG_APB2: usize = 14;
pub const V30X_CONFIG_USBHS_FROM_HSE: usize = 15;
pub const V30X_CONFIG_USBHS_PRESENT: usize = 16;
pub const V30X_CONFIG_USBHS_PRESCALER: usize = 17;

// The places in the record V30X_FIELDS.
pub const V30X_FIELDS_SWS: usize = 0;
pub const V30X_FIELDS_PLLSRC: usize = 1;
pub const V30X_FIELDS_PREDIV1: usize = 2;
pub const V30X_FIELDS_PREDIV1SRC: usize = 3;
pub const V30X_FIELDS_PLLMUL: usize = 4;
pub const V30X_FIELDS_HPRE: usize = 5;
pub const V30X_FIELDS_PPRE1: usize = 6;
pub const V30X_FIELDS_PPRE2: usize = 7;
pub const V30X_FIELDS_HSI_PREDIVIDER: usize = 8;

// The places in the record BOARD.
pub const BOARD_NUMBER: usize = 0;
pub const BOARD_SYSCLK: usize = 4;
pub const BOARD_HCLK: usize = 8;
pub const BOARD_PCLK1: usize = 12;
pub const BOARD_PCLK2: usize = 16;
pub const BOARD_PCLK1_TIM: usize = 20;
pub const BOARD_PCLK2_TIM: usize = 24;
pub const BOARD_ADC: usize = 28;
