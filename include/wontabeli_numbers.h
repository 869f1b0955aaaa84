/* Made by include/numbers; change what it reads and run it again. */
#ifndef WONTABELI_NUMBERS_H
#define WONTABELI_NUMBERS_H

/* The refusals. */
#define WONTABELI_RNG_WITHOUT_USBHS 1 /* RNG from USBHS PLL, and that PLL not configured. */
#define WONTABELI_RNG_WITHOUT_ETH 2 /* RNG from ETH PLL, and that PLL not configured. */
#define WONTABELI_HSE_MISSING 3 /* HSE needed, no frequency. */
#define WONTABELI_HSE_OUT_OF_RANGE 4 /* HSE outside 5,000,000..32,000,000. */
#define WONTABELI_PLL_OUT_OF_RANGE 5 /* Main PLL output outside 100..400 MHz. */
#define WONTABELI_ETH_NEEDS_25_MHZ 6 /* ETH PLL needed, HSE not 25 MHz. */
#define WONTABELI_USBHS_WITHOUT_ETH 7 /* USBHS reference from ETH, no ETH PLL. */
#define WONTABELI_USBHS_REFERENCE 8 /* USBHS reference not an allowed frequency. */
#define WONTABELI_SYSPLL_WITHOUT_PLL 9 /* SYSPLL from main PLL, not configured. */
#define WONTABELI_SYSPLL_WITHOUT_USBHS 10 /* SYSPLL from USBHS PLL, not configured. */
#define WONTABELI_SYSPLL_WITHOUT_ETH 11 /* SYSPLL from ETH PLL, not configured. */
#define WONTABELI_HCLK_TOO_FAST 12 /* HCLK above 200 MHz. */
#define WONTABELI_ADC_WITHOUT_USBHS 13 /* ADC from USBHS PLL, not configured. */
#define WONTABELI_ADC_DIVISOR 14 /* ADC divisor outside 1..32. */
#define WONTABELI_ADC_TOO_FAST 15 /* ADC source > 30,000,000 x total divisor. */
#define WONTABELI_ADC_TOO_SLOW 16 /* ADC below 1 Hz. */
#define WONTABELI_USBHS_SOURCE_RESERVED 17 /* Decoder: USBHS source 3. */
#define WONTABELI_USBHS_CODE_DIFFERS 18 /* Decoder: reference code not that of the reference. */
#define WONTABELI_SYSPLL_SOURCE_RESERVED 19 /* SYSPLL source 4, 5 or 7. */
#define WONTABELI_SYSCLK_RESERVED 20 /* System clock code 3. */
#define WONTABELI_WAIT_FAILED 21 /* Startup: a wait failed. */
#define WONTABELI_FLASH_MODE_DIFFERS 22 /* Startup: flash mode read back differs. */
#define WONTABELI_CLOCKS_DIFFER 23 /* Startup: clocks differ after the switch. */
#define WONTABELI_PLL_OVER_32_BITS 24 /* V1, V30x: PLL product over 32 bits. */
#define WONTABELI_HSI_PREDIVIDER 25 /* V30x: HSI predivider not 1 or 2. */
#define WONTABELI_SYSCLK_WITHOUT_PLL 26 /* V1, V30x: system clock PLL, none configured. */
#define WONTABELI_PLL2_OR_PLL3 27 /* V30x: PLL2 or PLL3 asked for, or PREDIV1SRC set. */
#define WONTABELI_CODE_NOT_ALLOWED 28 /* Code too wide or unnamed; a startup no starting gives. */
#define WONTABELI_PROFILE_LENGTH 29 /* Profile not 10 bytes. */
#define WONTABELI_PROFILE_CODE 30 /* Profile code or filling not allowed. */
#define WONTABELI_IMAGE_LENGTH_OR_FILLING 31 /* Image not 8 bytes, or filling not zero. */
#define WONTABELI_OUTPUT_TOO_SHORT 32 /* Lent output shorter than the record. */
#define WONTABELI_RATE_ZERO 33 /* Serial rate 0. */
#define WONTABELI_BRR_OUT_OF_RANGE 34 /* Serial divisor BRR outside 16..65,535. */

/* The clocks, by their place in what a check or a decoder gives; MORE is the number after them. */
#define WONTABELI_SYSCLK 0
#define WONTABELI_HCLK 1
#define WONTABELI_PCLK1 2
#define WONTABELI_PCLK2 3
#define WONTABELI_PCLK1_TIM 4
#define WONTABELI_PCLK2_TIM 5
#define WONTABELI_MORE 6

/* The numbers of crates/capi_give. */
#define WONTABELI_CLOCKS_WORDS 6 /* The six clocks, in words. */
#define WONTABELI_CHECK_WORDS 7 /* The six clocks and one more number, in words. */
#define WONTABELI_PAIR_WORDS 2 /* Two numbers, in words. */

/* The numbers of crates/capi. */
#define WONTABELI_KEYR 0 /* The register of the first two keys, KEYR. */
#define WONTABELI_MODEKEYR 1 /* The register of the other two, MODEKEYR. */

/* The numbers of crates/capi_codec. */
#define WONTABELI_PROFILE_SIZE 10 /* A profile, in bytes. */
#define WONTABELI_PROFILE_FIELDS 24 /* The fields of a profile, in bytes, one a field; HSE's frequency is four, and the filling the last. */
#define WONTABELI_IMAGE_SIZE 8 /* An image, in bytes. */
#define WONTABELI_IMAGE_FIELDS 34 /* The fields of an image, in bytes, one a field; the filling is the last. */

/* The numbers of crates/capi_startup. */
#define WONTABELI_PLACE_SIZE 72 /* A place's bytes. Its first ten are the profile. */
#define WONTABELI_PLACE_IMAGE 10 /* The image, eight bytes: after a call the host writes its fields to the chip, but for the ready bits and SWS. */
#define WONTABELI_PLACE_STEP 18 /* The step whose turn it is. */
#define WONTABELI_PLACE_UNMET 19 /* The unmet readings of its wait, four bytes. */
#define WONTABELI_PLACE_USED 23 /* All readings used, four bytes. */
#define WONTABELI_PLACE_PHASE 27 /* Whether the startup is over: PHASE_GOING, PHASE_RUNNING, or the refusal that ended it (21 or 22). */
#define WONTABELI_PLACE_REPORT 28 /* What the last call that changed the place reports: a REPORT_ number. */
#define WONTABELI_PLACE_NUMBER 29 /* That call's refusal: 0, 21 or 22. */
#define WONTABELI_PLACE_NAMED 30 /* The step that it names; 0 before the first call. */
#define WONTABELI_PLACE_FIRST_TICK 32 /* The tick of the first reading of the wait whose turn it is, four bytes; it counts where PLACE_UNMET is not 0. */
#define WONTABELI_PLACE_TICKS 36 /* The ticks of the eight waits (steps 2, 4, 7, 10, 12, 15, 18 and 27), four bytes each. */
#define WONTABELI_PLACE_LONGEST 68 /* The longest of them, four bytes. */
#define WONTABELI_PHASE_GOING 0 /* In byte PLACE_PHASE: not over, call again. */
#define WONTABELI_PHASE_RUNNING 1 /* In byte PLACE_PHASE: over, and the clocks run as the check promised. */
#define WONTABELI_REPORT_WORKED 0 /* In byte PLACE_REPORT: the step is worked; at 19 the host writes the keys. */
#define WONTABELI_REPORT_WAITING 1 /* In byte PLACE_REPORT: the reading did not meet the step's wait. */
#define WONTABELI_REPORT_RUNNING 2 /* In byte PLACE_REPORT: over, and the clocks run as the check promised. */
#define WONTABELI_REPORT_FAILED 3 /* In byte PLACE_REPORT: over, by the refusal in byte PLACE_NUMBER. */
#define WONTABELI_HSIRDY 1 /* HSI is ready. A reading is the sum of these. */
#define WONTABELI_HSERDY 2 /* HSE is ready. */
#define WONTABELI_PLLRDY 4 /* The main PLL is ready. */
#define WONTABELI_USBHS_PLLRDY 8 /* The USBHS PLL is ready. */
#define WONTABELI_ETH_PLLRDY 16 /* The ETH PLL is ready. */
#define WONTABELI_SWS 32 /* SWS, two bits: its value times this. */
#define WONTABELI_SCKMOD 128 /* SCKMOD, two bits: its value times this. */

/* The numbers of crates/capi_v1. */
#define WONTABELI_V1_PART_V1 0 /* The part CH32V1. */
#define WONTABELI_V1_PART_L1 1 /* The part CH32L1. */
#define WONTABELI_V1_CONFIG_SIZE 14 /* Bytes of a configuration of CH32V1 or CH32L1. */
#define WONTABELI_V1_FIELDS_SIZE 8 /* Bytes of register fields of CH32V1 or CH32L1. */

/* The numbers of crates/capi_v30x. */
#define WONTABELI_V30X_CONFIG_SIZE 18 /* Bytes of a configuration of CH32V30x. */
#define WONTABELI_V30X_FIELDS_SIZE 9 /* Bytes of register fields of CH32V30x. */

/* The numbers of crates/boards. */
#define WONTABELI_BOARD_SIZE 32 /* The bytes of a board's record. */

/* The fields of a profile, by their place. */
#define WONTABELI_PROFILE_HSE_PRESENT 0
#define WONTABELI_PROFILE_HSE_BYPASS 1
#define WONTABELI_PROFILE_HSE_FREQUENCY 2
#define WONTABELI_PROFILE_SYSTEM_CLOCK 6
#define WONTABELI_PROFILE_PLL_SOURCE 7
#define WONTABELI_PROFILE_PLL_PRESENT 8
#define WONTABELI_PROFILE_MULTIPLIER 9
#define WONTABELI_PROFILE_SYSPLL_SOURCE 10
#define WONTABELI_PROFILE_SYSPLL_DIVISOR_LESS_ONE 11
#define WONTABELI_PROFILE_USBHS_PRESENT 12
#define WONTABELI_PROFILE_USBHS_SOURCE 13
#define WONTABELI_PROFILE_ETH_PLL 14
#define WONTABELI_PROFILE_AHB 15
#define WONTABELI_PROFILE_APB1 16
#define WONTABELI_PROFILE_APB2 17
#define WONTABELI_PROFILE_RNG 18
#define WONTABELI_PROFILE_ADC_FROM_USBHS 19
#define WONTABELI_PROFILE_ADC_DIVISOR 20
#define WONTABELI_PROFILE_ADC_PRESCALER 21
#define WONTABELI_PROFILE_DUTY 22
#define WONTABELI_PROFILE_FILLING 23

/* The fields of an image, by their place. */
#define WONTABELI_IMAGE_HSION 0
#define WONTABELI_IMAGE_HSEBYP 1
#define WONTABELI_IMAGE_HSEON 2
#define WONTABELI_IMAGE_CSSON 3
#define WONTABELI_IMAGE_PLLON 4
#define WONTABELI_IMAGE_USBHS_PLLON 5
#define WONTABELI_IMAGE_ETH_PLLON 6
#define WONTABELI_IMAGE_HSIRDY 7
#define WONTABELI_IMAGE_HSERDY 8
#define WONTABELI_IMAGE_PLLRDY 9
#define WONTABELI_IMAGE_USBHS_PLLRDY 10
#define WONTABELI_IMAGE_ETH_PLLRDY 11
#define WONTABELI_IMAGE_SWS 12
#define WONTABELI_IMAGE_SW 13
#define WONTABELI_IMAGE_PLLSRC 14
#define WONTABELI_IMAGE_PLLMUL 15
#define WONTABELI_IMAGE_HPRE 16
#define WONTABELI_IMAGE_PPRE1 17
#define WONTABELI_IMAGE_PPRE2 18
#define WONTABELI_IMAGE_ADCPRE 19
#define WONTABELI_IMAGE_ADCSRC 20
#define WONTABELI_IMAGE_ADC_DUTY 21
#define WONTABELI_IMAGE_USBHSPLLSRC 22
#define WONTABELI_IMAGE_USBHSPLLCLK 23
#define WONTABELI_IMAGE_SYSPLLSRC 24
#define WONTABELI_IMAGE_SYSPLLDIV 25
#define WONTABELI_IMAGE_SYSPLL_GATE 26
#define WONTABELI_IMAGE_RNGSRC 27
#define WONTABELI_IMAGE_I2SPLLSRC 28
#define WONTABELI_IMAGE_ADC_CLKDIV 29
#define WONTABELI_IMAGE_SCKMOD 30
#define WONTABELI_IMAGE_LOCK 31
#define WONTABELI_IMAGE_FLOCK 32
#define WONTABELI_IMAGE_FILLING 33

/* The places in the record V1_CONFIG. */
#define WONTABELI_V1_CONFIG_HSE_PRESENT 0
#define WONTABELI_V1_CONFIG_HSE_BYPASS 1
#define WONTABELI_V1_CONFIG_HSE_FREQUENCY 2
#define WONTABELI_V1_CONFIG_SYSTEM_CLOCK 6
#define WONTABELI_V1_CONFIG_PLL_FROM_HSE 7
#define WONTABELI_V1_CONFIG_PLL_PRESENT 8
#define WONTABELI_V1_CONFIG_PLL_HALVED 9
#define WONTABELI_V1_CONFIG_MULTIPLIER 10
#define WONTABELI_V1_CONFIG_AHB 11
#define WONTABELI_V1_CONFIG_APB1 12
#define WONTABELI_V1_CONFIG_APB2 13

/* The places in the record V1_FIELDS. */
#define WONTABELI_V1_FIELDS_SWS 0
#define WONTABELI_V1_FIELDS_PLLSRC 1
#define WONTABELI_V1_FIELDS_PLLXTPRE 2
#define WONTABELI_V1_FIELDS_PLLMUL 3
#define WONTABELI_V1_FIELDS_HPRE 4
#define WONTABELI_V1_FIELDS_PPRE1 5
#define WONTABELI_V1_FIELDS_PPRE2 6
#define WONTABELI_V1_FIELDS_HSI_PREDIVIDER 7

/* The places in the record V30X_CONFIG. */
#define WONTABELI_V30X_CONFIG_HSE_PRESENT 0
#define WONTABELI_V30X_CONFIG_HSE_BYPASS 1
#define WONTABELI_V30X_CONFIG_HSE_FREQUENCY 2
#define WONTABELI_V30X_CONFIG_SYSTEM_CLOCK 6
#define WONTABELI_V30X_CONFIG_PLL_SOURCE 7
#define WONTABELI_V30X_CONFIG_PLL_PRESENT 8
#define WONTABELI_V30X_CONFIG_PREDIVIDER 9
#define WONTABELI_V30X_CONFIG_MULTIPLIER 10
#define WONTABELI_V30X_CONFIG_PLLX 11
#define WONTABELI_V30X_CONFIG_AHB 12
#define WONTABELI_V30X_CONFIG_APB1 13
#define WONTABELI_V30X_CONFIG_APB2 14
#define WONTABELI_V30X_CONFIG_USBHS_FROM_HSE 15
#define WONTABELI_V30X_CONFIG_USBHS_PRESENT 16
#define WONTABELI_V30X_CONFIG_USBHS_PRESCALER 17

/* The places in the record V30X_FIELDS. */
#define WONTABELI_V30X_FIELDS_SWS 0
#define WONTABELI_V30X_FIELDS_PLLSRC 1
#define WONTABELI_V30X_FIELDS_PREDIV1 2
#define WONTABELI_V30X_FIELDS_PREDIV1SRC 3
#define WONTABELI_V30X_FIELDS_PLLMUL 4
#define WONTABELI_V30X_FIELDS_HPRE 5
#define WONTABELI_V30X_FIELDS_PPRE1 6
#define WONTABELI_V30X_FIELDS_PPRE2 7
#define WONTABELI_V30X_FIELDS_HSI_PREDIVIDER 8

/* The places in the record BOARD. */
#define WONTABELI_BOARD_NUMBER 0
#define WONTABELI_BOARD_SYSCLK 4
#define WONTABELI_BOARD_HCLK 8
#define WONTABELI_BOARD_PCLK1 12
#define WONTABELI_BOARD_PCLK2 16
#define WONTABELI_BOARD_PCLK1_TIM 20
#define WONTABELI_BOARD_PCLK2_TIM 24
#define WONTABELI_BOARD_ADC 28

/* What the system clock is. */
#define WONTABELI_SYSTEM_CLOCK_HSI 0
#define WONTABELI_SYSTEM_CLOCK_HSE 1
#define WONTABELI_SYSTEM_CLOCK_PLL 2

/* By what an APB bus divides. */
#define WONTABELI_APB_DIV1 0
#define WONTABELI_APB_DIV2 4
#define WONTABELI_APB_DIV4 5
#define WONTABELI_APB_DIV8 6
#define WONTABELI_APB_DIV16 7

/* What feeds the main PLL. */
#define WONTABELI_V4X7_PLL_SOURCE_HSI 0
#define WONTABELI_V4X7_PLL_SOURCE_HSE 1

/* The main PLL's multiplier. */
#define WONTABELI_V4X7_PLL_MUL8 0
#define WONTABELI_V4X7_PLL_MUL9 1
#define WONTABELI_V4X7_PLL_MUL10 2
#define WONTABELI_V4X7_PLL_MUL11 3
#define WONTABELI_V4X7_PLL_MUL12 4
#define WONTABELI_V4X7_PLL_MUL12_5 5
#define WONTABELI_V4X7_PLL_MUL13 6
#define WONTABELI_V4X7_PLL_MUL13_5 7
#define WONTABELI_V4X7_PLL_MUL14 8
#define WONTABELI_V4X7_PLL_MUL14_5 9
#define WONTABELI_V4X7_PLL_MUL15 10
#define WONTABELI_V4X7_PLL_MUL15_5 11
#define WONTABELI_V4X7_PLL_MUL16 12
#define WONTABELI_V4X7_PLL_MUL16_5 13
#define WONTABELI_V4X7_PLL_MUL17 14
#define WONTABELI_V4X7_PLL_MUL17_5 15
#define WONTABELI_V4X7_PLL_MUL18 16
#define WONTABELI_V4X7_PLL_MUL18_5 17
#define WONTABELI_V4X7_PLL_MUL19 18
#define WONTABELI_V4X7_PLL_MUL19_5 19
#define WONTABELI_V4X7_PLL_MUL20 20
#define WONTABELI_V4X7_PLL_MUL21 21
#define WONTABELI_V4X7_PLL_MUL22 22
#define WONTABELI_V4X7_PLL_MUL24 23
#define WONTABELI_V4X7_PLL_MUL26 24
#define WONTABELI_V4X7_PLL_MUL28 25
#define WONTABELI_V4X7_PLL_MUL30 26
#define WONTABELI_V4X7_PLL_MUL32 27
#define WONTABELI_V4X7_PLL_MUL34 28
#define WONTABELI_V4X7_PLL_MUL36 29
#define WONTABELI_V4X7_PLL_MUL38 30
#define WONTABELI_V4X7_PLL_MUL40 31

/* What feeds SYSPLL; Mul2Div3 is two thirds of it. */
#define WONTABELI_V4X7_SYSPLL_SOURCE_USBHS 0
#define WONTABELI_V4X7_SYSPLL_SOURCE_ETH 1
#define WONTABELI_V4X7_SYSPLL_SOURCE_USBHS_MUL2_DIV3 2
#define WONTABELI_V4X7_SYSPLL_SOURCE_ETH_MUL2_DIV3 3
#define WONTABELI_V4X7_SYSPLL_SOURCE_PLL 6

/* By what SYSPLL divides. */
#define WONTABELI_V4X7_SYSPLL_DIV1 0
#define WONTABELI_V4X7_SYSPLL_DIV2 1
#define WONTABELI_V4X7_SYSPLL_DIV3 2
#define WONTABELI_V4X7_SYSPLL_DIV4 3
#define WONTABELI_V4X7_SYSPLL_DIV5 4
#define WONTABELI_V4X7_SYSPLL_DIV6 5
#define WONTABELI_V4X7_SYSPLL_DIV7 6
#define WONTABELI_V4X7_SYSPLL_DIV8 7

/* What gives the USBHS PLL its reference. */
#define WONTABELI_V4X7_USBHS_SOURCE_HSE 0
#define WONTABELI_V4X7_USBHS_SOURCE_HSI 1
#define WONTABELI_V4X7_USBHS_SOURCE_ETH 2

/* By what the AHB divides, on V4x7 and H4. */
#define WONTABELI_V4X7_AHB_DIV1 0
#define WONTABELI_V4X7_AHB_DIV2 8
#define WONTABELI_V4X7_AHB_DIV4 9
#define WONTABELI_V4X7_AHB_DIV8 10
#define WONTABELI_V4X7_AHB_DIV16 11
#define WONTABELI_V4X7_AHB_DIV64 12
#define WONTABELI_V4X7_AHB_DIV128 13
#define WONTABELI_V4X7_AHB_DIV256 14
#define WONTABELI_V4X7_AHB_DIV512 15

/* What feeds the random number generator. */
#define WONTABELI_V4X7_RNG_SYSCLK 0
#define WONTABELI_V4X7_RNG_USBHS_PLL 1
#define WONTABELI_V4X7_RNG_ETH_PLL 2

/* The ADC's prescaler. */
#define WONTABELI_V4X7_ADC_DIV2 0
#define WONTABELI_V4X7_ADC_DIV4 1
#define WONTABELI_V4X7_ADC_DIV6 2
#define WONTABELI_V4X7_ADC_DIV8 3

/* The duty cycle of the ADC's clock. */
#define WONTABELI_V4X7_DUTY_PERCENT50 0
#define WONTABELI_V4X7_DUTY_PERCENT62_5 1
#define WONTABELI_V4X7_DUTY_PERCENT75 2

/* The PLL's multiplier on V1 and L1; the last is 16 on V1 and 18 on L1. */
#define WONTABELI_V1_PLL_MUL2 0
#define WONTABELI_V1_PLL_MUL3 1
#define WONTABELI_V1_PLL_MUL4 2
#define WONTABELI_V1_PLL_MUL5 3
#define WONTABELI_V1_PLL_MUL6 4
#define WONTABELI_V1_PLL_MUL7 5
#define WONTABELI_V1_PLL_MUL8 6
#define WONTABELI_V1_PLL_MUL9 7
#define WONTABELI_V1_PLL_MUL10 8
#define WONTABELI_V1_PLL_MUL11 9
#define WONTABELI_V1_PLL_MUL12 10
#define WONTABELI_V1_PLL_MUL13 11
#define WONTABELI_V1_PLL_MUL14 12
#define WONTABELI_V1_PLL_MUL15 13
#define WONTABELI_V1_PLL_MUL16 14
#define WONTABELI_V1_PLL_MUL16_OR18 15

/* By what the AHB divides, on V1 and L1. */
#define WONTABELI_V1_AHB_DIV1 0
#define WONTABELI_V1_AHB_DIV2 8
#define WONTABELI_V1_AHB_DIV4 9
#define WONTABELI_V1_AHB_DIV8 10
#define WONTABELI_V1_AHB_DIV16 11
#define WONTABELI_V1_AHB_DIV64 12
#define WONTABELI_V1_AHB_DIV128 13
#define WONTABELI_V1_AHB_DIV256 14
#define WONTABELI_V1_AHB_DIV512 15

/* What feeds the PLL. Pll2 is refused. */
#define WONTABELI_V30X_PLL_SOURCE_HSI 0
#define WONTABELI_V30X_PLL_SOURCE_HSE 1
#define WONTABELI_V30X_PLL_SOURCE_PLL2 2

/* By what the PLL's input is divided. */
#define WONTABELI_V30X_PLL_PREDIVIDER_DIV1 0
#define WONTABELI_V30X_PLL_PREDIVIDER_DIV2 1
#define WONTABELI_V30X_PLL_PREDIVIDER_DIV3 2
#define WONTABELI_V30X_PLL_PREDIVIDER_DIV4 3
#define WONTABELI_V30X_PLL_PREDIVIDER_DIV5 4
#define WONTABELI_V30X_PLL_PREDIVIDER_DIV6 5
#define WONTABELI_V30X_PLL_PREDIVIDER_DIV7 6
#define WONTABELI_V30X_PLL_PREDIVIDER_DIV8 7
#define WONTABELI_V30X_PLL_PREDIVIDER_DIV9 8
#define WONTABELI_V30X_PLL_PREDIVIDER_DIV10 9
#define WONTABELI_V30X_PLL_PREDIVIDER_DIV11 10
#define WONTABELI_V30X_PLL_PREDIVIDER_DIV12 11
#define WONTABELI_V30X_PLL_PREDIVIDER_DIV13 12
#define WONTABELI_V30X_PLL_PREDIVIDER_DIV14 13
#define WONTABELI_V30X_PLL_PREDIVIDER_DIV15 14
#define WONTABELI_V30X_PLL_PREDIVIDER_DIV16 15

/* The PLL's multiplier. */
#define WONTABELI_V30X_PLL_MUL18 0
#define WONTABELI_V30X_PLL_MUL3 1
#define WONTABELI_V30X_PLL_MUL4 2
#define WONTABELI_V30X_PLL_MUL5 3
#define WONTABELI_V30X_PLL_MUL6 4
#define WONTABELI_V30X_PLL_MUL7 5
#define WONTABELI_V30X_PLL_MUL8 6
#define WONTABELI_V30X_PLL_MUL9 7
#define WONTABELI_V30X_PLL_MUL10 8
#define WONTABELI_V30X_PLL_MUL11 9
#define WONTABELI_V30X_PLL_MUL12 10
#define WONTABELI_V30X_PLL_MUL13 11
#define WONTABELI_V30X_PLL_MUL14 12
#define WONTABELI_V30X_PLL_MUL6_5 13
#define WONTABELI_V30X_PLL_MUL15 14
#define WONTABELI_V30X_PLL_MUL16 15

/* By what the AHB divides. */
#define WONTABELI_V30X_AHB_DIV1 0
#define WONTABELI_V30X_AHB_DIV2 8
#define WONTABELI_V30X_AHB_DIV4 9
#define WONTABELI_V30X_AHB_DIV8 10
#define WONTABELI_V30X_AHB_DIV16 11
#define WONTABELI_V30X_AHB_DIV64 12
#define WONTABELI_V30X_AHB_DIV128 13
#define WONTABELI_V30X_AHB_DIV256 14
#define WONTABELI_V30X_AHB_DIV512 15

/* By what the USBHS PLL's input is divided. */
#define WONTABELI_V30X_USBHS_DIV1 0
#define WONTABELI_V30X_USBHS_DIV2 1
#define WONTABELI_V30X_USBHS_DIV3 2
#define WONTABELI_V30X_USBHS_DIV4 3
#define WONTABELI_V30X_USBHS_DIV5 4
#define WONTABELI_V30X_USBHS_DIV6 5
#define WONTABELI_V30X_USBHS_DIV7 6
#define WONTABELI_V30X_USBHS_DIV8 7

#endif
