/* Every name of include/names.txt, the names of what a place's bytes hold, and the refusals' sentences, held to the library: what a name says comes
 * about, and the profile's reader and writer take no code but those that have a name. So is what the header says of free bytes and of damaged places.
 * Writes what is wrong and how many are right; status 1 where one is wrong. */
#include <stdio.h>
#include <string.h>
#include "wontabeli.h"

static int right, wrong;

static void is(int line, unsigned long long found, unsigned long long wanted)
{
    if (found == wanted) {
        right++;
        return;
    }
    wrong++;
    printf("tests/names.c:%d: %llu, and not %llu\n", line, found, wanted);
}

#define IS(found, wanted) is(__LINE__, (found), (wanted))
#define MHZ 1000000u
#define EACH(i, list) for (i = 0; i < sizeof list / sizeof *list; i++)

/* A code, and the divisor or the doubled multiplier that its name says. */
struct named {
    uint8_t code;
    uint32_t by;
};

static const struct named apb[] = {
    {WONTABELI_APB_DIV1, 1}, {WONTABELI_APB_DIV2, 2}, {WONTABELI_APB_DIV4, 4}, {WONTABELI_APB_DIV8, 8}, {WONTABELI_APB_DIV16, 16},
};
static const struct named ahb[] = {
    {WONTABELI_V4X7_AHB_DIV1, 1}, {WONTABELI_V4X7_AHB_DIV2, 2}, {WONTABELI_V4X7_AHB_DIV4, 4}, {WONTABELI_V4X7_AHB_DIV8, 8},
    {WONTABELI_V4X7_AHB_DIV16, 16}, {WONTABELI_V4X7_AHB_DIV64, 64}, {WONTABELI_V4X7_AHB_DIV128, 128}, {WONTABELI_V4X7_AHB_DIV256, 256},
    {WONTABELI_V4X7_AHB_DIV512, 512},
};
static const struct named syspll[] = {
    {WONTABELI_V4X7_SYSPLL_DIV1, 1}, {WONTABELI_V4X7_SYSPLL_DIV2, 2}, {WONTABELI_V4X7_SYSPLL_DIV3, 3}, {WONTABELI_V4X7_SYSPLL_DIV4, 4},
    {WONTABELI_V4X7_SYSPLL_DIV5, 5}, {WONTABELI_V4X7_SYSPLL_DIV6, 6}, {WONTABELI_V4X7_SYSPLL_DIV7, 7}, {WONTABELI_V4X7_SYSPLL_DIV8, 8},
};
static const struct named adc[] = {
    {WONTABELI_V4X7_ADC_DIV2, 2}, {WONTABELI_V4X7_ADC_DIV4, 4}, {WONTABELI_V4X7_ADC_DIV6, 6}, {WONTABELI_V4X7_ADC_DIV8, 8},
};
static const struct named pll[] = {
    {WONTABELI_V4X7_PLL_MUL8, 16}, {WONTABELI_V4X7_PLL_MUL9, 18}, {WONTABELI_V4X7_PLL_MUL10, 20}, {WONTABELI_V4X7_PLL_MUL11, 22},
    {WONTABELI_V4X7_PLL_MUL12, 24}, {WONTABELI_V4X7_PLL_MUL12_5, 25}, {WONTABELI_V4X7_PLL_MUL13, 26}, {WONTABELI_V4X7_PLL_MUL13_5, 27},
    {WONTABELI_V4X7_PLL_MUL14, 28}, {WONTABELI_V4X7_PLL_MUL14_5, 29}, {WONTABELI_V4X7_PLL_MUL15, 30}, {WONTABELI_V4X7_PLL_MUL15_5, 31},
    {WONTABELI_V4X7_PLL_MUL16, 32}, {WONTABELI_V4X7_PLL_MUL16_5, 33}, {WONTABELI_V4X7_PLL_MUL17, 34}, {WONTABELI_V4X7_PLL_MUL17_5, 35},
    {WONTABELI_V4X7_PLL_MUL18, 36}, {WONTABELI_V4X7_PLL_MUL18_5, 37}, {WONTABELI_V4X7_PLL_MUL19, 38}, {WONTABELI_V4X7_PLL_MUL19_5, 39},
    {WONTABELI_V4X7_PLL_MUL20, 40}, {WONTABELI_V4X7_PLL_MUL21, 42}, {WONTABELI_V4X7_PLL_MUL22, 44}, {WONTABELI_V4X7_PLL_MUL24, 48},
    {WONTABELI_V4X7_PLL_MUL26, 52}, {WONTABELI_V4X7_PLL_MUL28, 56}, {WONTABELI_V4X7_PLL_MUL30, 60}, {WONTABELI_V4X7_PLL_MUL32, 64},
    {WONTABELI_V4X7_PLL_MUL34, 68}, {WONTABELI_V4X7_PLL_MUL36, 72}, {WONTABELI_V4X7_PLL_MUL38, 76}, {WONTABELI_V4X7_PLL_MUL40, 80},
};
static const struct named v1_ahb[] = {
    {WONTABELI_V1_AHB_DIV1, 1}, {WONTABELI_V1_AHB_DIV2, 2}, {WONTABELI_V1_AHB_DIV4, 4}, {WONTABELI_V1_AHB_DIV8, 8}, {WONTABELI_V1_AHB_DIV16, 16},
    {WONTABELI_V1_AHB_DIV64, 64}, {WONTABELI_V1_AHB_DIV128, 128}, {WONTABELI_V1_AHB_DIV256, 256}, {WONTABELI_V1_AHB_DIV512, 512},
};
static const struct named v1_pll[] = {
    {WONTABELI_V1_PLL_MUL2, 4}, {WONTABELI_V1_PLL_MUL3, 6}, {WONTABELI_V1_PLL_MUL4, 8}, {WONTABELI_V1_PLL_MUL5, 10}, {WONTABELI_V1_PLL_MUL6, 12},
    {WONTABELI_V1_PLL_MUL7, 14}, {WONTABELI_V1_PLL_MUL8, 16}, {WONTABELI_V1_PLL_MUL9, 18}, {WONTABELI_V1_PLL_MUL10, 20}, {WONTABELI_V1_PLL_MUL11, 22},
    {WONTABELI_V1_PLL_MUL12, 24}, {WONTABELI_V1_PLL_MUL13, 26}, {WONTABELI_V1_PLL_MUL14, 28}, {WONTABELI_V1_PLL_MUL15, 30},
    {WONTABELI_V1_PLL_MUL16, 32}, {WONTABELI_V1_PLL_MUL16_OR18, 32},
};
static const struct named v30x_ahb[] = {
    {WONTABELI_V30X_AHB_DIV1, 1}, {WONTABELI_V30X_AHB_DIV2, 2}, {WONTABELI_V30X_AHB_DIV4, 4}, {WONTABELI_V30X_AHB_DIV8, 8},
    {WONTABELI_V30X_AHB_DIV16, 16}, {WONTABELI_V30X_AHB_DIV64, 64}, {WONTABELI_V30X_AHB_DIV128, 128}, {WONTABELI_V30X_AHB_DIV256, 256},
    {WONTABELI_V30X_AHB_DIV512, 512},
};
static const struct named v30x_pll[] = {
    {WONTABELI_V30X_PLL_MUL18, 36}, {WONTABELI_V30X_PLL_MUL3, 6}, {WONTABELI_V30X_PLL_MUL4, 8}, {WONTABELI_V30X_PLL_MUL5, 10},
    {WONTABELI_V30X_PLL_MUL6, 12}, {WONTABELI_V30X_PLL_MUL7, 14}, {WONTABELI_V30X_PLL_MUL8, 16}, {WONTABELI_V30X_PLL_MUL9, 18},
    {WONTABELI_V30X_PLL_MUL10, 20}, {WONTABELI_V30X_PLL_MUL11, 22}, {WONTABELI_V30X_PLL_MUL12, 24}, {WONTABELI_V30X_PLL_MUL13, 26},
    {WONTABELI_V30X_PLL_MUL14, 28}, {WONTABELI_V30X_PLL_MUL6_5, 13}, {WONTABELI_V30X_PLL_MUL15, 30}, {WONTABELI_V30X_PLL_MUL16, 32},
};
static const struct named v30x_predivider[] = {
    {WONTABELI_V30X_PLL_PREDIVIDER_DIV1, 1}, {WONTABELI_V30X_PLL_PREDIVIDER_DIV2, 2}, {WONTABELI_V30X_PLL_PREDIVIDER_DIV3, 3},
    {WONTABELI_V30X_PLL_PREDIVIDER_DIV4, 4}, {WONTABELI_V30X_PLL_PREDIVIDER_DIV5, 5}, {WONTABELI_V30X_PLL_PREDIVIDER_DIV6, 6},
    {WONTABELI_V30X_PLL_PREDIVIDER_DIV7, 7}, {WONTABELI_V30X_PLL_PREDIVIDER_DIV8, 8}, {WONTABELI_V30X_PLL_PREDIVIDER_DIV9, 9},
    {WONTABELI_V30X_PLL_PREDIVIDER_DIV10, 10}, {WONTABELI_V30X_PLL_PREDIVIDER_DIV11, 11}, {WONTABELI_V30X_PLL_PREDIVIDER_DIV12, 12},
    {WONTABELI_V30X_PLL_PREDIVIDER_DIV13, 13}, {WONTABELI_V30X_PLL_PREDIVIDER_DIV14, 14}, {WONTABELI_V30X_PLL_PREDIVIDER_DIV15, 15},
    {WONTABELI_V30X_PLL_PREDIVIDER_DIV16, 16},
};
static const struct named v30x_usbhs[] = {
    {WONTABELI_V30X_USBHS_DIV1, 1}, {WONTABELI_V30X_USBHS_DIV2, 2}, {WONTABELI_V30X_USBHS_DIV3, 3}, {WONTABELI_V30X_USBHS_DIV4, 4},
    {WONTABELI_V30X_USBHS_DIV5, 5}, {WONTABELI_V30X_USBHS_DIV6, 6}, {WONTABELI_V30X_USBHS_DIV7, 7}, {WONTABELI_V30X_USBHS_DIV8, 8},
};

static uint8_t f[WONTABELI_PROFILE_FIELDS];
static uint32_t out[WONTABELI_CHECK_WORDS];

static void frequency(uint8_t *bytes, uint32_t hz)
{
    bytes[0] = (uint8_t)(hz >> 24);
    bytes[1] = (uint8_t)(hz >> 16);
    bytes[2] = (uint8_t)(hz >> 8);
    bytes[3] = (uint8_t)hz;
}

/* ---- V4x7 ---- */

/* The default profile's fields, with an HSE where hz is not 0. */
static void fields_with(uint32_t hz)
{
    memset(f, 0, sizeof f);
    f[WONTABELI_PROFILE_HSE_PRESENT] = hz != 0;
    frequency(f + WONTABELI_PROFILE_HSE_FREQUENCY, hz);
    f[WONTABELI_PROFILE_SYSPLL_SOURCE] = WONTABELI_V4X7_SYSPLL_SOURCE_PLL;
    f[WONTABELI_PROFILE_ADC_PRESCALER] = WONTABELI_V4X7_ADC_DIV8;
    f[WONTABELI_PROFILE_DUTY] = WONTABELI_V4X7_DUTY_PERCENT62_5;
}

static void main_pll(uint8_t source, uint8_t multiplier)
{
    f[WONTABELI_PROFILE_PLL_SOURCE] = source;
    f[WONTABELI_PROFILE_PLL_PRESENT] = 1;
    f[WONTABELI_PROFILE_MULTIPLIER] = multiplier;
}

/* The number of the writer or the check; the clocks are in out. */
static uint8_t checked(void)
{
    uint8_t profile[WONTABELI_PROFILE_SIZE];
    uint8_t number = wontabeli_write_profile(f, sizeof f, profile, sizeof profile);
    return number != 0 ? number : wontabeli_check(profile, sizeof profile, out, WONTABELI_CHECK_WORDS);
}

static uint8_t checked_with(uint8_t place, uint8_t code)
{
    f[place] = code;
    return checked();
}

/* The writer takes exactly these codes of a field, by a mask; a code is below the limit or too wide. */
static void only(int line, uint8_t place, uint32_t mask, unsigned limit)
{
    uint8_t before = f[place];
    unsigned code;
    for (code = 0; code <= limit; code++) is(line, checked_with(place, (uint8_t)code) != WONTABELI_PROFILE_CODE, code < limit && mask >> code & 1);
    f[place] = before;
}

static uint32_t mask_of(const struct named *list, size_t n)
{
    uint32_t mask = 0;
    size_t i;
    for (i = 0; i < n; i++) mask |= (uint32_t)1 << list[i].code;
    return mask;
}

#define MASK(list) mask_of(list, sizeof list / sizeof *list)
#define BIT(code) ((uint32_t)1 << (code))

static void v4x7_divisors(void)
{
    size_t i;
    fields_with(0);
    only(__LINE__, WONTABELI_PROFILE_AHB, MASK(ahb), 16);
    only(__LINE__, WONTABELI_PROFILE_APB1, MASK(apb), 8);
    only(__LINE__, WONTABELI_PROFILE_APB2, MASK(apb), 8);
    only(__LINE__, WONTABELI_PROFILE_ADC_PRESCALER, MASK(adc), 4);
    only(__LINE__, WONTABELI_PROFILE_SYSPLL_DIVISOR_LESS_ONE, MASK(syspll), 8);
    only(__LINE__, WONTABELI_PROFILE_DUTY, BIT(WONTABELI_V4X7_DUTY_PERCENT50) | BIT(WONTABELI_V4X7_DUTY_PERCENT62_5) | BIT(WONTABELI_V4X7_DUTY_PERCENT75), 4);
    /* in the order of the percentages */
    IS(WONTABELI_V4X7_DUTY_PERCENT50 < WONTABELI_V4X7_DUTY_PERCENT62_5 && WONTABELI_V4X7_DUTY_PERCENT62_5 < WONTABELI_V4X7_DUTY_PERCENT75, 1);
    EACH(i, ahb) {
        fields_with(0);
        IS(checked_with(WONTABELI_PROFILE_AHB, ahb[i].code), 0);
        IS(out[WONTABELI_HCLK], 20 * MHZ / ahb[i].by);
    }
    EACH(i, apb) {
        fields_with(0);
        IS(checked_with(WONTABELI_PROFILE_APB1, apb[i].code), 0);
        IS(out[WONTABELI_PCLK1], 20 * MHZ / apb[i].by);
        fields_with(0);
        IS(checked_with(WONTABELI_PROFILE_APB2, apb[i].code), 0);
        IS(out[WONTABELI_PCLK2], 20 * MHZ / apb[i].by);
    }
    EACH(i, adc) {
        fields_with(0);
        IS(checked_with(WONTABELI_PROFILE_ADC_PRESCALER, adc[i].code), 0);
        IS(out[WONTABELI_MORE], 20 * MHZ / adc[i].by);
    }
    EACH(i, syspll) {
        fields_with(0);
        main_pll(WONTABELI_V4X7_PLL_SOURCE_HSI, WONTABELI_V4X7_PLL_MUL10);
        f[WONTABELI_PROFILE_SYSTEM_CLOCK] = WONTABELI_SYSTEM_CLOCK_PLL;
        IS(checked_with(WONTABELI_PROFILE_SYSPLL_DIVISOR_LESS_ONE, syspll[i].code), 0);
        IS(out[WONTABELI_SYSCLK], 200 * MHZ / syspll[i].by);
    }
}

static void v4x7_multipliers(void)
{
    size_t i;
    fields_with(10 * MHZ);
    main_pll(WONTABELI_V4X7_PLL_SOURCE_HSE, WONTABELI_V4X7_PLL_MUL10);
    only(__LINE__, WONTABELI_PROFILE_MULTIPLIER, MASK(pll), 32);
    /* 12.5 MHz below 10 and 10 MHz from there keep the PLL within 100 to 400 MHz */
    EACH(i, pll) {
        uint32_t hse = pll[i].by < 20 ? 12500000 : 10 * MHZ;
        fields_with(hse);
        main_pll(WONTABELI_V4X7_PLL_SOURCE_HSE, pll[i].code);
        f[WONTABELI_PROFILE_SYSTEM_CLOCK] = WONTABELI_SYSTEM_CLOCK_PLL;
        IS(checked_with(WONTABELI_PROFILE_SYSPLL_DIVISOR_LESS_ONE, WONTABELI_V4X7_SYSPLL_DIV8), 0);
        IS(out[WONTABELI_SYSCLK], hse / 2 * pll[i].by / 8);
    }
}

static void v4x7_sources(void)
{
    fields_with(8 * MHZ);
    main_pll(WONTABELI_V4X7_PLL_SOURCE_HSI, WONTABELI_V4X7_PLL_MUL10);
    only(__LINE__, WONTABELI_PROFILE_SYSTEM_CLOCK, BIT(WONTABELI_SYSTEM_CLOCK_HSI) | BIT(WONTABELI_SYSTEM_CLOCK_HSE) | BIT(WONTABELI_SYSTEM_CLOCK_PLL), 4);
    IS(checked_with(WONTABELI_PROFILE_SYSTEM_CLOCK, WONTABELI_SYSTEM_CLOCK_HSI), 0);
    IS(out[WONTABELI_SYSCLK], 20 * MHZ);
    IS(checked_with(WONTABELI_PROFILE_SYSTEM_CLOCK, WONTABELI_SYSTEM_CLOCK_HSE), 0);
    IS(out[WONTABELI_SYSCLK], 8 * MHZ);
    IS(checked_with(WONTABELI_PROFILE_SYSTEM_CLOCK, WONTABELI_SYSTEM_CLOCK_PLL), 0);
    IS(out[WONTABELI_SYSCLK], 200 * MHZ);
    /* 8 MHz x 25 is not there; x 20 is 160 MHz */
    f[WONTABELI_PROFILE_MULTIPLIER] = WONTABELI_V4X7_PLL_MUL20;
    IS(checked_with(WONTABELI_PROFILE_PLL_SOURCE, WONTABELI_V4X7_PLL_SOURCE_HSE), 0);
    IS(out[WONTABELI_SYSCLK], 160 * MHZ);
    only(__LINE__, WONTABELI_PROFILE_PLL_SOURCE, BIT(WONTABELI_V4X7_PLL_SOURCE_HSI) | BIT(WONTABELI_V4X7_PLL_SOURCE_HSE), 2);

    /* no PLL: each source misses its own */
    fields_with(0);
    only(__LINE__, WONTABELI_PROFILE_RNG, BIT(WONTABELI_V4X7_RNG_SYSCLK) | BIT(WONTABELI_V4X7_RNG_USBHS_PLL) | BIT(WONTABELI_V4X7_RNG_ETH_PLL), 4);
    IS(checked_with(WONTABELI_PROFILE_RNG, WONTABELI_V4X7_RNG_SYSCLK), 0);
    IS(checked_with(WONTABELI_PROFILE_RNG, WONTABELI_V4X7_RNG_USBHS_PLL), WONTABELI_RNG_WITHOUT_USBHS);
    IS(checked_with(WONTABELI_PROFILE_RNG, WONTABELI_V4X7_RNG_ETH_PLL), WONTABELI_RNG_WITHOUT_ETH);
    fields_with(0);
    f[WONTABELI_PROFILE_USBHS_PRESENT] = 1;
    only(__LINE__, WONTABELI_PROFILE_USBHS_SOURCE,
        BIT(WONTABELI_V4X7_USBHS_SOURCE_HSE) | BIT(WONTABELI_V4X7_USBHS_SOURCE_HSI) | BIT(WONTABELI_V4X7_USBHS_SOURCE_ETH), 4);
    IS(checked_with(WONTABELI_PROFILE_USBHS_SOURCE, WONTABELI_V4X7_USBHS_SOURCE_HSE), WONTABELI_HSE_MISSING);
    IS(checked_with(WONTABELI_PROFILE_USBHS_SOURCE, WONTABELI_V4X7_USBHS_SOURCE_HSI), 0);
    IS(checked_with(WONTABELI_PROFILE_USBHS_SOURCE, WONTABELI_V4X7_USBHS_SOURCE_ETH), WONTABELI_USBHS_WITHOUT_ETH);

    /* every PLL on, SYSPLL by 3: 480, 500, 320, 333.333333 and 240 MHz */
    fields_with(25 * MHZ);
    main_pll(WONTABELI_V4X7_PLL_SOURCE_HSI, WONTABELI_V4X7_PLL_MUL12);
    f[WONTABELI_PROFILE_USBHS_PRESENT] = 1;
    f[WONTABELI_PROFILE_ETH_PLL] = 1;
    f[WONTABELI_PROFILE_SYSTEM_CLOCK] = WONTABELI_SYSTEM_CLOCK_PLL;
    f[WONTABELI_PROFILE_SYSPLL_DIVISOR_LESS_ONE] = WONTABELI_V4X7_SYSPLL_DIV3;
    only(__LINE__, WONTABELI_PROFILE_SYSPLL_SOURCE,
        BIT(WONTABELI_V4X7_SYSPLL_SOURCE_USBHS) | BIT(WONTABELI_V4X7_SYSPLL_SOURCE_ETH) | BIT(WONTABELI_V4X7_SYSPLL_SOURCE_USBHS_MUL2_DIV3)
            | BIT(WONTABELI_V4X7_SYSPLL_SOURCE_ETH_MUL2_DIV3) | BIT(WONTABELI_V4X7_SYSPLL_SOURCE_PLL), 8);
    IS(checked_with(WONTABELI_PROFILE_SYSPLL_SOURCE, WONTABELI_V4X7_SYSPLL_SOURCE_USBHS), 0);
    IS(out[WONTABELI_SYSCLK], 160 * MHZ);
    IS(checked_with(WONTABELI_PROFILE_SYSPLL_SOURCE, WONTABELI_V4X7_SYSPLL_SOURCE_ETH), 0);
    IS(out[WONTABELI_SYSCLK], 166666666);
    IS(checked_with(WONTABELI_PROFILE_SYSPLL_SOURCE, WONTABELI_V4X7_SYSPLL_SOURCE_USBHS_MUL2_DIV3), 0);
    IS(out[WONTABELI_SYSCLK], 106666666);
    IS(checked_with(WONTABELI_PROFILE_SYSPLL_SOURCE, WONTABELI_V4X7_SYSPLL_SOURCE_ETH_MUL2_DIV3), 0);
    IS(out[WONTABELI_SYSCLK], 111111111);
    IS(checked_with(WONTABELI_PROFILE_SYSPLL_SOURCE, WONTABELI_V4X7_SYSPLL_SOURCE_PLL), 0);
    IS(out[WONTABELI_SYSCLK], 80 * MHZ);
}

/* ---- V1 and L1 ---- */

static uint8_t v1[WONTABELI_V1_CONFIG_SIZE];

/* HSE 12 MHz x 6 is 72 MHz; AHB by 2, the buses by 4 and 8. */
static void v1_config(void)
{
    memset(v1, 0, sizeof v1);
    v1[WONTABELI_V1_CONFIG_HSE_PRESENT] = 1;
    frequency(v1 + WONTABELI_V1_CONFIG_HSE_FREQUENCY, 12 * MHZ);
    v1[WONTABELI_V1_CONFIG_SYSTEM_CLOCK] = WONTABELI_SYSTEM_CLOCK_PLL;
    v1[WONTABELI_V1_CONFIG_PLL_FROM_HSE] = 1;
    v1[WONTABELI_V1_CONFIG_PLL_PRESENT] = 1;
    v1[WONTABELI_V1_CONFIG_MULTIPLIER] = WONTABELI_V1_PLL_MUL6;
    v1[WONTABELI_V1_CONFIG_AHB] = WONTABELI_V1_AHB_DIV2;
    v1[WONTABELI_V1_CONFIG_APB1] = WONTABELI_APB_DIV4;
    v1[WONTABELI_V1_CONFIG_APB2] = WONTABELI_APB_DIV8;
}

static uint8_t v1_checked(uint8_t part) { return wontabeli_v1_check(part, v1, sizeof v1, out, WONTABELI_CHECK_WORDS); }

static uint8_t v1_with(uint8_t place, uint8_t code)
{
    v1_config();
    v1[place] = code;
    return v1_checked(WONTABELI_V1_PART_V1);
}

static void v1_records(void)
{
    size_t i;
    v1_config();
    IS(v1_checked(WONTABELI_V1_PART_V1), 0);
    IS(out[WONTABELI_SYSCLK], 72 * MHZ);
    IS(out[WONTABELI_PCLK1], 9 * MHZ);
    IS(out[WONTABELI_PCLK2], 4500000);
    IS(v1_with(WONTABELI_V1_CONFIG_HSE_PRESENT, 0), WONTABELI_CODE_NOT_ALLOWED);
    IS(v1_with(WONTABELI_V1_CONFIG_HSE_BYPASS, 1), 0);
    IS(v1_with(WONTABELI_V1_CONFIG_HSE_BYPASS, 2), WONTABELI_CODE_NOT_ALLOWED);
    IS(v1_with(WONTABELI_V1_CONFIG_SYSTEM_CLOCK, WONTABELI_SYSTEM_CLOCK_HSI), 0);
    IS(out[WONTABELI_SYSCLK], 8 * MHZ);
    IS(v1_with(WONTABELI_V1_CONFIG_SYSTEM_CLOCK, WONTABELI_SYSTEM_CLOCK_HSE), 0);
    IS(out[WONTABELI_SYSCLK], 12 * MHZ);
    IS(v1_with(WONTABELI_V1_CONFIG_PLL_FROM_HSE, 0), 0);
    IS(out[WONTABELI_SYSCLK], 48 * MHZ);
    IS(v1_with(WONTABELI_V1_CONFIG_PLL_HALVED, 1), 0);
    IS(out[WONTABELI_SYSCLK], 36 * MHZ);
    v1[WONTABELI_V1_CONFIG_PLL_PRESENT] = v1[WONTABELI_V1_CONFIG_PLL_HALVED] = v1[WONTABELI_V1_CONFIG_MULTIPLIER] = 0;
    IS(v1_checked(WONTABELI_V1_PART_V1), WONTABELI_SYSCLK_WITHOUT_PLL);
    EACH(i, v1_ahb) {
        IS(v1_with(WONTABELI_V1_CONFIG_AHB, v1_ahb[i].code), 0);
        IS(out[WONTABELI_HCLK], 72 * MHZ / v1_ahb[i].by);
    }
    EACH(i, v1_pll) {
        IS(v1_with(WONTABELI_V1_CONFIG_MULTIPLIER, v1_pll[i].code), 0);
        IS(out[WONTABELI_SYSCLK], 6 * MHZ * v1_pll[i].by);
    }
    IS(v1_checked(WONTABELI_V1_PART_L1), 0);
    IS(out[WONTABELI_SYSCLK], 12 * MHZ * 18);
}

static void v1_fields(void)
{
    static const uint8_t earlier[WONTABELI_V1_FIELDS_SIZE] = {0};
    uint8_t g[WONTABELI_V1_FIELDS_SIZE];
    v1_config();
    v1[WONTABELI_V1_CONFIG_PLL_HALVED] = 1;
    IS(wontabeli_v1_init_fields(WONTABELI_V1_PART_V1, v1, sizeof v1, earlier, sizeof earlier, g, sizeof g), 0);
    IS(g[WONTABELI_V1_FIELDS_SWS], WONTABELI_SYSTEM_CLOCK_PLL);
    IS(g[WONTABELI_V1_FIELDS_PLLSRC], 1);
    IS(g[WONTABELI_V1_FIELDS_PLLXTPRE], 1);
    IS(g[WONTABELI_V1_FIELDS_PLLMUL], WONTABELI_V1_PLL_MUL6);
    IS(g[WONTABELI_V1_FIELDS_HPRE], WONTABELI_V1_AHB_DIV2);
    IS(g[WONTABELI_V1_FIELDS_PPRE1], WONTABELI_APB_DIV4);
    IS(g[WONTABELI_V1_FIELDS_PPRE2], WONTABELI_APB_DIV8);
    IS(g[WONTABELI_V1_FIELDS_HSI_PREDIVIDER], 0);
    /* from HSI the two source bits and the predivider bit come apart: 8 MHz by 2 x 6, by 1 x 6 */
    g[WONTABELI_V1_FIELDS_PLLSRC] = 0;
    IS(wontabeli_v1_decode(WONTABELI_V1_PART_V1, g, sizeof g, 12 * MHZ, out, WONTABELI_CLOCKS_WORDS), 0);
    IS(out[WONTABELI_SYSCLK], 24 * MHZ);
    g[WONTABELI_V1_FIELDS_HSI_PREDIVIDER] = 1;
    IS(wontabeli_v1_decode(WONTABELI_V1_PART_V1, g, sizeof g, 12 * MHZ, out, WONTABELI_CLOCKS_WORDS), 0);
    IS(out[WONTABELI_SYSCLK], 48 * MHZ);
    g[WONTABELI_V1_FIELDS_PLLSRC] = 1;
    g[WONTABELI_V1_FIELDS_PLLXTPRE] = 0;
    IS(wontabeli_v1_decode(WONTABELI_V1_PART_V1, g, sizeof g, 12 * MHZ, out, WONTABELI_CLOCKS_WORDS), 0);
    IS(out[WONTABELI_SYSCLK], 72 * MHZ);
}

/* ---- V30x ---- */

static uint8_t v30x[WONTABELI_V30X_CONFIG_SIZE];

/* HSE 24 MHz by 3 x 9 is 72 MHz; AHB by 2, the buses by 4 and 8; the USBHS PLL from HSE by 6, 4 MHz. */
static void v30x_config(void)
{
    memset(v30x, 0, sizeof v30x);
    v30x[WONTABELI_V30X_CONFIG_HSE_PRESENT] = 1;
    frequency(v30x + WONTABELI_V30X_CONFIG_HSE_FREQUENCY, 24 * MHZ);
    v30x[WONTABELI_V30X_CONFIG_SYSTEM_CLOCK] = WONTABELI_SYSTEM_CLOCK_PLL;
    v30x[WONTABELI_V30X_CONFIG_PLL_SOURCE] = WONTABELI_V30X_PLL_SOURCE_HSE;
    v30x[WONTABELI_V30X_CONFIG_PLL_PRESENT] = 1;
    v30x[WONTABELI_V30X_CONFIG_PREDIVIDER] = WONTABELI_V30X_PLL_PREDIVIDER_DIV3;
    v30x[WONTABELI_V30X_CONFIG_MULTIPLIER] = WONTABELI_V30X_PLL_MUL9;
    v30x[WONTABELI_V30X_CONFIG_AHB] = WONTABELI_V30X_AHB_DIV2;
    v30x[WONTABELI_V30X_CONFIG_APB1] = WONTABELI_APB_DIV4;
    v30x[WONTABELI_V30X_CONFIG_APB2] = WONTABELI_APB_DIV8;
    v30x[WONTABELI_V30X_CONFIG_USBHS_FROM_HSE] = 1;
    v30x[WONTABELI_V30X_CONFIG_USBHS_PRESENT] = 1;
    v30x[WONTABELI_V30X_CONFIG_USBHS_PRESCALER] = WONTABELI_V30X_USBHS_DIV6;
}

static uint8_t v30x_checked(void) { return wontabeli_v30x_check(v30x, sizeof v30x, out, WONTABELI_CHECK_WORDS); }

static uint8_t v30x_with(uint8_t place, uint8_t code)
{
    v30x_config();
    v30x[place] = code;
    return v30x_checked();
}

static void v30x_records(void)
{
    size_t i;
    v30x_config();
    IS(v30x_checked(), 0);
    IS(out[WONTABELI_SYSCLK], 72 * MHZ);
    IS(out[WONTABELI_PCLK1], 9 * MHZ);
    IS(out[WONTABELI_PCLK2], 4500000);
    IS(v30x_with(WONTABELI_V30X_CONFIG_HSE_PRESENT, 0), WONTABELI_CODE_NOT_ALLOWED);
    IS(v30x_with(WONTABELI_V30X_CONFIG_HSE_BYPASS, 1), 0);
    IS(v30x_with(WONTABELI_V30X_CONFIG_HSE_BYPASS, 2), WONTABELI_CODE_NOT_ALLOWED);
    IS(v30x_with(WONTABELI_V30X_CONFIG_SYSTEM_CLOCK, WONTABELI_SYSTEM_CLOCK_HSI), 0);
    IS(out[WONTABELI_SYSCLK], 8 * MHZ);
    IS(v30x_with(WONTABELI_V30X_CONFIG_SYSTEM_CLOCK, WONTABELI_SYSTEM_CLOCK_HSE), 0);
    IS(out[WONTABELI_SYSCLK], 24 * MHZ);
    IS(v30x_with(WONTABELI_V30X_CONFIG_PLL_SOURCE, WONTABELI_V30X_PLL_SOURCE_PLL2), WONTABELI_PLL2_OR_PLL3);
    IS(v30x_with(WONTABELI_V30X_CONFIG_PLL_SOURCE, WONTABELI_V30X_PLL_SOURCE_HSI), WONTABELI_HSI_PREDIVIDER);
    v30x[WONTABELI_V30X_CONFIG_PREDIVIDER] = WONTABELI_V30X_PLL_PREDIVIDER_DIV2;
    IS(v30x_checked(), 0);
    IS(out[WONTABELI_SYSCLK], 36 * MHZ);
    v30x[WONTABELI_V30X_CONFIG_PLL_PRESENT] = v30x[WONTABELI_V30X_CONFIG_PREDIVIDER] = v30x[WONTABELI_V30X_CONFIG_MULTIPLIER] = 0;
    IS(v30x_checked(), WONTABELI_SYSCLK_WITHOUT_PLL);
    IS(v30x_with(WONTABELI_V30X_CONFIG_PLLX, 1), WONTABELI_PLL2_OR_PLL3);
    /* HSI by 6 is no reference; by 1 it is */
    IS(v30x_with(WONTABELI_V30X_CONFIG_USBHS_FROM_HSE, 0), WONTABELI_USBHS_REFERENCE);
    v30x[WONTABELI_V30X_CONFIG_USBHS_PRESCALER] = WONTABELI_V30X_USBHS_DIV1;
    IS(v30x_checked(), 0);
    IS(v30x_with(WONTABELI_V30X_CONFIG_USBHS_PRESENT, 0), WONTABELI_CODE_NOT_ALLOWED);
    EACH(i, v30x_ahb) {
        IS(v30x_with(WONTABELI_V30X_CONFIG_AHB, v30x_ahb[i].code), 0);
        IS(out[WONTABELI_HCLK], 72 * MHZ / v30x_ahb[i].by);
    }
    EACH(i, v30x_pll) {
        IS(v30x_with(WONTABELI_V30X_CONFIG_MULTIPLIER, v30x_pll[i].code), 0);
        IS(out[WONTABELI_SYSCLK], 4 * MHZ * v30x_pll[i].by);
    }
    EACH(i, v30x_predivider) {
        IS(v30x_with(WONTABELI_V30X_CONFIG_PREDIVIDER, v30x_predivider[i].code), 0);
        IS(out[WONTABELI_SYSCLK], 24 * MHZ / v30x_predivider[i].by * 9);
    }
    /* no other divisor makes an allowed reference of both */
    EACH(i, v30x_usbhs) {
        v30x_config();
        v30x[WONTABELI_V30X_CONFIG_USBHS_PRESCALER] = v30x_usbhs[i].code;
        frequency(v30x + WONTABELI_V30X_CONFIG_HSE_FREQUENCY, 5 * MHZ * v30x_usbhs[i].by);
        IS(v30x_checked(), 0);
        frequency(v30x + WONTABELI_V30X_CONFIG_HSE_FREQUENCY, 8 * MHZ * v30x_usbhs[i].by);
        IS(v30x_checked(), 0);
    }
}

static void v30x_fields(void)
{
    static const uint8_t earlier[WONTABELI_V30X_FIELDS_SIZE] = {0};
    uint8_t g[WONTABELI_V30X_FIELDS_SIZE];
    v30x_config();
    IS(wontabeli_v30x_init_fields(v30x, sizeof v30x, earlier, sizeof earlier, g, sizeof g), 0);
    IS(g[WONTABELI_V30X_FIELDS_SWS], WONTABELI_SYSTEM_CLOCK_PLL);
    IS(g[WONTABELI_V30X_FIELDS_PLLSRC], 1);
    IS(g[WONTABELI_V30X_FIELDS_PREDIV1], WONTABELI_V30X_PLL_PREDIVIDER_DIV3);
    IS(g[WONTABELI_V30X_FIELDS_PLLMUL], WONTABELI_V30X_PLL_MUL9);
    IS(g[WONTABELI_V30X_FIELDS_HPRE], WONTABELI_V30X_AHB_DIV2);
    IS(g[WONTABELI_V30X_FIELDS_PPRE1], WONTABELI_APB_DIV4);
    IS(g[WONTABELI_V30X_FIELDS_PPRE2], WONTABELI_APB_DIV8);
    IS(g[WONTABELI_V30X_FIELDS_HSI_PREDIVIDER], 0);
    g[WONTABELI_V30X_FIELDS_PREDIV1SRC] = 1;
    IS(wontabeli_v30x_decode(g, sizeof g, 24 * MHZ, out, WONTABELI_CLOCKS_WORDS), WONTABELI_PLL2_OR_PLL3);
    /* from HSI: 8 MHz by 2 x 9, by 1 x 9 */
    g[WONTABELI_V30X_FIELDS_PLLSRC] = 0;
    IS(wontabeli_v30x_decode(g, sizeof g, 24 * MHZ, out, WONTABELI_CLOCKS_WORDS), 0);
    IS(out[WONTABELI_SYSCLK], 36 * MHZ);
    g[WONTABELI_V30X_FIELDS_HSI_PREDIVIDER] = 1;
    IS(wontabeli_v30x_decode(g, sizeof g, 24 * MHZ, out, WONTABELI_CLOCKS_WORDS), 0);
    IS(out[WONTABELI_SYSCLK], 72 * MHZ);
}

/* ---- A startup's place ---- */

static const uint8_t image[WONTABELI_IMAGE_SIZE] = {0};

static void place_says(int line, const uint8_t *place, uint8_t phase, uint8_t report, uint8_t number)
{
    is(line, place[WONTABELI_PLACE_PHASE], phase);
    is(line, place[WONTABELI_PLACE_REPORT], report);
    is(line, place[WONTABELI_PLACE_NUMBER], number);
}

/* The default profile: HSI alone, and flash mode 0. */
static void places(void)
{
    static const uint8_t profile[WONTABELI_PROFILE_SIZE] = {0, 0, 0, 0, 0, 0x18, 0, 0, 0, 0x34};
    uint8_t place[WONTABELI_PLACE_SIZE];
    int calls;
    IS(wontabeli_start(profile, sizeof profile, image, sizeof image, place, sizeof place), 0);
    place_says(__LINE__, place, WONTABELI_PHASE_GOING, WONTABELI_REPORT_WORKED, 0);
    IS(place[WONTABELI_PLACE_NAMED], 0);
    IS(wontabeli_step(place, sizeof place, 0, 0), 0);
    place_says(__LINE__, place, WONTABELI_PHASE_GOING, WONTABELI_REPORT_WORKED, 0);
    IS(place[WONTABELI_PLACE_NAMED], 1);
    IS(wontabeli_step(place, sizeof place, 0, 0), 0);
    place_says(__LINE__, place, WONTABELI_PHASE_GOING, WONTABELI_REPORT_WAITING, 0);
    for (calls = 0; calls < 28; calls++) IS(wontabeli_step(place, sizeof place, WONTABELI_HSIRDY, 0), 0);
    place_says(__LINE__, place, WONTABELI_PHASE_RUNNING, WONTABELI_REPORT_RUNNING, 0);
    IS(wontabeli_start(profile, sizeof profile, image, sizeof image, place, sizeof place), 0);
    /* steps 1 to 7, 19 and 20; then 21 */
    for (calls = 0; calls < 9; calls++) IS(wontabeli_step(place, sizeof place, WONTABELI_HSIRDY + WONTABELI_SCKMOD, 0), 0);
    IS(wontabeli_step(place, sizeof place, WONTABELI_HSIRDY + WONTABELI_SCKMOD, 0), WONTABELI_FLASH_MODE_DIFFERS);
    place_says(__LINE__, place, WONTABELI_FLASH_MODE_DIFFERS, WONTABELI_REPORT_FAILED, WONTABELI_FLASH_MODE_DIFFERS);
    IS(place[WONTABELI_PLACE_NAMED], 21);
}

/* The places of the ticks. Waits 2 and 4 take 0x10203040 and 0x00000007; then the last of the eight, 27, takes 0x01020304. */
static void tick_places(void)
{
    static const uint8_t profile[WONTABELI_PROFILE_SIZE] = {0, 0, 0, 0, 0, 0x18, 0, 0, 0, 0x34};
    uint8_t place[WONTABELI_PLACE_SIZE], four[4];
    int calls;
    IS(WONTABELI_PLACE_TICKS, WONTABELI_PLACE_FIRST_TICK + 4);
    IS(WONTABELI_PLACE_LONGEST, WONTABELI_PLACE_TICKS + 8 * 4);
    IS(WONTABELI_PLACE_SIZE, WONTABELI_PLACE_LONGEST + 4);
    IS(wontabeli_start(profile, sizeof profile, image, sizeof image, place, sizeof place), 0);
    IS(wontabeli_step(place, sizeof place, 0, 0), 0);
    IS(wontabeli_step(place, sizeof place, 0, 0x05060708), 0);
    frequency(four, 0x05060708);
    IS(memcmp(place + WONTABELI_PLACE_FIRST_TICK, four, 4), 0);
    IS(wontabeli_step(place, sizeof place, WONTABELI_HSIRDY, 0x15263748), 0);
    frequency(four, 0x10203040);
    IS(memcmp(place + WONTABELI_PLACE_TICKS, four, 4), 0);
    IS(memcmp(place + WONTABELI_PLACE_LONGEST, four, 4), 0);
    IS(wontabeli_step(place, sizeof place, 0, 0), 0);
    IS(wontabeli_step(place, sizeof place, WONTABELI_SWS, 1), 0);
    IS(wontabeli_step(place, sizeof place, 0, 8), 0);
    frequency(four, 7);
    IS(memcmp(place + WONTABELI_PLACE_TICKS + 4, four, 4), 0);
    /* steps 5, 6, 7, 19 to 23, and 26 */
    for (calls = 0; calls < 9; calls++) IS(wontabeli_step(place, sizeof place, 0, 0), 0);
    IS(place[WONTABELI_PLACE_STEP], 27);
    IS(wontabeli_step(place, sizeof place, WONTABELI_SWS, 0), 0);
    IS(wontabeli_step(place, sizeof place, 0, 0x01020304), 0);
    frequency(four, 0x01020304);
    IS(memcmp(place + WONTABELI_PLACE_TICKS + 7 * 4, four, 4), 0);
    frequency(four, 0x10203040);
    IS(memcmp(place + WONTABELI_PLACE_LONGEST, four, 4), 0);
}

/* A place of the default profile at step 2, with one byte changed: what the next call returns. Whatever is refused stays as it was. */
static uint8_t damaged(uint8_t at, uint8_t byte)
{
    static const uint8_t profile[WONTABELI_PROFILE_SIZE] = {0, 0, 0, 0, 0, 0x18, 0, 0, 0, 0x34};
    uint8_t place[WONTABELI_PLACE_SIZE], before[WONTABELI_PLACE_SIZE], number;
    IS(wontabeli_start(profile, sizeof profile, image, sizeof image, place, sizeof place), 0);
    IS(wontabeli_step(place, sizeof place, 0, 0), 0);
    place[at] = byte;
    memcpy(before, place, sizeof place);
    number = wontabeli_step(place, sizeof place, 0, 0);
    if (number != 0) IS(memcmp(place, before, sizeof place), 0);
    return number;
}

static void damage(void)
{
    uint8_t at;
    /* the profile: AHB 1; HSE present with 0 Hz, which the check refuses. The image: its filling. */
    IS(damaged(7, 0x80), WONTABELI_PROFILE_CODE);
    IS(damaged(0, 0x80), WONTABELI_CODE_NOT_ALLOWED);
    IS(damaged(WONTABELI_PLACE_IMAGE + 7, 1), WONTABELI_IMAGE_LENGTH_OR_FILLING);
    /* no step, a skipped one (HSE's), the next but one */
    IS(damaged(WONTABELI_PLACE_STEP, 0), WONTABELI_CODE_NOT_ALLOWED);
    IS(damaged(WONTABELI_PLACE_STEP, 29), WONTABELI_CODE_NOT_ALLOWED);
    IS(damaged(WONTABELI_PLACE_STEP, 8), WONTABELI_CODE_NOT_ALLOWED);
    IS(damaged(WONTABELI_PLACE_STEP, 3), 0);
    /* 0x0f0000 is below 1,000,000 and 0x100000 above it; 0x7a0000 is below 8,000,001 and 0x7b0000 above it */
    IS(damaged(WONTABELI_PLACE_UNMET + 1, 0x0f), 0);
    IS(damaged(WONTABELI_PLACE_UNMET + 1, 0x10), WONTABELI_CODE_NOT_ALLOWED);
    IS(damaged(WONTABELI_PLACE_USED + 1, 0x7a), 0);
    IS(damaged(WONTABELI_PLACE_USED + 1, 0x7b), WONTABELI_CODE_NOT_ALLOWED);
    /* byte 27 */
    IS(damaged(WONTABELI_PLACE_PHASE, 2), WONTABELI_CODE_NOT_ALLOWED);
    IS(damaged(WONTABELI_PLACE_PHASE, WONTABELI_PHASE_RUNNING), 0);
    IS(damaged(WONTABELI_PLACE_PHASE, WONTABELI_WAIT_FAILED), WONTABELI_WAIT_FAILED);
    IS(damaged(WONTABELI_PLACE_PHASE, WONTABELI_FLASH_MODE_DIFFERS), WONTABELI_FLASH_MODE_DIFFERS);
    IS(damaged(WONTABELI_PLACE_PHASE, WONTABELI_CLOCKS_DIFFER), WONTABELI_CLOCKS_DIFFER);
    /* another profile that the check accepts (APB1 by 2), another image, what the last call reported, and the ticks */
    IS(damaged(7, 0x40), 0);
    IS(damaged(WONTABELI_PLACE_IMAGE, 0), 0);
    for (at = WONTABELI_PLACE_REPORT; at < WONTABELI_PLACE_SIZE; at++) IS(damaged(at, 0xee), 0);
}

/* A PLL's source is free where the PLL is absent. */
static void free_bytes(void)
{
    fields_with(0);
    IS(checked_with(WONTABELI_PROFILE_PLL_SOURCE, WONTABELI_V4X7_PLL_SOURCE_HSE), 0);
    memset(v1, 0, sizeof v1);
    v1[WONTABELI_V1_CONFIG_PLL_FROM_HSE] = 1;
    IS(v1_checked(WONTABELI_V1_PART_V1), 0);
    memset(v30x, 0, sizeof v30x);
    v30x[WONTABELI_V30X_CONFIG_PLL_SOURCE] = WONTABELI_V30X_PLL_SOURCE_PLL2;
    v30x[WONTABELI_V30X_CONFIG_USBHS_FROM_HSE] = 1;
    IS(v30x_checked(), 0);
    /* and no other byte of an absent part */
    v30x[WONTABELI_V30X_CONFIG_USBHS_PRESCALER] = WONTABELI_V30X_USBHS_DIV2;
    IS(v30x_checked(), WONTABELI_CODE_NOT_ALLOWED);
}

static void sentences(void)
{
    IS(strcmp(wontabeli_refusal_text(0), "Not refused."), 0);
    IS(strcmp(wontabeli_refusal_text(WONTABELI_HSE_OUT_OF_RANGE), "HSE outside 5,000,000..32,000,000."), 0);
    IS(strcmp(wontabeli_refusal_text(WONTABELI_PROFILE_LENGTH), "Profile not 10 bytes."), 0);
    IS(strcmp(wontabeli_refusal_text(WONTABELI_OUTPUT_TOO_SHORT), "Lent output shorter than the record."), 0);
    IS(strcmp(wontabeli_refusal_text(WONTABELI_RATE_ZERO), "Serial rate 0."), 0);
    IS(strcmp(wontabeli_refusal_text(WONTABELI_BRR_OUT_OF_RANGE), "Serial divisor BRR outside 16..65,535."), 0);
    IS(strcmp(wontabeli_refusal_text(35), "No refusal has this number."), 0);
    IS(strcmp(wontabeli_refusal_text(255), "No refusal has this number."), 0);
}

/* The places of a board's record. HSI with AHB by 2, APB1 by 4 and APB2 by 16 has seven frequencies that all differ; the ADC divides by 8 more. */
static void board_places(void)
{
    static const struct { uint8_t place; uint32_t number; } list[] = {
        {WONTABELI_BOARD_NUMBER, 0}, {WONTABELI_BOARD_SYSCLK, 20 * MHZ}, {WONTABELI_BOARD_HCLK, 10 * MHZ}, {WONTABELI_BOARD_PCLK1, 2500000},
        {WONTABELI_BOARD_PCLK2, 625000}, {WONTABELI_BOARD_PCLK1_TIM, 5 * MHZ}, {WONTABELI_BOARD_PCLK2_TIM, 1250000}, {WONTABELI_BOARD_ADC, 78125},
    };
    uint8_t profile[WONTABELI_PROFILE_SIZE], record[WONTABELI_BOARD_SIZE], four[4];
    size_t i;
    fields_with(0);
    f[WONTABELI_PROFILE_AHB] = WONTABELI_V4X7_AHB_DIV2;
    f[WONTABELI_PROFILE_APB1] = WONTABELI_APB_DIV4;
    f[WONTABELI_PROFILE_APB2] = WONTABELI_APB_DIV16;
    IS(wontabeli_write_profile(f, sizeof f, profile, sizeof profile), 0);
    IS(wontabeli_tray(profile, sizeof profile, record, sizeof record), 0);
    EACH(i, list) {
        frequency(four, list[i].number);
        IS(memcmp(record + list[i].place, four, sizeof four), 0);
    }
    IS(sizeof list / sizeof *list * sizeof four, WONTABELI_BOARD_SIZE);
    f[WONTABELI_PROFILE_RNG] = WONTABELI_V4X7_RNG_ETH_PLL;
    IS(wontabeli_write_profile(f, sizeof f, profile, sizeof profile), 0);
    IS(wontabeli_tray(profile, sizeof profile, record, sizeof record), 0);
    IS(record[WONTABELI_BOARD_NUMBER + 3], WONTABELI_RNG_WITHOUT_ETH);
}

int main(void)
{
    v4x7_divisors();
    v4x7_multipliers();
    v4x7_sources();
    board_places();
    v1_records();
    v1_fields();
    v30x_records();
    v30x_fields();
    places();
    tick_places();
    damage();
    free_bytes();
    sentences();
    printf("names: %d right, %d wrong\n", right, wrong);
    return wrong != 0;
}
