/* Every call of include/wontabeli.h, with answers worked by hand from documents 01 and 02. Writes what is wrong and how many are right; status 1 where one is wrong. */
#include <stdio.h>
#include <string.h>
#include "wontabeli.h"

static int right, wrong;

static void is(int line, unsigned long long found, unsigned long long wanted)
{
    if (found == wanted) {
        right++;
        return;
    }
    wrong++;
    printf("tests/calls.c:%d: %llu, and not %llu\n", line, found, wanted);
}

#define IS(found, wanted) is(__LINE__, (found), (wanted))
#define SAME(found, ...) do { static const uint8_t w_[] = {__VA_ARGS__}; IS(memcmp((found), w_, sizeof w_), 0); } while (0)

static uint32_t out[WONTABELI_CHECK_WORDS];

static void clocks(int line, uint32_t sysclk, uint32_t hclk, uint32_t pclk1, uint32_t pclk2, uint32_t pclk1_tim, uint32_t pclk2_tim)
{
    is(line, out[WONTABELI_SYSCLK], sysclk);
    is(line, out[WONTABELI_HCLK], hclk);
    is(line, out[WONTABELI_PCLK1], pclk1);
    is(line, out[WONTABELI_PCLK2], pclk2);
    is(line, out[WONTABELI_PCLK1_TIM], pclk1_tim);
    is(line, out[WONTABELI_PCLK2_TIM], pclk2_tim);
}

/* HSE 8 MHz, main PLL by 12.5, system clock from it, USBHS PLL from HSI, AHB 8 (by 2), APB1 5 (by 4), APB2 4 (by 2), ADC from USBHS by 16, prescaler 4. */
static void a_profile(uint8_t *f)
{
    memset(f, 0, WONTABELI_PROFILE_FIELDS);
    f[WONTABELI_PROFILE_HSE_PRESENT] = 1;
    f[WONTABELI_PROFILE_HSE_FREQUENCY + 1] = 0x7a;
    f[WONTABELI_PROFILE_HSE_FREQUENCY + 2] = 0x12;
    f[WONTABELI_PROFILE_SYSTEM_CLOCK] = 2;
    f[WONTABELI_PROFILE_PLL_SOURCE] = 1;
    f[WONTABELI_PROFILE_PLL_PRESENT] = 1;
    f[WONTABELI_PROFILE_MULTIPLIER] = 5;
    f[WONTABELI_PROFILE_SYSPLL_SOURCE] = 6;
    f[WONTABELI_PROFILE_SYSPLL_DIVISOR_LESS_ONE] = 0;
    f[WONTABELI_PROFILE_USBHS_PRESENT] = 1;
    f[WONTABELI_PROFILE_USBHS_SOURCE] = 1;
    f[WONTABELI_PROFILE_AHB] = 8;
    f[WONTABELI_PROFILE_APB1] = 5;
    f[WONTABELI_PROFILE_APB2] = 4;
    f[WONTABELI_PROFILE_ADC_FROM_USBHS] = 1;
    f[WONTABELI_PROFILE_ADC_DIVISOR] = 16;
    f[WONTABELI_PROFILE_ADC_PRESCALER] = 1;
    f[WONTABELI_PROFILE_DUTY] = 2;
}

static void profiles(void)
{
    uint8_t f[WONTABELI_PROFILE_FIELDS], g[WONTABELI_PROFILE_FIELDS], p[WONTABELI_PROFILE_SIZE + 1] = {0};
    p[10] = 0xee;
    a_profile(f);
    IS(wontabeli_write_profile(f, sizeof f, p, sizeof p), 0);
    /* 1 0 00000000 01111010 00010010 00000000 10 1 1 00101 110 000 1 01 0 1000 101 100 00 1 00010000 01 10 00 */
    SAME(p, 0x80, 0x1e, 0x84, 0x80, 0x2c, 0xb8, 0x54, 0x58, 0x44, 0x18, 0xee);
    IS(wontabeli_read_profile(p, 10, g, sizeof g), 0);
    IS(memcmp(f, g, sizeof f), 0);
    /* 100 MHz by 2, 4 and 2; the timers twice their bus; 480 MHz by 16 x 2 x 4 */
    IS(wontabeli_check(p, 10, out, WONTABELI_CHECK_WORDS), 0);
    clocks(__LINE__, 100000000, 50000000, 12500000, 25000000, 25000000, 50000000);
    IS(out[WONTABELI_MORE], 3750000);
    IS(wontabeli_waits_owed(p, 10, out), 0);
    IS(out[0], 7);
    IS(wontabeli_call_bound(p, 10, out), 0);
    IS(out[0], 7000020);
    IS(wontabeli_check(p, 10, out, 6), WONTABELI_OUTPUT_TOO_SHORT);
    IS(wontabeli_check(p, 11, out, 7), WONTABELI_PROFILE_LENGTH);
    IS(wontabeli_call_bound(p, 9, out), WONTABELI_PROFILE_LENGTH);
    IS(out[0], 7000020);
    /* the same with the main PLL from HSI and the USBHS PLL from HSE: .. 10 0 1 00101 110 000 1 00 0 .. */
    f[WONTABELI_PROFILE_PLL_SOURCE] = f[WONTABELI_PROFILE_USBHS_SOURCE] = 0;
    IS(wontabeli_write_profile(f, sizeof f, p, sizeof p), 0);
    SAME(p, 0x80, 0x1e, 0x84, 0x80, 0x24, 0xb8, 0x44, 0x58, 0x44, 0x18, 0xee);
    f[WONTABELI_PROFILE_PLL_SOURCE] = f[WONTABELI_PROFILE_USBHS_SOURCE] = 1;
    f[WONTABELI_PROFILE_FILLING] = 1;
    IS(wontabeli_write_profile(f, sizeof f, p, sizeof p), WONTABELI_PROFILE_CODE);
    f[WONTABELI_PROFILE_FILLING] = 0;
    f[WONTABELI_PROFILE_ETH_PLL] = 2;
    IS(wontabeli_write_profile(f, sizeof f, p, sizeof p), WONTABELI_PROFILE_CODE);
    f[WONTABELI_PROFILE_ETH_PLL] = 0;
    f[WONTABELI_PROFILE_RNG] = 3;
    IS(wontabeli_write_profile(f, sizeof f, p, sizeof p), WONTABELI_PROFILE_CODE);
    f[WONTABELI_PROFILE_RNG] = 2;
    IS(wontabeli_write_profile(f, sizeof f, p, sizeof p), 0);
    IS(wontabeli_check(p, 10, out, 7), WONTABELI_RNG_WITHOUT_ETH);
    f[WONTABELI_PROFILE_RNG] = 0;
    f[WONTABELI_PROFILE_HSE_PRESENT] = 0;
    f[WONTABELI_PROFILE_HSE_BYPASS] = 1;
    IS(wontabeli_write_profile(f, sizeof f, p, 10), WONTABELI_PROFILE_CODE);
    IS(wontabeli_write_profile(f, sizeof f, p, 9), WONTABELI_OUTPUT_TOO_SHORT);
}

static void images(void)
{
    static const struct { uint8_t field, width; } list[WONTABELI_IMAGE_FIELDS] = {
        {WONTABELI_IMAGE_HSION, 1}, {WONTABELI_IMAGE_HSEBYP, 1}, {WONTABELI_IMAGE_HSEON, 1}, {WONTABELI_IMAGE_CSSON, 1}, {WONTABELI_IMAGE_PLLON, 1},
        {WONTABELI_IMAGE_USBHS_PLLON, 1}, {WONTABELI_IMAGE_ETH_PLLON, 1}, {WONTABELI_IMAGE_HSIRDY, 1}, {WONTABELI_IMAGE_HSERDY, 1},
        {WONTABELI_IMAGE_PLLRDY, 1}, {WONTABELI_IMAGE_USBHS_PLLRDY, 1}, {WONTABELI_IMAGE_ETH_PLLRDY, 1}, {WONTABELI_IMAGE_SWS, 2},
        {WONTABELI_IMAGE_SW, 2}, {WONTABELI_IMAGE_PLLSRC, 1}, {WONTABELI_IMAGE_PLLMUL, 5}, {WONTABELI_IMAGE_HPRE, 4}, {WONTABELI_IMAGE_PPRE1, 3},
        {WONTABELI_IMAGE_PPRE2, 3}, {WONTABELI_IMAGE_ADCPRE, 2}, {WONTABELI_IMAGE_ADCSRC, 1}, {WONTABELI_IMAGE_ADC_DUTY, 2},
        {WONTABELI_IMAGE_USBHSPLLSRC, 2}, {WONTABELI_IMAGE_USBHSPLLCLK, 2}, {WONTABELI_IMAGE_SYSPLLSRC, 3}, {WONTABELI_IMAGE_SYSPLLDIV, 3},
        {WONTABELI_IMAGE_SYSPLL_GATE, 1}, {WONTABELI_IMAGE_RNGSRC, 1}, {WONTABELI_IMAGE_I2SPLLSRC, 1}, {WONTABELI_IMAGE_ADC_CLKDIV, 5},
        {WONTABELI_IMAGE_SCKMOD, 2}, {WONTABELI_IMAGE_LOCK, 1}, {WONTABELI_IMAGE_FLOCK, 1}, {WONTABELI_IMAGE_FILLING, 0}};
    uint8_t f[WONTABELI_IMAGE_FIELDS] = {0}, g[WONTABELI_IMAGE_FIELDS], i[WONTABELI_IMAGE_SIZE];
    int n, place = 0;
    /* each field at its place: HSION is the first bit of all, FLOCK the sixth from the end */
    f[WONTABELI_IMAGE_HSION] = f[WONTABELI_IMAGE_HSEON] = f[WONTABELI_IMAGE_ETH_PLLON] = f[WONTABELI_IMAGE_PLLRDY] = 1;
    f[WONTABELI_IMAGE_SWS] = 1;
    f[WONTABELI_IMAGE_SW] = 2;
    f[WONTABELI_IMAGE_PLLMUL] = 17;
    f[WONTABELI_IMAGE_HPRE] = 9;
    f[WONTABELI_IMAGE_PPRE1] = 4;
    f[WONTABELI_IMAGE_PPRE2] = 6;
    f[WONTABELI_IMAGE_ADCPRE] = 1;
    f[WONTABELI_IMAGE_ADC_DUTY] = 2;
    f[WONTABELI_IMAGE_USBHSPLLCLK] = 1;
    f[WONTABELI_IMAGE_SYSPLLDIV] = 5;
    f[WONTABELI_IMAGE_RNGSRC] = 1;
    f[WONTABELI_IMAGE_ADC_CLKDIV] = 19;
    f[WONTABELI_IMAGE_SCKMOD] = 1;
    f[WONTABELI_IMAGE_FLOCK] = 1;
    IS(wontabeli_write_image(f, sizeof f, i, sizeof i), 0);
    /* 1010001 00100 01 10 0 10001 1001 100 110 01 0 10 00 01 000 101 0 1 0 10011 01 0 1 00000 */
    SAME(i, 0xa2, 0x46, 0x46, 0x66, 0x50, 0x8a, 0xa6, 0xa0);
    IS(wontabeli_read_image(i, 8, g, sizeof g), 0);
    IS(memcmp(f, g, sizeof f), 0);
    /* SWS 1: HSE, 12 MHz by 4 (code 9), by 2, by 8 */
    IS(wontabeli_decode(i, 8, 12000000, out, WONTABELI_CLOCKS_WORDS), 0);
    clocks(__LINE__, 12000000, 3000000, 1500000, 375000, 3000000, 750000);
    IS(wontabeli_decode(i, 8, 0, out, 6), WONTABELI_HSE_MISSING);
    IS(wontabeli_decode(i, 8, 1, out, 6), WONTABELI_HSE_OUT_OF_RANGE);
    /* the ADC from HCLK: 12 MHz by 4 x 8 x 4; the RNG from a PLL that is not ready */
    IS(wontabeli_adc(i, 8, 12000000, out, WONTABELI_PAIR_WORDS), 0);
    IS(out[0], 1);
    IS(out[1], 93750);
    IS(wontabeli_rng(i, 8, 12000000, out, 2), 0);
    IS(out[0], 0);
    IS(out[1], 0);
    f[WONTABELI_IMAGE_USBHS_PLLRDY] = 1;
    IS(wontabeli_write_image(f, sizeof f, i, sizeof i), 0);
    IS(wontabeli_rng(i, 8, 12000000, out, 2), 0);
    IS(out[0], 1);
    IS(out[1], 480000000);
    f[WONTABELI_IMAGE_I2SPLLSRC] = f[WONTABELI_IMAGE_ETH_PLLRDY] = f[WONTABELI_IMAGE_ADCSRC] = 1;
    IS(wontabeli_write_image(f, sizeof f, i, sizeof i), 0);
    IS(wontabeli_rng(i, 8, 12000000, out, 2), 0);
    IS(out[1], 500000000);
    /* and the ADC from USBHS: 480 MHz by 20 x 8 x 4 */
    IS(wontabeli_adc(i, 8, 12000000, out, 2), 0);
    IS(out[1], 750000);
    i[7] |= 1;
    IS(wontabeli_decode(i, 8, 12000000, out, 6), WONTABELI_IMAGE_LENGTH_OR_FILLING);
    /* each field alone, to its greatest code, and one beyond: document 01's list */
    for (n = 0; n < WONTABELI_IMAGE_FIELDS; n++) {
        uint8_t wanted[WONTABELI_IMAGE_SIZE] = {0};
        int end = place + list[n].width;
        memset(f, 0, sizeof f);
        f[list[n].field] = (uint8_t)((1 << list[n].width) - 1);
        for (; place < end; place++)
            wanted[place / 8] |= 0x80 >> place % 8;
        IS(wontabeli_write_image(f, sizeof f, i, sizeof i), 0);
        IS(memcmp(i, wanted, sizeof i), 0);
        f[list[n].field]++;
        IS(wontabeli_write_image(f, sizeof f, i, sizeof i), WONTABELI_CODE_NOT_ALLOWED);
    }
}

/* Row A11: HSI alone. Its startup works the steps 1 to 7, 19 to 23 and 26 to 28, and has the waits 2, 4, 7 and 27. */
static const uint8_t a11[10] = {0, 0, 0, 0, 0, 0x18, 0, 0, 0, 0x34}, image[8] = {0};

static void startups(void)
{
    static const uint32_t keys[4][2] = {
        {WONTABELI_KEYR, 0x45670123}, {WONTABELI_KEYR, 0xCDEF89AB}, {WONTABELI_MODEKEYR, 0x45670123}, {WONTABELI_MODEKEYR, 0xCDEF89AB}};
    uint8_t place[WONTABELI_PLACE_SIZE + 1];
    int n;
    for (n = 0; n < 4; n++) {
        IS(wontabeli_flash_key((uint8_t)n, out, WONTABELI_PAIR_WORDS), 0);
        IS(out[0], keys[n][0]);
        IS(out[1], keys[n][1]);
    }
    IS(wontabeli_flash_key(4, out, 2), WONTABELI_CODE_NOT_ALLOWED);
    IS(WONTABELI_PLACE_SIZE, 72);
    memset(place, 0xee, sizeof place);
    IS(wontabeli_start(a11, 10, image, 8, place, 71), WONTABELI_OUTPUT_TOO_SHORT);
    for (n = 0; n < WONTABELI_PLACE_SIZE + 1; n++)
        IS(place[n], 0xee);
    IS(wontabeli_start(a11, 10, image, 8, place, sizeof place), 0);
    SAME(place, 0, 0, 0, 0, 0, 0x18, 0, 0, 0, 0x34, 0, 0, 0, 0, 0, 0, 0, 0, 1, 0, 0, 0, 0, 0, 0, 0, 0, 0, WONTABELI_REPORT_WORKED, 0, 0, 0,
        0, 0, 0, 0, 0, 0, 0, 0, 0, 0, 0, 0, 0, 0, 0, 0, 0, 0, 0, 0, 0, 0, 0, 0, 0, 0, 0, 0, 0, 0, 0, 0, 0, 0, 0, 0, 0, 0, 0, 0, 0xee);
    /* step 1 writes HSION; then HSI is waited for, and read ready */
    IS(wontabeli_step(place, sizeof place, 0, 7), 0);
    IS(place[WONTABELI_PLACE_IMAGE], 0x80);
    IS(place[WONTABELI_PLACE_NAMED], 1);
    IS(wontabeli_step(place, sizeof place, WONTABELI_SWS * 3, 8), 0);
    IS(place[WONTABELI_PLACE_REPORT], WONTABELI_REPORT_WAITING);
    IS(place[WONTABELI_PLACE_UNMET + 3], 1);
    IS(place[WONTABELI_PLACE_USED + 3], 1);
    IS(wontabeli_step(place, sizeof place, WONTABELI_HSIRDY, 9), 0);
    IS(place[WONTABELI_PLACE_REPORT], WONTABELI_REPORT_WORKED);
    IS(place[WONTABELI_PLACE_STEP], 3);
    IS(place[WONTABELI_PLACE_USED + 3], 2);
    IS(place[72], 0xee);
    place[WONTABELI_PLACE_PHASE] = 7;
    IS(wontabeli_step(place, sizeof place, 0, 10), WONTABELI_CODE_NOT_ALLOWED);
}

/* A startup of row A11 whose calls had good readings, before this step. */
static void before(uint8_t *place, int step)
{
    int n;
    IS(wontabeli_start(a11, 10, image, 8, place, WONTABELI_PLACE_SIZE), 0);
    for (n = 0; n < 28 && place[WONTABELI_PLACE_STEP] != step; n++)
        IS(wontabeli_step(place, WONTABELI_PLACE_SIZE, WONTABELI_HSIRDY, 0), 0);
    IS(place[WONTABELI_PLACE_STEP], step);
}

/* Each bit of a reading alone, at step 2: its ready bits and SWS are in the image, from its eighth bit on. SCKMOD is compared at step 21: 0 is right, 2 not. */
static void readings(void)
{
    static const struct { uint16_t reading; uint8_t first, second; } list[] = {
        {WONTABELI_HSIRDY, 0x81, 0}, {WONTABELI_HSERDY, 0x80, 0x80}, {WONTABELI_PLLRDY, 0x80, 0x40}, {WONTABELI_USBHS_PLLRDY, 0x80, 0x20},
        {WONTABELI_ETH_PLLRDY, 0x80, 0x10}, {WONTABELI_SWS * 2, 0x80, 0x08}, {WONTABELI_SWS * 1, 0x80, 0x04}, {WONTABELI_SCKMOD * 3, 0x80, 0}};
    uint8_t place[WONTABELI_PLACE_SIZE];
    unsigned n;
    for (n = 0; n < sizeof list / sizeof *list; n++) {
        before(place, 2);
        IS(wontabeli_step(place, sizeof place, list[n].reading, 0), 0);
        IS(place[WONTABELI_PLACE_IMAGE], list[n].first);
        IS(place[WONTABELI_PLACE_IMAGE + 1], list[n].second);
    }
    for (n = 0; n < 4; n++) {
        before(place, 21);
        IS(wontabeli_step(place, sizeof place, (uint16_t)(WONTABELI_HSIRDY + WONTABELI_SCKMOD * n), 0), n == 0 ? 0 : WONTABELI_FLASH_MODE_DIFFERS);
        IS(place[WONTABELI_PLACE_PHASE], n == 0 ? 0 : WONTABELI_FLASH_MODE_DIFFERS);
        /* readings used at steps 2, 4, 7 and 21; no wait is going on */
        SAME(place + WONTABELI_PLACE_UNMET, 0, 0, 0, 0, 0, 0, 0, 4);
    }
}

/* A startup that is over: a call changes no byte, whatever is handed in, and returns its number again. */
static void stays_over(uint8_t *place, uint8_t number)
{
    static const uint16_t list[] = {0, WONTABELI_HSIRDY, WONTABELI_SWS * 2 + WONTABELI_SCKMOD, 0xffff};
    uint8_t last[WONTABELI_PLACE_SIZE];
    unsigned n;
    memcpy(last, place, sizeof last);
    for (n = 0; n < sizeof list / sizeof *list; n++) {
        IS(wontabeli_step(place, WONTABELI_PLACE_SIZE, list[n], 0x01234567 + n), number);
        IS(memcmp(place, last, sizeof last), 0);
    }
    /* also where the bytes that a call doesn't look at are damaged */
    place[WONTABELI_PLACE_NUMBER] = place[WONTABELI_PLACE_LONGEST] = 0xee;
    memcpy(last, place, sizeof last);
    IS(wontabeli_step(place, WONTABELI_PLACE_SIZE, 0, 0), number);
    IS(memcmp(place, last, sizeof last), 0);
}

/* The 1,000,000th unmet reading of step 2, after which the place stays; a count beyond it is none that a starting leads to. */
static void failing(void)
{
    uint8_t place[WONTABELI_PLACE_SIZE], last[WONTABELI_PLACE_SIZE];
    static const uint8_t counts[8] = {0, 0x0f, 0x42, 0x3f, 0, 0x0f, 0x42, 0x3f};
    before(place, 2);
    memcpy(place + WONTABELI_PLACE_UNMET, counts, sizeof counts);
    IS(wontabeli_step(place, sizeof place, 0, 0), WONTABELI_WAIT_FAILED);
    SAME(place + WONTABELI_PLACE_STEP, 2, 0, 0x0f, 0x42, 0x40, 0, 0x0f, 0x42, 0x40, 21, WONTABELI_REPORT_FAILED, 21, 2, 0);
    memcpy(last, place, sizeof last);
    stays_over(place, WONTABELI_WAIT_FAILED);
    memcpy(place, last, sizeof last);
    place[WONTABELI_PLACE_PHASE] = 0;
    IS(wontabeli_step(place, sizeof place, WONTABELI_HSIRDY, 0), WONTABELI_CODE_NOT_ALLOWED);
    last[WONTABELI_PLACE_PHASE] = 0;
    IS(memcmp(place, last, sizeof last), 0);
    /* over, and AHB code 1 in the profile: the reader's 30 first */
    last[WONTABELI_PLACE_PHASE] = 21;
    last[6] |= 0x01;
    memcpy(place, last, sizeof last);
    IS(wontabeli_step(place, sizeof place, 0, 0), WONTABELI_PROFILE_CODE);
    IS(memcmp(place, last, sizeof last), 0);
}

/* Step 21 reads another flash mode. The steps 2, 4 and 7 used a reading each, and this is the fourth. */
static void flash_mode(void)
{
    uint8_t place[WONTABELI_PLACE_SIZE], ticks[40];
    before(place, 21);
    memcpy(ticks, place + WONTABELI_PLACE_FIRST_TICK, sizeof ticks);
    IS(wontabeli_step(place, sizeof place, WONTABELI_HSIRDY + WONTABELI_SCKMOD, 99), WONTABELI_FLASH_MODE_DIFFERS);
    SAME(place + WONTABELI_PLACE_STEP, 21, 0, 0, 0, 0, 0, 0, 0, 4, 22, WONTABELI_REPORT_FAILED, 22, 21, 0);
    IS(memcmp(place + WONTABELI_PLACE_FIRST_TICK, ticks, sizeof ticks), 0);
    stays_over(place, WONTABELI_FLASH_MODE_DIFFERS);
}

/* Step 28 ends a startup that runs. Step 27's is the fifth reading. */
static void running(void)
{
    uint8_t place[WONTABELI_PLACE_SIZE];
    before(place, 28);
    IS(wontabeli_step(place, sizeof place, 0, 99), 0);
    SAME(place + WONTABELI_PLACE_STEP, 28, 0, 0, 0, 0, 0, 0, 0, 5, WONTABELI_PHASE_RUNNING, WONTABELI_REPORT_RUNNING, 0, 28, 0);
    stays_over(place, 0);
}

/* 23 and 28 leave every byte, at each call anew. The image's bits 26 to 28 are PPRE1: 4 there makes PCLK1 10 MHz, and the check promised 20. Step 8 is
 * skipped where there is no HSE. */
static void differing(void)
{
    uint8_t place[WONTABELI_PLACE_SIZE], last[WONTABELI_PLACE_SIZE];
    int n;
    before(place, 28);
    place[WONTABELI_PLACE_IMAGE + 3] |= 0x20;
    memcpy(last, place, sizeof last);
    for (n = 0; n < 3; n++) {
        IS(wontabeli_step(place, sizeof place, WONTABELI_HSIRDY, 99), WONTABELI_CLOCKS_DIFFER);
        IS(memcmp(place, last, sizeof last), 0);
    }
    /* the field mended, it runs */
    place[WONTABELI_PLACE_IMAGE + 3] ^= 0x20;
    IS(wontabeli_step(place, sizeof place, WONTABELI_HSIRDY, 99), 0);
    IS(place[WONTABELI_PLACE_PHASE], WONTABELI_PHASE_RUNNING);
    before(place, 7);
    place[WONTABELI_PLACE_STEP] = 8;
    memcpy(last, place, sizeof last);
    for (n = 0; n < 3; n++) {
        IS(wontabeli_step(place, sizeof place, 0, 99), WONTABELI_CODE_NOT_ALLOWED);
        IS(memcmp(place, last, sizeof last), 0);
    }
}

/* Several records wrong at once: 32, then the profile's 29 or 30, then the image's 31, then 28 or the check's. */
static void wrong_together(void)
{
    /* HSE 4,999,999 (4); the same with the last bit of the filling set (30) */
    uint8_t profile[10] = {0x80, 0x13, 0x12, 0xcf, 0xc0, 0x18, 0, 0, 0, 0x34}, filled[10] = {0x80, 0x13, 0x12, 0xcf, 0xc0, 0x18, 0, 0, 0, 0x35};
    uint8_t filled_image[8] = {0, 0, 0, 0, 0, 0, 0, 1}, place[WONTABELI_PLACE_SIZE], kept[WONTABELI_PLACE_SIZE];
    memset(kept, 0xee, sizeof kept);
    memcpy(place, kept, sizeof place);
    IS(wontabeli_start(filled, 9, filled_image, 7, place, 71), WONTABELI_OUTPUT_TOO_SHORT);
    IS(wontabeli_start(filled, 9, filled_image, 7, place, sizeof place), WONTABELI_PROFILE_LENGTH);
    IS(wontabeli_start(filled, 10, filled_image, 8, place, sizeof place), WONTABELI_PROFILE_CODE);
    IS(wontabeli_start(profile, 10, filled_image, 8, place, sizeof place), WONTABELI_IMAGE_LENGTH_OR_FILLING);
    IS(wontabeli_start(profile, 10, image, 8, place, sizeof place), WONTABELI_HSE_OUT_OF_RANGE);
    IS(memcmp(place, kept, sizeof place), 0);
    /* the same records in a place, with a phase and a step that no startup has */
    memset(kept, 0, sizeof kept);
    memcpy(kept, filled, 10);
    memcpy(kept + WONTABELI_PLACE_IMAGE, filled_image, 8);
    kept[WONTABELI_PLACE_PHASE] = 7;
    memcpy(place, kept, sizeof place);
    IS(wontabeli_step(place, 71, 0, 0), WONTABELI_OUTPUT_TOO_SHORT);
    IS(wontabeli_step(place, sizeof place, 0, 0), WONTABELI_PROFILE_CODE);
    IS(memcmp(place, kept, sizeof place), 0);
    memcpy(place, profile, 10);
    IS(wontabeli_step(place, sizeof place, 0, 0), WONTABELI_IMAGE_LENGTH_OR_FILLING);
    place[WONTABELI_PLACE_IMAGE + 7] = 0;
    IS(wontabeli_step(place, sizeof place, 0, 0), WONTABELI_CODE_NOT_ALLOWED);
    IS(wontabeli_waits_owed(filled, 10, out), WONTABELI_PROFILE_CODE);
    IS(wontabeli_call_bound(filled, 10, out), WONTABELI_PROFILE_CODE);
}

/* ---- The ticks of the waits, document 02's K5 ---- */

enum { WAITS = 8 };

/* The steps that wait, with a reading that doesn't meet the wait of a startup to the main PLL, and one that does. */
static const struct wait { uint8_t step; uint16_t unmet, met; } waits[WAITS] = {
    {2, 0, WONTABELI_HSIRDY}, {4, WONTABELI_SWS, 0}, {7, WONTABELI_HSERDY, WONTABELI_HSIRDY}, {10, 0, WONTABELI_HSERDY}, {12, 0, WONTABELI_ETH_PLLRDY},
    {15, 0, WONTABELI_USBHS_PLLRDY}, {18, 0, WONTABELI_PLLRDY}, {27, 0, WONTABELI_SWS * 2}};

/* A profile with every part: HSE 25 MHz, ETH and USBHS PLL, main PLL x 16 by 2, AHB by 2. HCLK is 100 MHz, so SCKMOD is 0. It skips no step. */
static const uint8_t every_part[10] = {0xc0, 0x5f, 0x5e, 0x10, 0x2d, 0x98, 0xcc, 0x58, 0xc1, 0x34};

static uint32_t number_at(const uint8_t *place, int at)
{
    return (uint32_t)place[at] << 24 | (uint32_t)place[at + 1] << 16 | (uint32_t)place[at + 2] << 8 | place[at + 3];
}

static void ticks_are(int line, const uint8_t *place, const uint32_t *eight, uint32_t longest)
{
    int n;
    for (n = 0; n < WAITS; n++)
        is(line, number_at(place, 36 + 4 * n), eight[n]);
    is(line, number_at(place, 68), longest);
}

/* Which wait a place is at; WAITS where it is at none. */
static int wait_at(const uint8_t *place)
{
    int n;
    for (n = 0; n < WAITS && waits[n].step != place[WONTABELI_PLACE_STEP]; n++) {
    }
    return n;
}

/* A refused start leaves every byte of a place; started anew, it has no ticks. */
static void started_anew(uint8_t *place, size_t lent)
{
    static const uint32_t none[WAITS] = {0};
    uint8_t last[WONTABELI_PLACE_SIZE];
    memcpy(last, place, sizeof last);
    IS(wontabeli_start(every_part, 10, image, 7, place, lent), WONTABELI_IMAGE_LENGTH_OR_FILLING);
    IS(memcmp(place, last, sizeof last), 0);
    IS(wontabeli_start(a11, 10, image, 8, place, lent), 0);
    ticks_are(__LINE__, place, none, 0);
    IS(number_at(place, WONTABELI_PLACE_FIRST_TICK), 0);
}

/* Every wait with so many unmet readings before the met one, and a counter that goes 7 on with each call: 7 ticks for each unmet reading. Step 10's first
 * reading is call 16 (15 before it: 1 + 2 + 1 + 3 + 1 + 1 + 4 + 1 + 1 for the steps 1 to 9), at 2^32 - 256 + 7 x 15 = 2^32 - 151; its met one is call 66,
 * at 7 x 65 - 256 = 199. That is 350 ticks, across the counter's end. After each call the waits that are met have their ticks, and the others 0. */
static void full_boot(void)
{
    static const int unmet[WAITS] = {1, 2, 3, 50, 4, 5, 6, 0};
    static const uint32_t ticks[WAITS] = {7, 14, 21, 350, 28, 35, 42, 0}, longest[WAITS] = {7, 14, 21, 350, 350, 350, 350, 350};
    uint8_t place[WONTABELI_PLACE_SIZE + 2];
    uint32_t met[WAITS] = {0}, most = 0, tick = 0xffffff00;
    int readings = 0, calls;
    memset(place, 0xee, sizeof place);
    IS(wontabeli_start(every_part, 10, image, 8, place, sizeof place), 0);
    /* 28 calls, and one more for each unmet reading: 71 of them */
    for (calls = 0; calls < 28 + 71; calls++) {
        int wait = wait_at(place);
        uint16_t reading = 0;
        if (wait < WAITS && readings < unmet[wait]) {
            reading = waits[wait].unmet;
            readings++;
        } else if (wait < WAITS) {
            reading = waits[wait].met;
            readings = 0;
            met[wait] = ticks[wait];
            most = longest[wait];
        }
        IS(place[WONTABELI_PLACE_PHASE], WONTABELI_PHASE_GOING);
        IS(wontabeli_step(place, sizeof place, reading, tick), 0);
        ticks_are(__LINE__, place, met, most);
        tick += 7;
    }
    IS(place[WONTABELI_PLACE_PHASE], WONTABELI_PHASE_RUNNING);
    ticks_are(__LINE__, place, ticks, 350);
    /* 71 unmet readings, 8 met ones, and step 21's */
    IS(number_at(place, WONTABELI_PLACE_USED), 80);
    started_anew(place, sizeof place);
    IS(place[72], 0xee);
    IS(place[73], 0xee);
}

/* Step 2's readings at these ticks, the last of them met: how many ticks the wait took. */
static void odd_ticks(void)
{
    static const struct { int readings; uint32_t at[5], ticks; } list[] = {
        /* across the end of the counter: 16 up to it, 16 from there */
        {2, {0xfffffff0, 0x10}, 32},
        {4, {0xfffffff0, 0xfffffff8, 0, 0x10}, 32},
        /* met by the first reading */
        {1, {0x12345678}, 0},
        {1, {0}, 0},
        /* no further, one short of a turn, the last tick and the first */
        {3, {77, 77, 77}, 0},
        {2, {1, 0}, 0xffffffff},
        {2, {0, 0xffffffff}, 0xffffffff},
        {2, {0xffffffff, 0}, 1},
        /* more than a full turn: 1,000 to 1,007 by way of the counter's end shows 7; a turn exactly shows 0 */
        {4, {1000, 3000000000u, 500, 1007}, 7},
        {5, {1000, 2000000000u, 4000000000u, 0, 1000}, 0},
        /* the readings between don't count, and a wait does not fail by its ticks */
        {5, {5, 4000000000u, 3, 999, 105}, 100}};
    unsigned n;
    for (n = 0; n < sizeof list / sizeof *list; n++) {
        uint8_t place[WONTABELI_PLACE_SIZE];
        uint32_t eight[WAITS] = {0};
        int r;
        before(place, 2);
        for (r = 0; r < list[n].readings; r++) {
            ticks_are(__LINE__, place, eight, 0);
            IS(wontabeli_step(place, sizeof place, r + 1 == list[n].readings ? WONTABELI_HSIRDY : 0, list[n].at[r]), 0);
            IS(place[WONTABELI_PLACE_STEP], r + 1 == list[n].readings ? 3 : 2);
            if (r + 1 < list[n].readings) IS(number_at(place, WONTABELI_PLACE_FIRST_TICK), list[n].at[0]);
        }
        eight[0] = list[n].ticks;
        ticks_are(__LINE__, place, eight, list[n].ticks);
    }
}

/* Step 2 takes 5 ticks and step 4 takes 3. Step 7 has 1,000,000 readings that don't meet it, 2 ticks after one another: it fails, its ticks stay 0, and the
 * longest stays 5. It used 2 + 2 + 1,000,000 readings, 0xf4244. */
static void failed_wait(void)
{
    static const uint32_t eight[WAITS] = {5, 3};
    uint8_t place[WONTABELI_PLACE_SIZE + 1], last[WONTABELI_PLACE_SIZE];
    uint32_t tick;
    int n;
    before(place, 2);
    place[72] = 0xee;
    IS(wontabeli_step(place, sizeof place, 0, 0xfffffffe), 0);
    IS(wontabeli_step(place, sizeof place, WONTABELI_HSIRDY, 3), 0);
    IS(wontabeli_step(place, sizeof place, 0, 50), 0);
    IS(wontabeli_step(place, sizeof place, WONTABELI_SWS, 60), 0);
    IS(wontabeli_step(place, sizeof place, 0, 63), 0);
    for (n = 0; n < 2; n++)
        IS(wontabeli_step(place, sizeof place, 0, 64), 0);
    IS(place[WONTABELI_PLACE_STEP], 7);
    for (n = 1, tick = 100; n < 1000000; n++, tick += 2)
        if (wontabeli_step(place, sizeof place, WONTABELI_HSERDY, tick) != 0) break;
    IS(n, 1000000);
    IS(number_at(place, WONTABELI_PLACE_UNMET), 999999);
    IS(number_at(place, WONTABELI_PLACE_FIRST_TICK), 100);
    IS(place[WONTABELI_PLACE_PHASE], WONTABELI_PHASE_GOING);
    IS(wontabeli_step(place, sizeof place, WONTABELI_HSERDY, tick), WONTABELI_WAIT_FAILED);
    SAME(place + WONTABELI_PLACE_STEP, 7, 0, 0x0f, 0x42, 0x40, 0, 0x0f, 0x42, 0x44, 21, WONTABELI_REPORT_FAILED, 21, 7, 0);
    ticks_are(__LINE__, place, eight, 5);
    /* what a call after the end is handed changes nothing, not even a reading that would have met the wait */
    memcpy(last, place, sizeof last);
    IS(wontabeli_step(place, sizeof place, WONTABELI_HSIRDY, 7), WONTABELI_WAIT_FAILED);
    IS(memcmp(place, last, sizeof last), 0);
    IS(place[72], 0xee);
    stays_over(place, WONTABELI_WAIT_FAILED);
}

/* A whole startup of row A11, in which every call but those of the waits has some odd tick: these change no byte of the ticks. Each wait has one unmet
 * reading at 1,000 and is met at 1,000 and its step: 2, 4, 7 and 27 ticks. The waits 10, 12, 15 and 18 are skipped, and stay 0. */
static void uncounted(void)
{
    static const uint32_t eight[WAITS] = {2, 4, 7, 0, 0, 0, 0, 27};
    uint8_t place[WONTABELI_PLACE_SIZE], ticks[40];
    uint32_t odd = 0x9e3779b9;
    int calls;
    IS(wontabeli_start(a11, 10, image, 8, place, sizeof place), 0);
    for (calls = 0; calls < 28 && place[WONTABELI_PLACE_PHASE] == WONTABELI_PHASE_GOING; calls++) {
        int wait = wait_at(place);
        uint8_t step = place[WONTABELI_PLACE_STEP];
        if (wait == WAITS) {
            memcpy(ticks, place + WONTABELI_PLACE_FIRST_TICK, sizeof ticks);
            IS(wontabeli_step(place, sizeof place, WONTABELI_HSIRDY, odd *= 3), 0);
            IS(memcmp(place + WONTABELI_PLACE_FIRST_TICK, ticks, sizeof ticks), 0);
            continue;
        }
        IS(wontabeli_step(place, sizeof place, step == 27 ? WONTABELI_SWS * 2 : waits[wait].unmet, 1000), 0);
        IS(wontabeli_step(place, sizeof place, step == 27 ? 0 : waits[wait].met, 1000u + step), 0);
    }
    /* 15 steps */
    IS(calls, 15);
    IS(place[WONTABELI_PLACE_PHASE], WONTABELI_PHASE_RUNNING);
    ticks_are(__LINE__, place, eight, 27);
}

static uint64_t state = 1;

/* Numbers that look random, the same at every run. */
static uint32_t any(void)
{
    state = state * 6364136223846793005u + 1442695040888963407u;
    return (uint32_t)(state >> 32);
}

static uint32_t below(uint32_t limit) { return any() % limit; }

/* Two startups with the same readings and other ticks: the same numbers, and the same bytes 0 to 31. */
static void other_ticks(void)
{
    uint8_t one[WONTABELI_PLACE_SIZE], other[WONTABELI_PLACE_SIZE];
    int boot, calls;
    for (boot = 0; boot < 50; boot++) {
        IS(wontabeli_start(every_part, 10, image, 8, one, sizeof one), 0);
        memcpy(other, one, sizeof other);
        for (calls = 0; calls < 1000 && one[WONTABELI_PLACE_PHASE] == WONTABELI_PHASE_GOING; calls++) {
            int wait = wait_at(one);
            uint16_t reading = wait == WAITS ? 0 : below(4) == 0 ? waits[wait].met : waits[wait].unmet;
            uint8_t number = wontabeli_step(one, sizeof one, reading, any());
            IS(wontabeli_step(other, sizeof other, reading, (uint32_t)calls), number);
            IS(memcmp(one, other, WONTABELI_PLACE_FIRST_TICK), 0);
        }
        IS(one[WONTABELI_PLACE_PHASE], WONTABELI_PHASE_RUNNING);
    }
}

static void v1(void)
{
    /* HSE 12 MHz by 2 (halved) times 9 is 54 MHz, APB1 by 2; not halved times 6 it is 72 MHz, USB by 1.5 */
    uint8_t c[WONTABELI_V1_CONFIG_SIZE] = {1, 0, 0x00, 0xb7, 0x1b, 0x00, 2, 1, 1, 1, 7, 0, 4, 0}, f[WONTABELI_V1_FIELDS_SIZE] = {0, 0, 0, 0, 0, 0, 0, 1};
    uint8_t h[WONTABELI_V1_FIELDS_SIZE];
    IS(wontabeli_v1_check(WONTABELI_V1_PART_V1, c, sizeof c, out, 7), 0);
    clocks(__LINE__, 54000000, 54000000, 27000000, 54000000, 54000000, 54000000);
    IS(out[WONTABELI_MORE], 0);
    IS(wontabeli_v1_init_fields(WONTABELI_V1_PART_V1, c, sizeof c, f, sizeof f, f, 7), WONTABELI_OUTPUT_TOO_SHORT);
    IS(wontabeli_v1_init_fields(WONTABELI_V1_PART_V1, c, sizeof c, f, sizeof f, h, sizeof h), 0);
    SAME(h, 2, 1, 1, 7, 0, 4, 0, 1);
    IS(wontabeli_v1_decode(WONTABELI_V1_PART_V1, h, sizeof h, 12000000, out, 6), 0);
    clocks(__LINE__, 54000000, 54000000, 27000000, 54000000, 54000000, 54000000);
    IS(wontabeli_v1_decode(WONTABELI_V1_PART_V1, h, sizeof h, 0, out, 6), WONTABELI_HSE_MISSING);
    /* code 15: V1 by 16, L1 by 18 */
    h[3] = 15;
    IS(wontabeli_v1_decode(WONTABELI_V1_PART_V1, h, sizeof h, 12000000, out, 6), 0);
    IS(out[WONTABELI_SYSCLK], 96000000);
    IS(wontabeli_v1_decode(WONTABELI_V1_PART_L1, h, sizeof h, 12000000, out, 6), 0);
    IS(out[WONTABELI_SYSCLK], 108000000);
    c[9] = 0;
    c[10] = 4;
    IS(wontabeli_v1_check(WONTABELI_V1_PART_L1, c, sizeof c, out, 7), 0);
    IS(out[WONTABELI_SYSCLK], 72000000);
    IS(out[WONTABELI_MORE], 3);
    /* the PLL from HSI, by 1: the last bit is set, and 8 MHz times 6 is 48; by 2 it is clear, and 24. PLLXTPRE is kept */
    c[7] = 0;
    f[2] = 1;
    IS(wontabeli_v1_init_fields(WONTABELI_V1_PART_L1, c, sizeof c, f, sizeof f, h, sizeof h), 0);
    SAME(h, 2, 0, 1, 4, 0, 4, 0, 1);
    IS(wontabeli_v1_decode(WONTABELI_V1_PART_L1, h, sizeof h, 12000000, out, 6), 0);
    IS(out[WONTABELI_SYSCLK], 48000000);
    c[9] = 1;
    IS(wontabeli_v1_init_fields(WONTABELI_V1_PART_L1, c, sizeof c, f, sizeof f, h, sizeof h), 0);
    SAME(h, 2, 0, 1, 4, 0, 4, 0, 0);
    IS(wontabeli_v1_decode(WONTABELI_V1_PART_L1, h, sizeof h, 12000000, out, 6), 0);
    IS(out[WONTABELI_SYSCLK], 24000000);
}

/* 28 before anything else: another part or length; each field one too wide, where the configuration is accepted and where it has no HSE (3). */
static void v1_codes(void)
{
    static const uint8_t beyond[WONTABELI_V1_FIELDS_SIZE] = {4, 2, 2, 16, 16, 8, 8, 2};
    uint8_t c[WONTABELI_V1_CONFIG_SIZE] = {1, 0, 0x00, 0xb7, 0x1b, 0x00, 2, 1, 1, 1, 7, 0, 4, 0};
    uint8_t none[WONTABELI_V1_CONFIG_SIZE] = {0, 0, 0, 0, 0, 0, 2, 1, 1, 1, 7, 0, 4, 0}, f[WONTABELI_V1_FIELDS_SIZE] = {0}, h[WONTABELI_V1_FIELDS_SIZE];
    int n;
    IS(wontabeli_v1_check(2, c, sizeof c, out, 7), WONTABELI_CODE_NOT_ALLOWED);
    IS(wontabeli_v1_decode(2, f, sizeof f, 12000000, out, 6), WONTABELI_CODE_NOT_ALLOWED);
    IS(wontabeli_v1_init_fields(2, c, sizeof c, f, sizeof f, h, sizeof h), WONTABELI_CODE_NOT_ALLOWED);
    IS(wontabeli_v1_check(WONTABELI_V1_PART_V1, c, 13, out, 7), WONTABELI_CODE_NOT_ALLOWED);
    IS(wontabeli_v1_init_fields(WONTABELI_V1_PART_V1, none, sizeof none, f, sizeof f, h, sizeof h), WONTABELI_HSE_MISSING);
    for (n = 0; n < WONTABELI_V1_FIELDS_SIZE; n++) {
        memset(f, 0, sizeof f);
        f[n] = beyond[n];
        IS(wontabeli_v1_decode(WONTABELI_V1_PART_V1, f, sizeof f, 12000000, out, 6), WONTABELI_CODE_NOT_ALLOWED);
        IS(wontabeli_v1_init_fields(WONTABELI_V1_PART_V1, c, sizeof c, f, sizeof f, h, sizeof h), WONTABELI_CODE_NOT_ALLOWED);
        IS(wontabeli_v1_init_fields(WONTABELI_V1_PART_L1, none, sizeof none, f, sizeof f, h, sizeof h), WONTABELI_CODE_NOT_ALLOWED);
    }
}

static void v30x(void)
{
    /* HSE 10 MHz by 2 times 18 is 90 MHz, AHB by 2, APB2 by 2; USBHS from HSE by 2 is 5 MHz */
    uint8_t d[WONTABELI_V30X_CONFIG_SIZE] = {1, 0, 0x00, 0x98, 0x96, 0x80, 2, 1, 1, 1, 0, 0, 8, 0, 4, 1, 1, 1}, g[WONTABELI_V30X_FIELDS_SIZE] = {0};
    uint8_t h[WONTABELI_V30X_FIELDS_SIZE];
    IS(wontabeli_v30x_check(d, sizeof d, out, 7), 0);
    clocks(__LINE__, 90000000, 45000000, 45000000, 22500000, 45000000, 45000000);
    IS(out[WONTABELI_MORE], 0);
    IS(wontabeli_v30x_init_fields(d, sizeof d, g, sizeof g, h, sizeof h), 0);
    SAME(h, 2, 1, 1, 0, 0, 8, 0, 4, 0);
    IS(wontabeli_v30x_decode(h, sizeof h, 10000000, out, 6), 0);
    clocks(__LINE__, 90000000, 45000000, 45000000, 22500000, 45000000, 45000000);
    h[3] = 1;
    IS(wontabeli_v30x_decode(h, sizeof h, 10000000, out, 6), WONTABELI_PLL2_OR_PLL3);
    /* USBHS by 1: 10 MHz from HSE is no reference, 8 MHz from HSI is */
    d[17] = 0;
    IS(wontabeli_v30x_check(d, sizeof d, out, 7), WONTABELI_USBHS_REFERENCE);
    d[15] = 0;
    IS(wontabeli_v30x_check(d, sizeof d, out, 7), 0);
    /* the PLL from HSI by 2 times 18 is 72 MHz, the last bit clear; by 1 it is 144, USB by 3, and the bit is set */
    d[7] = 0;
    IS(wontabeli_v30x_init_fields(d, sizeof d, g, sizeof g, h, sizeof h), 0);
    SAME(h, 2, 0, 0, 0, 0, 8, 0, 4, 0);
    IS(wontabeli_v30x_decode(h, sizeof h, 10000000, out, 6), 0);
    IS(out[WONTABELI_SYSCLK], 72000000);
    d[9] = 0;
    IS(wontabeli_v30x_check(d, sizeof d, out, 7), 0);
    IS(out[WONTABELI_SYSCLK], 144000000);
    IS(out[WONTABELI_MORE], 6);
    IS(wontabeli_v30x_init_fields(d, sizeof d, g, sizeof g, h, sizeof h), 0);
    SAME(h, 2, 0, 0, 0, 0, 8, 0, 4, 1);
    d[11] = 1;
    IS(wontabeli_v30x_check(d, sizeof d, out, 7), WONTABELI_PLL2_OR_PLL3);
}

/* As v1_codes; the configuration that is refused asks for PLL2 or PLL3 (27). */
static void v30x_codes(void)
{
    static const uint8_t beyond[WONTABELI_V30X_FIELDS_SIZE] = {4, 2, 16, 2, 16, 16, 8, 8, 2};
    uint8_t d[WONTABELI_V30X_CONFIG_SIZE] = {1, 0, 0x00, 0x98, 0x96, 0x80, 2, 1, 1, 1, 0, 0, 8, 0, 4, 1, 1, 1};
    uint8_t f[WONTABELI_V30X_FIELDS_SIZE] = {0}, h[WONTABELI_V30X_FIELDS_SIZE];
    int n;
    for (n = 0; n < WONTABELI_V30X_FIELDS_SIZE; n++) {
        memset(f, 0, sizeof f);
        f[n] = beyond[n];
        d[11] = 0;
        IS(wontabeli_v30x_decode(f, sizeof f, 10000000, out, 6), WONTABELI_CODE_NOT_ALLOWED);
        IS(wontabeli_v30x_init_fields(d, sizeof d, f, sizeof f, h, sizeof h), WONTABELI_CODE_NOT_ALLOWED);
        d[11] = 1;
        IS(wontabeli_v30x_init_fields(d, sizeof d, f, sizeof f, h, sizeof h), WONTABELI_CODE_NOT_ALLOWED);
    }
}

/* AHB codes 12 to 15 divide by 64, 128, 256 and 512 (document 02, K4): HCLK of HSI's 8 MHz, by check and decoder. The buses by 1 and by 2. */
static void skipping_32(void)
{
    static const uint32_t hclk[4] = {125000, 62500, 31250, 15625};
    uint8_t c[WONTABELI_V1_CONFIG_SIZE] = {0}, d[WONTABELI_V30X_CONFIG_SIZE] = {0}, f[WONTABELI_V1_FIELDS_SIZE] = {0}, g[WONTABELI_V30X_FIELDS_SIZE] = {0};
    uint8_t part, n;
    c[WONTABELI_V1_CONFIG_APB2] = d[WONTABELI_V30X_CONFIG_APB2] = f[WONTABELI_V1_FIELDS_PPRE2] = g[WONTABELI_V30X_FIELDS_PPRE2] = 4;
    for (n = 0; n < 4; n++) {
        uint32_t h = hclk[n], half = h / 2;
        c[WONTABELI_V1_CONFIG_AHB] = d[WONTABELI_V30X_CONFIG_AHB] = f[WONTABELI_V1_FIELDS_HPRE] = g[WONTABELI_V30X_FIELDS_HPRE] = 12 + n;
        for (part = 0; part < 2; part++) {
            IS(wontabeli_v1_check(part, c, sizeof c, out, 7), 0);
            clocks(__LINE__, 8000000, h, h, half, h, 2 * half);
            IS(wontabeli_v1_decode(part, f, sizeof f, 0, out, 6), 0);
            clocks(__LINE__, 8000000, h, h, half, h, 2 * half);
        }
        IS(wontabeli_v30x_check(d, sizeof d, out, 7), 0);
        clocks(__LINE__, 8000000, h, h, half, h, 2 * half);
        IS(wontabeli_v30x_decode(g, sizeof g, 0, out, 6), 0);
        clocks(__LINE__, 8000000, h, h, half, h, 2 * half);
    }
}

static void h4(void)
{
    IS(wontabeli_h4_clocks(400000000, 8, 2, 4, 5, out, 7), 0);
    clocks(__LINE__, 400000000, 50000000, 25000000, 12500000, 25000000, 12500000);
    IS(out[WONTABELI_MORE], 200000000);
    IS(wontabeli_h4_ahb(400000000, 12, out), 0);
    IS(out[0], 6250000);
    IS(wontabeli_h4_ahb(400000000, 16, out), WONTABELI_CODE_NOT_ALLOWED);
    IS(wontabeli_h4_hclk(400000000, 7, out), 0);
    IS(out[0], 100000000);
    IS(wontabeli_h4_pclk(100000000, 6, out, 2), 0);
    IS(out[0], 12500000);
    IS(out[1], 12500000);
    IS(wontabeli_h4_pclk(100000000, 6, out, 1), WONTABELI_OUTPUT_TOO_SHORT);
    IS(wontabeli_h4_multiplier(4, out), 0);
    IS(out[0], 17);
    IS(wontabeli_h4_multiplier(32, out), WONTABELI_CODE_NOT_ALLOWED);
}

/* 7 and -7 are lent, and a refusal leaves them. */
static void serial(void)
{
    static const struct { uint32_t pclk, rate; uint8_t number; uint16_t brr; int32_t error; } list[] = {
        /* document 02's own, 173.6; one below a half, 2083.3; a rate that divides PCLK; a half, 20.5 */
        {20000000, 115200, 0, 174, -44800}, {20000000, 9600, 0, 2083, 3200}, {72000000, 9600, 0, 7500, 0}, {41, 2, 0, 21, -1},
        /* 16; 15.5, and just below */
        {16000000, 1000000, 0, 16, 0}, {31000000, 2000000, 0, 16, -1000000}, {30999999, 2000000, WONTABELI_BRR_OUT_OF_RANGE, 7, -7},
        /* 65,535; just below 65,535.5, and that */
        {19660500, 300, 0, 65535, 0}, {19660649, 300, 0, 65535, 149}, {19660650, 300, WONTABELI_BRR_OUT_OF_RANGE, 7, -7},
        /* the highest PCLK: 65,535 x 65,537; 15.5 x 277,094,664 is 4,294,967,292, and 15.5 x 277,094,665 is 4,294,967,307.5 */
        {4294967295u, 65537, 0, 65535, 0}, {4294967295u, 277094664, 0, 16, -138547329}, {4294967295u, 277094665, WONTABELI_BRR_OUT_OF_RANGE, 7, -7},
        {4294967295u, 1, WONTABELI_BRR_OUT_OF_RANGE, 7, -7}, {4294967295u, 4294967295u, WONTABELI_BRR_OUT_OF_RANGE, 7, -7},
        {0, 115200, WONTABELI_BRR_OUT_OF_RANGE, 7, -7},
        /* 33 comes first: no BRR of PCLK 0 is in range */
        {20000000, 0, WONTABELI_RATE_ZERO, 7, -7}, {0, 0, WONTABELI_RATE_ZERO, 7, -7}};
    unsigned n;
    for (n = 0; n < sizeof list / sizeof *list; n++) {
        uint16_t brr = 7;
        int32_t error = -7;
        IS(wontabeli_serial_divisor(list[n].pclk, list[n].rate, &brr, &error), list[n].number);
        IS(brr, list[n].brr);
        IS((uint32_t)error, (uint32_t)list[n].error);
    }
    IS(WONTABELI_RATE_ZERO, 33);
    IS(WONTABELI_BRR_OUT_OF_RANGE, 34);
}

/* A board of tests/boards.h: the number that the check answers, and its profile. */
static const struct board { uint8_t number, profile[WONTABELI_PROFILE_SIZE]; } boards[] = {
#define BOARD(number, ...) {number, {__VA_ARGS__}},
#include "boards.h"
};

enum { PROFILE = WONTABELI_PROFILE_SIZE, RECORD = WONTABELI_BOARD_SIZE, KINDS = sizeof boards / sizeof *boards, MOST = 1000 };

/* The record of a board by a check of its profile alone: eight numbers, each with its most significant byte first. A refused check leaves the zeros. */
static void record_of(const struct board *board, uint8_t *record)
{
    uint32_t numbers[1 + WONTABELI_CHECK_WORDS] = {0};
    int n;
    numbers[0] = wontabeli_check(board->profile, PROFILE, numbers + 1, WONTABELI_CHECK_WORDS);
    IS(numbers[0], board->number);
    for (n = 0; n < RECORD; n++)
        record[n] = (uint8_t)(numbers[n / 4] >> (24 - 8 * (n % 4)));
}

/* A tray of so many boards gives what so many checks give, and the bytes beyond stay. */
static void tray_of(int count)
{
    static uint8_t tray[MOST * PROFILE], found[MOST * RECORD + 2], wanted[MOST * RECORD + 2];
    int n;
    memset(found, 0xee, sizeof found);
    memset(wanted, 0xee, sizeof wanted);
    for (n = 0; n < count; n++) {
        memcpy(tray + n * PROFILE, boards[n % KINDS].profile, PROFILE);
        record_of(boards + n % KINDS, wanted + n * RECORD);
    }
    IS(wontabeli_tray(tray, (size_t)count * PROFILE, found, (size_t)count * RECORD + 1), 0);
    for (n = 0; n < count; n++)
        IS(memcmp(found + n * RECORD, wanted + n * RECORD, RECORD), 0);
    IS(memcmp(found, wanted, sizeof found), 0);
}

/* Which refusals the boards have: 1 to 15 and 30, all that a profile of ten bytes can be refused by; 16, which no configuration is known to give, apart. */
static void kinds(void)
{
    uint32_t found = 0;
    int n;
    for (n = 0; n < KINDS; n++)
        found |= (uint32_t)1 << boards[n].number;
    IS(found, 0x4000ffff);
}

/* So many bytes of profiles and so many lent: how the tray is answered. A refusal leaves every byte. */
static void tray_lengths(void)
{
    static const struct { uint8_t profiles, lent, number; } list[] = {
        {0, 0, 0}, {0, 96, 0}, {9, 0, WONTABELI_PROFILE_LENGTH}, {10, 0, WONTABELI_OUTPUT_TOO_SHORT}, {10, 31, WONTABELI_OUTPUT_TOO_SHORT},
        /* 32 comes first */
        {19, 31, WONTABELI_OUTPUT_TOO_SHORT}, {19, 32, WONTABELI_PROFILE_LENGTH}, {11, 32, WONTABELI_PROFILE_LENGTH},
        {20, 63, WONTABELI_OUTPUT_TOO_SHORT}, {29, 63, WONTABELI_OUTPUT_TOO_SHORT}, {29, 64, WONTABELI_PROFILE_LENGTH}, {29, 96, WONTABELI_PROFILE_LENGTH}};
    uint8_t tray[3 * PROFILE] = {0}, lent[3 * RECORD], kept[3 * RECORD];
    unsigned n;
    memset(kept, 0xee, sizeof kept);
    for (n = 0; n < sizeof list / sizeof *list; n++) {
        memcpy(lent, kept, sizeof lent);
        IS(wontabeli_tray(tray, list[n].profiles, lent, list[n].lent), list[n].number);
        IS(memcmp(lent, kept, sizeof lent), 0);
    }
}

static void trays(void)
{
    /* HSI, AHB by 2, APB1 by 4, APB2 by 16, timers twice their bus, the ADC 20 MHz by 2 x 16 x 8; row A2, refused by 4; row A11 */
    static const uint8_t tray[3 * PROFILE] = {0, 0, 0, 0, 0, 0x18, 0x04, 0x5e, 0, 0x34, 0x80, 0x13, 0x12, 0xcf, 0xc0, 0x18, 0, 0, 0, 0x34,
        0, 0, 0, 0, 0, 0x18, 0, 0, 0, 0x34};
    uint8_t lent[3 * RECORD + 1];
    memset(lent, 0xee, sizeof lent);
    IS(wontabeli_tray(tray, sizeof tray, lent, sizeof lent), 0);
    /* 20,000,000, 10,000,000, 2,500,000, 625,000, 5,000,000, 1,250,000, 78,125 */
    SAME(lent, 0, 0, 0, 0, 0x01, 0x31, 0x2d, 0x00, 0x00, 0x98, 0x96, 0x80, 0x00, 0x26, 0x25, 0xa0, 0x00, 0x09, 0x89, 0x68, 0x00, 0x4c, 0x4b, 0x40,
        0x00, 0x13, 0x12, 0xd0, 0x00, 0x01, 0x31, 0x2d);
    SAME(lent + RECORD, 0, 0, 0, WONTABELI_HSE_OUT_OF_RANGE, 0, 0, 0, 0, 0, 0, 0, 0, 0, 0, 0, 0, 0, 0, 0, 0, 0, 0, 0, 0, 0, 0, 0, 0, 0, 0, 0, 0);
    /* six times 20,000,000, and 2,500,000 */
    SAME(lent + 2 * RECORD, 0, 0, 0, 0, 0x01, 0x31, 0x2d, 0x00, 0x01, 0x31, 0x2d, 0x00, 0x01, 0x31, 0x2d, 0x00, 0x01, 0x31, 0x2d, 0x00,
        0x01, 0x31, 0x2d, 0x00, 0x01, 0x31, 0x2d, 0x00, 0x00, 0x26, 0x25, 0xa0, 0xee);
    tray_lengths();
    kinds();
    tray_of(400);
    tray_of(MOST);
}

int main(void)
{
    profiles();
    images();
    startups();
    readings();
    failing();
    flash_mode();
    running();
    differing();
    wrong_together();
    full_boot();
    odd_ticks();
    failed_wait();
    uncounted();
    other_ticks();
    v1();
    v1_codes();
    v30x();
    v30x_codes();
    skipping_32();
    h4();
    serial();
    trays();
    printf("calls: %d right, %d wrong\n", right, wrong);
    return wrong != 0;
}
