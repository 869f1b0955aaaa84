/* A call of a startup in its place, by documents 01 and 02, written apart from the library: its number and all 72 bytes, held to the library over any
 * places; and one boot worked by hand. The clocks are those of `wontabeli_check` and `wontabeli_decode`, which other tests hold to the documents; all
 * else is worked out here. Writes what is wrong and how many are right; status 1 where one is wrong. */
#include <stdio.h>
#include <string.h>
#include "wontabeli.h"

enum {
    PROFILE = WONTABELI_PROFILE_SIZE, IMAGE = WONTABELI_PLACE_IMAGE, STEP = WONTABELI_PLACE_STEP, UNMET = WONTABELI_PLACE_UNMET,
    USED = WONTABELI_PLACE_USED, PHASE = WONTABELI_PLACE_PHASE, REPORT = WONTABELI_PLACE_REPORT, NUMBER = WONTABELI_PLACE_NUMBER,
    NAMED = WONTABELI_PLACE_NAMED, ZERO = 31, FIRST_TICK = WONTABELI_PLACE_FIRST_TICK, TICKS = WONTABELI_PLACE_TICKS,
    LONGEST = WONTABELI_PLACE_LONGEST, SIZE = WONTABELI_PLACE_SIZE
};

/* A place, and a few bytes behind it that must stay. */
enum { BEHIND = 4, LENT = SIZE + BEHIND };

enum { WAITS = 8, LAST_STEP = 28, MOST_UNMET = 999999, MOST_USED = 8000001, ALL_READY = 0x1f };

/* How many are right and wrong; the first few of the wrong ones are shown. */
enum { SHOWN = 3 };
static int right, wrong;

/* ---- The fields ---- */

/* The fields of the profile and of the image, in document 01's order. */
enum field {
    HSE, BYPASS, FREQUENCY, SYSTEM_CLOCK, PLL_SOURCE, PLL, MULTIPLIER, SYSPLL_SOURCE, SYSPLL_LESS_ONE, USBHS, USBHS_SOURCE, ETH, AHB, APB1, APB2,
    RNG, ADC_FROM_USBHS, ADC_DIVISOR, ADC_PRESCALER, DUTY, PROFILE_ZEROS,
    HSION, HSEBYP, HSEON, CSSON, PLLON, USBHS_PLLON, ETH_PLLON, HSIRDY, HSERDY, PLLRDY, USBHS_PLLRDY, ETH_PLLRDY, SWS, SW, PLLSRC, PLLMUL, HPRE,
    PPRE1, PPRE2, ADCPRE, ADCSRC, ADC_DUTY, USBHSPLLSRC, USBHSPLLCLK, SYSPLLSRC, SYSPLLDIV, SYSPLL_GATE, RNGSRC, I2SPLLSRC, ADC_CLKDIV, SCKMOD,
    LOCK, FLOCK, IMAGE_ZEROS
};

/* Where each begins, in bits from the place's first, and how many bits it has. The image begins at bit 80. */
static const struct { uint8_t first, bits; } layout[] = {
    [HSE] = {0, 1}, [BYPASS] = {1, 1}, [FREQUENCY] = {2, 32}, [SYSTEM_CLOCK] = {34, 2}, [PLL_SOURCE] = {36, 1}, [PLL] = {37, 1},
    [MULTIPLIER] = {38, 5}, [SYSPLL_SOURCE] = {43, 3}, [SYSPLL_LESS_ONE] = {46, 3}, [USBHS] = {49, 1}, [USBHS_SOURCE] = {50, 2}, [ETH] = {52, 1},
    [AHB] = {53, 4}, [APB1] = {57, 3}, [APB2] = {60, 3}, [RNG] = {63, 2}, [ADC_FROM_USBHS] = {65, 1}, [ADC_DIVISOR] = {66, 8},
    [ADC_PRESCALER] = {74, 2}, [DUTY] = {76, 2}, [PROFILE_ZEROS] = {78, 2},
    [HSION] = {80, 1}, [HSEBYP] = {81, 1}, [HSEON] = {82, 1}, [CSSON] = {83, 1}, [PLLON] = {84, 1}, [USBHS_PLLON] = {85, 1}, [ETH_PLLON] = {86, 1},
    [HSIRDY] = {87, 1}, [HSERDY] = {88, 1}, [PLLRDY] = {89, 1}, [USBHS_PLLRDY] = {90, 1}, [ETH_PLLRDY] = {91, 1}, [SWS] = {92, 2}, [SW] = {94, 2},
    [PLLSRC] = {96, 1}, [PLLMUL] = {97, 5}, [HPRE] = {102, 4}, [PPRE1] = {106, 3}, [PPRE2] = {109, 3}, [ADCPRE] = {112, 2}, [ADCSRC] = {114, 1},
    [ADC_DUTY] = {115, 2}, [USBHSPLLSRC] = {117, 2}, [USBHSPLLCLK] = {119, 2}, [SYSPLLSRC] = {121, 3}, [SYSPLLDIV] = {124, 3},
    [SYSPLL_GATE] = {127, 1}, [RNGSRC] = {128, 1}, [I2SPLLSRC] = {129, 1}, [ADC_CLKDIV] = {130, 5}, [SCKMOD] = {135, 2}, [LOCK] = {137, 1},
    [FLOCK] = {138, 1}, [IMAGE_ZEROS] = {139, 5}};

static uint32_t get(const uint8_t *place, enum field field)
{
    uint32_t value = 0;
    int bit;
    for (bit = layout[field].first; bit < layout[field].first + layout[field].bits; bit++)
        value = value << 1 | (place[bit / 8] >> (7 - bit % 8) & 1);
    return value;
}

static void set(uint8_t *place, enum field field, uint32_t value)
{
    int bit;
    for (bit = layout[field].first + layout[field].bits - 1; bit >= layout[field].first; bit--, value >>= 1) {
        place[bit / 8] &= (uint8_t)~(0x80 >> bit % 8);
        if (value & 1) place[bit / 8] |= (uint8_t)(0x80 >> bit % 8);
    }
}

/* Numbers of four bytes, the most significant first. */
static uint32_t number_at(const uint8_t *place, int at)
{
    return (uint32_t)place[at] << 24 | (uint32_t)place[at + 1] << 16 | (uint32_t)place[at + 2] << 8 | place[at + 3];
}

static void put_number(uint8_t *place, int at, uint32_t number)
{
    int n;
    for (n = 0; n < 4; n++)
        place[at + n] = (uint8_t)(number >> (24 - 8 * n));
}

/* ---- One call, by the documents ---- */

/* Whether the profile can be read: every code has a name, and what is absent has zeros. */
static int readable(const uint8_t *place)
{
    uint32_t source = get(place, SYSPLL_SOURCE), ahb = get(place, AHB), apb1 = get(place, APB1), apb2 = get(place, APB2);
    if (!get(place, HSE) && (get(place, BYPASS) || get(place, FREQUENCY))) return 0;
    if (!get(place, PLL) && get(place, MULTIPLIER)) return 0;
    if (!get(place, USBHS) && get(place, USBHS_SOURCE)) return 0;
    if (!get(place, ADC_FROM_USBHS) && get(place, ADC_DIVISOR)) return 0;
    if (get(place, SYSTEM_CLOCK) == 3 || get(place, USBHS_SOURCE) == 3 || get(place, RNG) == 3 || get(place, DUTY) == 3) return 0;
    if (source == 4 || source == 5 || source == 7) return 0;
    if ((ahb >= 1 && ahb <= 7) || (apb1 >= 1 && apb1 <= 3) || (apb2 >= 1 && apb2 <= 3)) return 0;
    return get(place, PROFILE_ZEROS) == 0;
}

/* The steps of absent parts. */
static int skips(const uint8_t *place, int step)
{
    if (step >= 8 && step <= 10) return !get(place, HSE);
    if (step >= 11 && step <= 12) return !get(place, ETH);
    if (step >= 13 && step <= 15) return !get(place, USBHS);
    if (step >= 16 && step <= 18) return !get(place, PLL);
    if (step == 24) return !get(place, ADC_FROM_USBHS);
    if (step == 25) return get(place, SYSTEM_CLOCK) != 2;
    return 0;
}

/* The steps that wait. */
static const uint8_t waits[WAITS] = {2, 4, 7, 10, 12, 15, 18, 27};

/* Which of the waits a step is; WAITS where it is none. */
static int wait_of(int step)
{
    int n;
    for (n = 0; n < WAITS && waits[n] != step; n++) {
    }
    return n;
}

/* Step 6. */
static void all_off(uint8_t *place)
{
    set(place, CSSON, 0);
    set(place, PLLON, 0);
    set(place, USBHS_PLLON, 0);
    set(place, ETH_PLLON, 0);
    set(place, HSEON, 0);
}

/* Step 13: the reference is HSE, HSI's 20 MHz or the ETH PLL's 20 MHz. The codes of 25, 20, 24 and 32 MHz are 0, 1, 2 and 3. */
static void usbhs(uint8_t *place)
{
    uint32_t reference = get(place, USBHS_SOURCE) == 0 ? get(place, FREQUENCY) : 20000000;
    set(place, USBHSPLLSRC, get(place, USBHS_SOURCE));
    set(place, USBHSPLLCLK, reference == 25000000 ? 0 : reference == 20000000 ? 1 : reference == 24000000 ? 2 : 3);
}

/* Step 16. */
static void main_pll(uint8_t *place)
{
    set(place, PLLSRC, get(place, PLL_SOURCE));
    set(place, PLLMUL, get(place, MULTIPLIER));
}

/* Step 20. */
static void flash(uint8_t *place, uint32_t mode)
{
    set(place, SCKMOD, mode);
    set(place, LOCK, 1);
    set(place, FLOCK, 1);
}

/* Step 22: I2SPLLSRC is set for the ETH PLL and clear for USBHS, and kept where the RNG has SYSCLK. */
static void sources(uint8_t *place)
{
    set(place, SYSPLLSRC, get(place, SYSPLL_SOURCE));
    set(place, SYSPLLDIV, get(place, SYSPLL_LESS_ONE));
    set(place, RNGSRC, get(place, RNG) != 0);
    if (get(place, RNG) != 0) set(place, I2SPLLSRC, get(place, RNG) == 2);
}

/* Step 23. */
static void dividers(uint8_t *place)
{
    set(place, HPRE, get(place, AHB));
    set(place, PPRE1, get(place, APB1));
    set(place, PPRE2, get(place, APB2));
    set(place, ADCPRE, get(place, ADC_PRESCALER));
    set(place, ADCSRC, get(place, ADC_FROM_USBHS));
    set(place, ADC_DUTY, get(place, DUTY));
}

/* Step 28: the image, decoded, gives the six clocks of the check. */
static int same_clocks(const uint8_t *place, const uint32_t *clocks)
{
    uint32_t decoded[WONTABELI_CLOCKS_WORDS];
    if (wontabeli_decode(place + IMAGE, WONTABELI_IMAGE_SIZE, get(place, FREQUENCY), decoded, WONTABELI_CLOCKS_WORDS) != 0) return 0;
    return memcmp(decoded, clocks, sizeof decoded) == 0;
}

/* Document 01's steps. Makes the step's writes, or answers whether the reading is what is waited for; at 21 and 28, whether what is compared is the
 * same. */
static int works(uint8_t *place, int step, uint16_t reading, const uint32_t *clocks)
{
    uint32_t sws = reading / WONTABELI_SWS % 4, sckmod = reading / WONTABELI_SCKMOD % 4, mode = clocks[WONTABELI_HCLK] > 100000000;
    switch (step) {
    case 1: set(place, HSION, 1); break;
    case 2: return (reading & WONTABELI_HSIRDY) != 0;
    case 3: set(place, SW, 0); break;
    case 4: return sws == 0;
    case 5: set(place, SYSPLL_GATE, 0); break;
    case 6: all_off(place); break;
    case 7: return (reading & ALL_READY & ~WONTABELI_HSIRDY) == 0;
    case 8: set(place, HSEBYP, get(place, BYPASS)); break;
    case 9: set(place, HSEON, 1); break;
    case 10: return (reading & WONTABELI_HSERDY) != 0;
    case 11: set(place, ETH_PLLON, 1); break;
    case 12: return (reading & WONTABELI_ETH_PLLRDY) != 0;
    case 13: usbhs(place); break;
    case 14: set(place, USBHS_PLLON, 1); break;
    case 15: return (reading & WONTABELI_USBHS_PLLRDY) != 0;
    case 16: main_pll(place); break;
    case 17: set(place, PLLON, 1); break;
    case 18: return (reading & WONTABELI_PLLRDY) != 0;
    case 19: break;
    case 20: flash(place, mode); break;
    case 21: return sckmod == mode;
    case 22: sources(place); break;
    case 23: dividers(place); break;
    case 24: set(place, ADC_CLKDIV, get(place, ADC_DIVISOR) - 1); break;
    case 25: set(place, SYSPLL_GATE, 1); break;
    case 26: set(place, SW, get(place, SYSTEM_CLOCK)); break;
    case 27: return sws == get(place, SYSTEM_CLOCK);
    case 28: return same_clocks(place, clocks);
    }
    return 1;
}

/* A reading is used: its ready bits and SWS go into the image, and it is counted. */
static void use(uint8_t *place, uint16_t reading)
{
    set(place, HSIRDY, (reading & WONTABELI_HSIRDY) != 0);
    set(place, HSERDY, (reading & WONTABELI_HSERDY) != 0);
    set(place, PLLRDY, (reading & WONTABELI_PLLRDY) != 0);
    set(place, USBHS_PLLRDY, (reading & WONTABELI_USBHS_PLLRDY) != 0);
    set(place, ETH_PLLRDY, (reading & WONTABELI_ETH_PLLRDY) != 0);
    set(place, SWS, reading / WONTABELI_SWS % 4);
    put_number(place, USED, number_at(place, USED) + 1);
}

/* The number of a call that works no step, and leaves every byte; -1 where the step is worked. */
static int unworked(const uint8_t *place, size_t lent, uint32_t *clocks)
{
    int step, phase;
    if (lent < SIZE) return WONTABELI_OUTPUT_TOO_SHORT;
    if (!readable(place)) return WONTABELI_PROFILE_CODE;
    if (get(place, IMAGE_ZEROS) != 0) return WONTABELI_IMAGE_LENGTH_OR_FILLING;
    step = place[STEP];
    phase = place[PHASE];
    if (phase == WONTABELI_PHASE_RUNNING) return 0;
    if (phase >= 21 && phase <= 23) return phase;
    if (phase != WONTABELI_PHASE_GOING || wontabeli_check(place, PROFILE, clocks, WONTABELI_CHECK_WORDS) != 0) return WONTABELI_CODE_NOT_ALLOWED;
    if (step < 1 || step > LAST_STEP || skips(place, step)) return WONTABELI_CODE_NOT_ALLOWED;
    if (wait_of(step) < WAITS && number_at(place, UNMET) > MOST_UNMET) return WONTABELI_CODE_NOT_ALLOWED;
    if (number_at(place, USED) > MOST_USED) return WONTABELI_CODE_NOT_ALLOWED;
    return -1;
}

/* What a call reports, with the step that it worked. */
static uint8_t reports(uint8_t *place, uint8_t phase, uint8_t report, uint8_t number, int step)
{
    place[PHASE] = phase;
    place[REPORT] = report;
    place[NUMBER] = number;
    place[NAMED] = (uint8_t)step;
    place[ZERO] = 0;
    return number;
}

/* A wait without an unmet reading has its first one now; at its 1,000,000th it fails. */
static uint8_t waits_on(uint8_t *place, int step, uint32_t tick)
{
    uint32_t unmet = number_at(place, UNMET);
    if (unmet == 0) put_number(place, FIRST_TICK, tick);
    put_number(place, UNMET, unmet + 1);
    if (unmet == MOST_UNMET) return reports(place, WONTABELI_WAIT_FAILED, WONTABELI_REPORT_FAILED, WONTABELI_WAIT_FAILED, step);
    return reports(place, WONTABELI_PHASE_GOING, WONTABELI_REPORT_WAITING, 0, step);
}

/* The ticks of a met wait, in 64 bits so that nothing wraps here: 0 where its first reading meets it. Then the longest of the eight. */
static void met(uint8_t *place, int wait, uint32_t tick)
{
    uint64_t turn = (uint64_t)1 << 32, first = number_at(place, UNMET) == 0 ? tick : number_at(place, FIRST_TICK);
    uint32_t longest = 0;
    int n;
    put_number(place, TICKS + 4 * wait, (uint32_t)((turn + tick - first) % turn));
    for (n = 0; n < WAITS; n++)
        if (number_at(place, TICKS + 4 * n) > longest) longest = number_at(place, TICKS + 4 * n);
    put_number(place, LONGEST, longest);
}

/* A call: its number, and what it leaves in the place. */
static uint8_t call(uint8_t *place, size_t lent, uint16_t reading, uint32_t tick)
{
    uint32_t clocks[WONTABELI_CHECK_WORDS];
    int number = unworked(place, lent, clocks), step, wait, as_wanted;
    if (number >= 0) return (uint8_t)number;
    step = place[STEP];
    wait = wait_of(step);
    if (wait < WAITS || step == 21) use(place, reading);
    as_wanted = works(place, step, reading, clocks);
    if (step == LAST_STEP && !as_wanted) return WONTABELI_CLOCKS_DIFFER;
    if (step == LAST_STEP) return reports(place, WONTABELI_PHASE_RUNNING, WONTABELI_REPORT_RUNNING, 0, step);
    if (step == 21 && !as_wanted) return reports(place, WONTABELI_FLASH_MODE_DIFFERS, WONTABELI_REPORT_FAILED, WONTABELI_FLASH_MODE_DIFFERS, step);
    if (!as_wanted) return waits_on(place, step, tick);
    if (wait < WAITS) met(place, wait, tick);
    put_number(place, UNMET, 0);
    do
        place[STEP]++;
    while (skips(place, place[STEP]));
    return reports(place, WONTABELI_PHASE_GOING, WONTABELI_REPORT_WORKED, 0, step);
}

/* ---- Any places ---- */

/* The profiles of the places, their fields in layout order. */
static const uint32_t profiles[][PROFILE_ZEROS] = {
    /* row A11, and HSE 4,999,999, which the check refuses by 4 */
    {0, 0, 0, 0, 0, 0, 0, 6, 0, 0, 0, 0, 0, 0, 0, 0, 0, 0, 3, 1}, {1, 0, 4999999, 0, 0, 0, 0, 6, 0, 0, 0, 0, 0, 0, 0, 0, 0, 0, 3, 1},
    /* every part: HCLK is 100 MHz; row A6: 100,000,012 Hz */
    {1, 1, 25000000, 2, 1, 1, 12, 6, 1, 1, 0, 1, 8, 5, 4, 1, 1, 4, 3, 1}, {1, 0, 8000001, 2, 1, 1, 5, 6, 0, 0, 0, 0, 0, 0, 0, 0, 0, 0, 3, 1},
    /* HSI x 10 is 200 MHz, USBHS from HSI, ETH; row A7: two thirds of ETH by 2 */
    {1, 0, 25000000, 2, 0, 1, 2, 6, 0, 1, 1, 1, 0, 0, 0, 0, 0, 0, 3, 1}, {1, 0, 25000000, 2, 0, 0, 0, 3, 1, 0, 0, 1, 0, 0, 0, 0, 0, 0, 3, 1},
    /* ETH by 4 beside a main PLL; USBHS by 3, from ETH, which feeds the RNG */
    {1, 0, 25000000, 2, 1, 1, 4, 1, 3, 0, 0, 1, 0, 0, 0, 0, 0, 0, 3, 1}, {1, 0, 25000000, 2, 0, 0, 0, 0, 2, 1, 2, 1, 0, 4, 5, 2, 1, 32, 0, 0},
    /* HSE 24 MHz as system clock and USBHS from it; two thirds of USBHS by 4, from HSE 32 MHz */
    {1, 1, 24000000, 1, 1, 0, 0, 2, 4, 1, 0, 0, 12, 7, 6, 1, 0, 0, 2, 2}, {1, 0, 32000000, 2, 0, 0, 0, 2, 3, 1, 0, 0, 9, 0, 0, 0, 1, 7, 3, 0}};

static uint64_t state = 1;

/* Numbers that look random, the same at every run. */
static uint32_t any(void)
{
    state = state * 6364136223846793005u + 1442695040888963407u;
    return (uint32_t)(state >> 32);
}

static uint32_t below(uint32_t limit) { return any() % limit; }

/* One of the profiles, sometimes with other dividers, sometimes with a bit damaged. */
static void some_profile(uint8_t *place)
{
    const uint32_t *fields = profiles[below(sizeof profiles / sizeof *profiles)];
    int field;
    for (field = 0; field < PROFILE_ZEROS; field++)
        set(place, (enum field)field, fields[field]);
    set(place, PROFILE_ZEROS, 0);
    if (below(4) == 0) {
        set(place, AHB, 8 + below(8));
        set(place, APB1, 4 + below(4));
        set(place, APB2, 4 + below(4));
        set(place, DUTY, below(3));
    }
    if (below(20) == 0) place[below(PROFILE)] ^= (uint8_t)(1 << below(8));
}

/* The place's startup from step 1 to 28 by calls above whose readings are good, so that its image is what it must be there. */
static void driven(uint8_t *place)
{
    uint32_t clocks[WONTABELI_CHECK_WORDS];
    int calls;
    place[STEP] = 1;
    place[PHASE] = 0;
    put_number(place, UNMET, 0);
    put_number(place, USED, 0);
    if (unworked(place, SIZE, clocks) >= 0) return;
    for (calls = 0; calls < LAST_STEP && place[STEP] != LAST_STEP; calls++) {
        int step = place[STEP];
        uint32_t sws = step == 4 ? 0 : get(place, SYSTEM_CLOCK), sckmod = clocks[WONTABELI_HCLK] > 100000000;
        uint32_t ready = step == 7 ? WONTABELI_HSIRDY : ALL_READY;
        call(place, SIZE, (uint16_t)(ready + WONTABELI_SWS * sws + WONTABELI_SCKMOD * sckmod), any());
    }
}

/* Some place: any bytes, or a startup somewhere on its way with any image and ticks, or one that is damaged. */
static void some_place(uint8_t *place)
{
    static const uint8_t phases[] = {0, 0, 0, 0, 0, 0, 0, 0, 0, 0, 0, 0, 1, 21, 22, 23, 2, 20, 24, 255};
    static const uint32_t counts[] = {0, 0, 0, 0, 1, 2, 255, 65535, 999998, 999999, 999999, 1000000, 1000001, 8000000, 8000001, 8000002, 0x80000000,
        0xffffffff};
    int n;
    for (n = 0; n < LENT; n++)
        place[n] = (uint8_t)any();
    if (below(16) == 0) return;
    some_profile(place);
    if (below(20) != 0) set(place, IMAGE_ZEROS, 0);
    place[STEP] = (uint8_t)(below(20) == 0 ? any() : below(3) == 0 ? waits[below(WAITS)] : 1 + below(LAST_STEP));
    if (place[STEP] == LAST_STEP && below(2) == 0) {
        driven(place);
        if (below(4) == 0) place[IMAGE + below(WONTABELI_IMAGE_SIZE)] ^= (uint8_t)(1 << below(8));
    }
    put_number(place, UNMET, counts[below(below(4) == 0 ? sizeof counts / sizeof *counts : 11)]);
    put_number(place, USED, counts[below(below(4) == 0 ? sizeof counts / sizeof *counts : 15)]);
    place[PHASE] = phases[below(sizeof phases)];
}

static void show(const char *what, const uint8_t *place)
{
    int n;
    printf("  %s ", what);
    for (n = 0; n < LENT; n++) {
        int begins = n == IMAGE || n == STEP || n == UNMET || n == USED || n == PHASE || (n >= REPORT && n % 4 == 0);
        printf(begins ? " %02x" : "%02x", place[n]);
    }
    printf("\n");
}

/* How often each number came up, and each report at each step. */
static int numbers[33], seen[LAST_STEP + 1][4];

/* A place, a reading and a tick: the library's call and the one above leave the same, and give the same number. */
static void compare(const uint8_t *old, size_t lent, uint16_t reading, uint32_t tick)
{
    uint8_t found[LENT], wanted[LENT], number, wanted_number;
    memcpy(found, old, sizeof found);
    memcpy(wanted, old, sizeof wanted);
    number = wontabeli_step(found, lent, reading, tick);
    wanted_number = call(wanted, lent, reading, tick);
    numbers[wanted_number]++;
    if (memcmp(wanted, old, sizeof wanted) != 0) seen[old[STEP]][wanted[REPORT]]++;
    if (number == wanted_number && memcmp(found, wanted, sizeof found) == 0) {
        right++;
        return;
    }
    if (wrong++ >= SHOWN) return;
    printf("tests/place.c: number %d, and not %d, for reading %04x and tick %08lx with %d bytes lent\n", number, wanted_number, (unsigned)reading,
        (unsigned long)tick, (int)lent);
    show("before  ", old);
    show("expected", wanted);
    show("found   ", found);
}

/* Whether something came up often enough. */
static void often(const char *what, int which, int times, int least)
{
    if (times >= least) {
        right++;
        return;
    }
    wrong++;
    printf("tests/place.c: %s %d came up %d times, and should %d times\n", what, which, times, least);
}

static void at_random(void)
{
    static const int answers[] = {0, 21, 22, 23, 28, 30, 31, 32};
    unsigned n;
    int rounds, step;
    for (rounds = 0; rounds < 300000; rounds++) {
        uint8_t old[LENT];
        uint16_t reading = (uint16_t)(below(3) ? any() : below(2) ? 0 : 1u << below(9));
        size_t lent = below(64) == 0 ? below(SIZE) : SIZE + below(3);
        uint32_t tick;
        some_place(old);
        tick = below(3) ? any() : number_at(old, FIRST_TICK) + below(5) - 2;
        compare(old, lent, reading, tick);
    }
    for (n = 0; n < sizeof answers / sizeof *answers; n++)
        often("number", answers[n], numbers[answers[n]], 1000);
    for (step = 1; step <= LAST_STEP; step++) {
        often("working step", step, seen[step][step == LAST_STEP ? WONTABELI_REPORT_RUNNING : WONTABELI_REPORT_WORKED], 500);
        if (wait_of(step) == WAITS) continue;
        often("waiting at", step, seen[step][WONTABELI_REPORT_WAITING], 500);
        often("failing at", step, seen[step][WONTABELI_REPORT_FAILED], 100);
    }
}

/* ---- One boot, worked by hand ---- */

/* HSE 25 MHz fed in, main PLL from HSE x 16 by 2 as system clock, USBHS PLL from HSE, ETH PLL, AHB by 2, APB1 by 4, APB2 by 2, RNG from USBHS, ADC
 * from USBHS by 4, prescaler 8, duty 62.5 %. HCLK is 100 MHz. No step is skipped. */
static const uint8_t every_part[PROFILE] = {0xc0, 0x5f, 0x5e, 0x10, 0x2d, 0x98, 0xcc, 0x58, 0xc1, 0x34};

enum { WORKED = WONTABELI_REPORT_WORKED, WAITING = WONTABELI_REPORT_WAITING, RUNNING = WONTABELI_REPORT_RUNNING, ODD = 0x1e3779b9 };

/* The boot's calls. Of each: the reading and the tick that are handed in; then the step whose turn it is, its unmet readings, all that are used, the
 * report, the step that it names, the tick of the wait's first reading, how many waits are met, and the image.
 * The image begins with all ones but the filling. Cut into fields, with a dot for each bit of a field that has several, its bytes are
 *   0: HSION HSEBYP HSEON CSSON PLLON USBHS_PLLON ETH_PLLON HSIRDY    1: HSERDY PLLRDY USBHS_PLLRDY ETH_PLLRDY SWS.. SW..
 *   2: PLLSRC PLLMUL..... HPRE..    3: HPRE.. PPRE1... PPRE2...       4: ADCPRE.. ADCSRC DUTY.. USBHSPLLSRC.. USBHSPLLCLK.
 *   5: USBHSPLLCLK. SYSPLLSRC... SYSPLLDIV... GATE                    6: RNGSRC I2SPLLSRC ADC_CLKDIV..... SCKMOD.
 *   7: SCKMOD. LOCK FLOCK 00000
 * A row changes the one before it by what document 01 says of its step; a used reading changes HSIRDY, by its bit 0x01, and the upper six bits of
 * byte 1, by its bits 0x02, 0x04, 0x08 and 0x10 and its SWS. Where a reading or a tick isn't looked at, an odd one is handed in. */
static const struct boot_call {
    uint16_t reading;
    uint32_t tick;
    uint8_t step, unmet, used, report, named;
    uint32_t first;
    int met;
    uint8_t image[WONTABELI_IMAGE_SIZE];
} boot_calls[] = {
    /* HSION is set already */
    {0xffff, ODD, 2, 0, 0, WORKED, 1, 0, 0, {0xff, 0xff, 0xff, 0xff, 0xff, 0xff, 0xff, 0xe0}},
    /* all ready but HSI, SWS 2: 1111111 0, 1111 10 11; then HSI too. 1,007 - 1,000 is 7 */
    {0x005e, 1000, 2, 1, 1, WAITING, 2, 1000, 0, {0xfe, 0xfb, 0xff, 0xff, 0xff, 0xff, 0xff, 0xe0}},
    {0x005f, 1007, 3, 0, 2, WORKED, 2, 1000, 1, {0xff, 0xfb, 0xff, 0xff, 0xff, 0xff, 0xff, 0xe0}},
    /* SW 0: 1111 10 00 */
    {0xffff, ODD, 4, 0, 2, WORKED, 3, 1000, 1, {0xff, 0xf8, 0xff, 0xff, 0xff, 0xff, 0xff, 0xe0}},
    /* SWS 1, then 0: 1111 01 00, 1111 00 00. One tick up to the counter's end, and 16 from there: 17 */
    {0x003f, 0xffffffff, 4, 1, 3, WAITING, 4, 0xffffffff, 1, {0xff, 0xf4, 0xff, 0xff, 0xff, 0xff, 0xff, 0xe0}},
    {0x001f, 16, 5, 0, 4, WORKED, 4, 0xffffffff, 2, {0xff, 0xf0, 0xff, 0xff, 0xff, 0xff, 0xff, 0xe0}},
    /* the gate off: 1 111 111 0. Five bits off: 1 1 00000 1 */
    {0xffff, ODD, 6, 0, 4, WORKED, 5, 0xffffffff, 2, {0xff, 0xf0, 0xff, 0xff, 0xff, 0xfe, 0xff, 0xe0}},
    {0xffff, ODD, 7, 0, 4, WORKED, 6, 0xffffffff, 2, {0xc1, 0xf0, 0xff, 0xff, 0xff, 0xfe, 0xff, 0xe0}},
    /* HSI, main and ETH PLL ready, then HSI and HSE, then HSI alone: 0101 00 00, 1000 00 00, 0. 2,500 - 500 is 2,000 */
    {0x0015, 500, 7, 1, 5, WAITING, 7, 500, 2, {0xc1, 0x50, 0xff, 0xff, 0xff, 0xfe, 0xff, 0xe0}},
    {0x0003, 800, 7, 2, 6, WAITING, 7, 500, 2, {0xc1, 0x80, 0xff, 0xff, 0xff, 0xfe, 0xff, 0xe0}},
    {0x0001, 2500, 8, 0, 7, WORKED, 7, 500, 3, {0xc1, 0x00, 0xff, 0xff, 0xff, 0xfe, 0xff, 0xe0}},
    /* HSEBYP is set already. HSEON: 1 1 1 0000 1 */
    {0xffff, ODD, 9, 0, 7, WORKED, 8, 500, 3, {0xc1, 0x00, 0xff, 0xff, 0xff, 0xfe, 0xff, 0xe0}},
    {0xffff, ODD, 10, 0, 7, WORKED, 9, 500, 3, {0xe1, 0x00, 0xff, 0xff, 0xff, 0xfe, 0xff, 0xe0}},
    /* HSI ready, then HSE too: 1000 00 00. 70,005 - 5 is 70,000 */
    {0x0001, 5, 10, 1, 8, WAITING, 10, 5, 3, {0xe1, 0x00, 0xff, 0xff, 0xff, 0xfe, 0xff, 0xe0}},
    {0x0003, 70005, 11, 0, 9, WORKED, 10, 5, 4, {0xe1, 0x80, 0xff, 0xff, 0xff, 0xfe, 0xff, 0xe0}},
    /* ETH_PLLON: 111 000 1 1 */
    {0xffff, ODD, 12, 0, 9, WORKED, 11, 5, 4, {0xe3, 0x80, 0xff, 0xff, 0xff, 0xfe, 0xff, 0xe0}},
    /* all ready but ETH, then HSI, HSE and ETH: 1110 00 00, 1001 00 00. 0x80000013 - 0x80000000 is 19 */
    {0x000f, 0x80000000, 12, 1, 10, WAITING, 12, 0x80000000, 4, {0xe3, 0xe0, 0xff, 0xff, 0xff, 0xfe, 0xff, 0xe0}},
    {0x0013, 0x80000013, 13, 0, 11, WORKED, 12, 0x80000000, 5, {0xe3, 0x90, 0xff, 0xff, 0xff, 0xfe, 0xff, 0xe0}},
    /* source HSE is 0, and so is the code of 25 MHz: 11 1 11 00 0, 0 111 111 0. USBHS_PLLON: 111 00 1 1 1 */
    {0xffff, ODD, 14, 0, 11, WORKED, 13, 0x80000000, 5, {0xe3, 0x90, 0xff, 0xff, 0xf8, 0x7e, 0xff, 0xe0}},
    {0xffff, ODD, 15, 0, 11, WORKED, 14, 0x80000000, 5, {0xe7, 0x90, 0xff, 0xff, 0xf8, 0x7e, 0xff, 0xe0}},
    /* all ready but the main PLL: 1011 00 00. Met by its first reading: 0 ticks, and the tick of a first unmet one stays the last wait's */
    {0x001b, 77777, 16, 0, 12, WORKED, 15, 0x80000000, 6, {0xe7, 0xb0, 0xff, 0xff, 0xf8, 0x7e, 0xff, 0xe0}},
    /* source HSE is 1, and the multiplier 12: 1 01100 11. PLLON: 111 0 1 1 1 1 */
    {0xffff, ODD, 17, 0, 12, WORKED, 16, 0x80000000, 6, {0xe7, 0xb0, 0xb3, 0xff, 0xf8, 0x7e, 0xff, 0xe0}},
    {0xffff, ODD, 18, 0, 12, WORKED, 17, 0x80000000, 6, {0xef, 0xb0, 0xb3, 0xff, 0xf8, 0x7e, 0xff, 0xe0}},
    /* all ready but the main PLL, then all: 1011 00 00, 1111 00 00. 100,000 - 90,000 is 10,000 */
    {0x001b, 90000, 18, 1, 13, WAITING, 18, 90000, 6, {0xef, 0xb0, 0xb3, 0xff, 0xf8, 0x7e, 0xff, 0xe0}},
    {0x001f, 100000, 19, 0, 14, WORKED, 18, 90000, 7, {0xef, 0xf0, 0xb3, 0xff, 0xf8, 0x7e, 0xff, 0xe0}},
    /* the host's keys. SCKMOD is 0 at 100 MHz, both locks are set: 1 1 11111 0, 0 1 1 00000 */
    {0xffff, ODD, 20, 0, 14, WORKED, 19, 90000, 7, {0xef, 0xf0, 0xb3, 0xff, 0xf8, 0x7e, 0xff, 0xe0}},
    {0xffff, ODD, 21, 0, 14, WORKED, 20, 90000, 7, {0xef, 0xf0, 0xb3, 0xff, 0xf8, 0x7e, 0xfe, 0x60}},
    /* SCKMOD 0, all ready, SWS 3, and the bits above that nobody looks at: 1111 11 00. It is no wait */
    {0xfe7f, ODD, 22, 0, 15, WORKED, 21, 90000, 7, {0xef, 0xfc, 0xb3, 0xff, 0xf8, 0x7e, 0xfe, 0x60}},
    /* SYSPLL source 6, divisor less one 1: 0 110 001 0. The RNG has USBHS: RNGSRC 1, I2SPLLSRC 0: 1 0 11111 0 */
    {0xffff, ODD, 23, 0, 15, WORKED, 22, 90000, 7, {0xef, 0xfc, 0xb3, 0xff, 0xf8, 0x62, 0xbe, 0x60}},
    /* HPRE 8, PPRE1 5, PPRE2 4, ADCPRE 3, ADCSRC 1, duty 1: 1 01100 10, 00 101 100, 11 1 01 00 0 */
    {0xffff, ODD, 24, 0, 15, WORKED, 23, 90000, 7, {0xef, 0xfc, 0xb2, 0x2c, 0xe8, 0x62, 0xbe, 0x60}},
    /* divisor less one 3: 1 0 00011 0. The gate on: 0 110 001 1. SW 2: 1111 11 10 */
    {0xffff, ODD, 25, 0, 15, WORKED, 24, 90000, 7, {0xef, 0xfc, 0xb2, 0x2c, 0xe8, 0x62, 0x86, 0x60}},
    {0xffff, ODD, 26, 0, 15, WORKED, 25, 90000, 7, {0xef, 0xfc, 0xb2, 0x2c, 0xe8, 0x63, 0x86, 0x60}},
    {0xffff, ODD, 27, 0, 15, WORKED, 26, 90000, 7, {0xef, 0xfe, 0xb2, 0x2c, 0xe8, 0x63, 0x86, 0x60}},
    /* SWS 1, then 2: 1111 01 10, 1111 10 10. 35 - 12 is 23 */
    {0x003f, 12, 27, 1, 16, WAITING, 27, 12, 7, {0xef, 0xf6, 0xb2, 0x2c, 0xe8, 0x63, 0x86, 0x60}},
    {0x005f, 35, 28, 0, 17, WORKED, 27, 12, 8, {0xef, 0xfa, 0xb2, 0x2c, 0xe8, 0x63, 0x86, 0x60}},
    /* the image's clocks are the check's */
    {0xffff, ODD, 28, 0, 17, RUNNING, 28, 12, 8, {0xef, 0xfa, 0xb2, 0x2c, 0xe8, 0x63, 0x86, 0x60}}};

/* The whole place after a call of the boot: the waits that are met have their ticks, and the others 0. */
static void placed(uint8_t *place, const struct boot_call *after)
{
    static const uint32_t ticks[WAITS] = {7, 17, 2000, 70000, 19, 0, 10000, 23};
    static const uint32_t longest[WAITS + 1] = {0, 7, 17, 2000, 70000, 70000, 70000, 70000, 70000};
    int n;
    memset(place, 0, SIZE);
    memcpy(place, every_part, PROFILE);
    memcpy(place + IMAGE, after->image, sizeof after->image);
    place[STEP] = after->step;
    put_number(place, UNMET, after->unmet);
    put_number(place, USED, after->used);
    place[PHASE] = after->report == RUNNING ? WONTABELI_PHASE_RUNNING : WONTABELI_PHASE_GOING;
    place[REPORT] = after->report;
    place[NAMED] = after->named;
    put_number(place, FIRST_TICK, after->first);
    for (n = 0; n < after->met; n++)
        put_number(place, TICKS + 4 * n, ticks[n]);
    put_number(place, LONGEST, longest[after->met]);
}

static void is_placed(int calls, uint8_t number, const uint8_t *place, const struct boot_call *after)
{
    uint8_t wanted[LENT];
    memset(wanted, 0xee, sizeof wanted);
    placed(wanted, after);
    if (number == 0 && memcmp(place, wanted, sizeof wanted) == 0) {
        right++;
        return;
    }
    if (wrong++ >= SHOWN) return;
    printf("tests/place.c: number %d after call %d of the boot\n", number, calls);
    show("expected", wanted);
    show("found   ", place);
}

static void by_hand(void)
{
    static const struct boot_call begun = {0, 0, 1, 0, 0, WORKED, 0, 0, 0, {0xff, 0xff, 0xff, 0xff, 0xff, 0xff, 0xff, 0xe0}};
    uint8_t place[LENT];
    unsigned n;
    memset(place, 0xee, sizeof place);
    is_placed(0, wontabeli_start(every_part, PROFILE, begun.image, sizeof begun.image, place, sizeof place), place, &begun);
    for (n = 0; n < sizeof boot_calls / sizeof *boot_calls; n++)
        is_placed((int)n + 1, wontabeli_step(place, sizeof place, boot_calls[n].reading, boot_calls[n].tick), place, boot_calls + n);
}

int main(void)
{
    by_hand();
    at_random();
    printf("place: %d right, %d wrong\n", right, wrong);
    return wrong != 0;
}
