/* The library with one mistake, the one whose number MISTAKE has: mistakes that a definition and its code can make together. Linked with tests/calls.c and
 * with tests/place.c, one of which must see each, by `-Wl,--wrap` for every call below (examples/run). With MISTAKE 0 it makes none. */
#include <stdlib.h>
#include <string.h>
#include "wontabeli.h"

#define V1 WONTABELI_V1_FIELDS_SIZE

uint8_t __real_wontabeli_start(const uint8_t *profile, size_t profile_len, const uint8_t *image, size_t image_len, uint8_t *place, size_t place_len);
uint8_t __real_wontabeli_step(uint8_t *place, size_t place_len, uint16_t reading, uint32_t tick);
uint8_t __real_wontabeli_v1_check(uint8_t part, const uint8_t *config, size_t config_len, uint32_t *out, size_t out_len);
uint8_t __real_wontabeli_v1_decode(uint8_t part, const uint8_t *fields, size_t fields_len, uint32_t hse, uint32_t *out, size_t out_len);
uint8_t __real_wontabeli_v1_init_fields(uint8_t part, const uint8_t *config, size_t config_len, const uint8_t *earlier, size_t earlier_len,
    uint8_t *out, size_t out_len);
uint8_t __real_wontabeli_v30x_check(const uint8_t *config, size_t config_len, uint32_t *out, size_t out_len);
uint8_t __real_wontabeli_v30x_decode(const uint8_t *fields, size_t fields_len, uint32_t hse, uint32_t *out, size_t out_len);
uint8_t __real_wontabeli_serial_divisor(uint32_t pclk, uint32_t rate, uint16_t *brr, int32_t *error);
uint8_t __real_wontabeli_tray(const uint8_t *profiles, size_t profiles_len, uint8_t *out, size_t out_len);

static int mistake(int number)
{
    static int chosen = -1;
    if (chosen < 0) {
        const char *text = getenv("MISTAKE");
        chosen = text ? atoi(text) : 0;
    }
    return chosen == number;
}

uint8_t __wrap_wontabeli_start(const uint8_t *profile, size_t profile_len, const uint8_t *image, size_t image_len, uint8_t *place, size_t place_len)
{
    uint8_t number, ticks[WONTABELI_PLACE_SIZE - WONTABELI_PLACE_FIRST_TICK];
    /* 1: the image before the profile */
    if (mistake(1) && place_len >= WONTABELI_PLACE_SIZE && (image_len != 8 || image[7] % 32 != 0))
        return WONTABELI_IMAGE_LENGTH_OR_FILLING;
    memcpy(ticks, place + WONTABELI_PLACE_FIRST_TICK, sizeof ticks);
    number = __real_wontabeli_start(profile, profile_len, image, image_len, place, place_len);
    /* 33: the ticks cleared by a refused start; 34: those of the startup before kept; 35: 32 bytes are enough for a place */
    if (mistake(33) && number != 0)
        memset(place + WONTABELI_PLACE_FIRST_TICK, 0, sizeof ticks);
    if (mistake(34) && number == 0)
        memcpy(place + WONTABELI_PLACE_FIRST_TICK, ticks, sizeof ticks);
    if (mistake(35) && number == WONTABELI_OUTPUT_TOO_SHORT && place_len >= 32)
        number = __real_wontabeli_start(profile, profile_len, image, image_len, place, WONTABELI_PLACE_SIZE);
    return number;
}

static uint32_t number_at(const uint8_t *place, int at)
{
    return (uint32_t)place[at] << 24 | (uint32_t)place[at + 1] << 16 | (uint32_t)place[at + 2] << 8 | place[at + 3];
}

static void put_number(uint8_t *place, int at, uint32_t number)
{
    int n;
    for (n = 0; n < 4; n++)
        place[at + n] = (uint8_t)(number >> (24 - 8 * n));
}

/* Where a place has the ticks of a step's wait; 0 where the step has none. */
static int ticks_of(uint8_t step)
{
    static const uint8_t waits[8] = {2, 4, 7, 10, 12, 15, 18, 27};
    int n;
    for (n = 0; n < 8; n++)
        if (waits[n] == step) return WONTABELI_PLACE_TICKS + 4 * n;
    return 0;
}

/* The step's wait took so many ticks, and the longest goes by that. */
static void took(uint8_t *place, uint8_t step, uint32_t ticks)
{
    uint32_t longest = 0;
    int at;
    put_number(place, ticks_of(step), ticks);
    for (at = WONTABELI_PLACE_TICKS; at < WONTABELI_PLACE_LONGEST; at += 4)
        if (number_at(place, at) > longest) longest = number_at(place, at);
    put_number(place, WONTABELI_PLACE_LONGEST, longest);
}

/* A wait is met: mistakes in its ticks. */
static void wrong_ticks(uint8_t *place, const uint8_t *before, uint32_t tick, uint32_t first_call)
{
    uint8_t step = before[WONTABELI_PLACE_STEP];
    uint32_t first = number_at(before, WONTABELI_PLACE_UNMET) == 0 ? tick : number_at(before, WONTABELI_PLACE_FIRST_TICK);
    /* 36: saturating instead of wrapping; 37: from the startup's first call on, and not from the wait's first reading; 38: from the first reading that the
     * place has, also where that is another wait's; 39: one tick too many, the met reading counted too */
    if (mistake(36)) took(place, step, tick < first ? 0 : tick - first);
    if (mistake(37)) took(place, step, tick - first_call);
    if (mistake(38)) took(place, step, tick - number_at(before, WONTABELI_PLACE_FIRST_TICK));
    if (mistake(39)) took(place, step, tick - first + 1);
    /* 40: the longest is that of the last wait; 41: the longest forgotten; 42: the shortest of those met; 43: the ticks added up */
    if (mistake(40)) put_number(place, WONTABELI_PLACE_LONGEST, tick - first);
    if (mistake(41)) put_number(place, WONTABELI_PLACE_LONGEST, 0);
    if (mistake(42) && number_at(before, WONTABELI_PLACE_LONGEST) != 0 && tick - first < number_at(before, WONTABELI_PLACE_LONGEST))
        put_number(place, WONTABELI_PLACE_LONGEST, tick - first);
    if (mistake(43)) put_number(place, WONTABELI_PLACE_LONGEST, number_at(before, WONTABELI_PLACE_LONGEST) + tick - first);
    /* 44: the ticks of 12 and 15 swapped; 45: the least significant byte first; 46: 16 bits of them */
    if (mistake(44) && (step == 12 || step == 15)) {
        put_number(place, ticks_of(step), number_at(before, ticks_of(step)));
        took(place, step == 12 ? 15 : 12, tick - first);
    }
    if (mistake(45)) {
        uint32_t x = tick - first;
        put_number(place, ticks_of(step), x << 24 | (x & 0xff00) << 8 | (x >> 8 & 0xff00) | x >> 24);
    }
    if (mistake(46)) took(place, step, (tick - first) & 0xffff);
}

/* Mistakes in what a call leaves in the place, which was as `before`. */
static uint8_t wrong_place(uint8_t *place, const uint8_t *before, uint8_t number, uint32_t tick)
{
    uint8_t step = before[WONTABELI_PLACE_STEP];
    int going = before[WONTABELI_PLACE_PHASE] == WONTABELI_PHASE_GOING, waits = going && ticks_of(step) != 0;
    int waiting = waits && number == 0 && place[WONTABELI_PLACE_REPORT] == WONTABELI_REPORT_WAITING;
    /* 47: the ticks of a failed wait kept; 48: the first reading's tick moved on at each unmet reading; 49: a call that uses no reading sets it too;
     * 50: step 21's does */
    if (mistake(47) && going && number == WONTABELI_WAIT_FAILED) took(place, step, tick - number_at(before, WONTABELI_PLACE_FIRST_TICK));
    if (mistake(48) && waiting) put_number(place, WONTABELI_PLACE_FIRST_TICK, tick);
    if (mistake(49) && going && !waits && step != 21 && number == 0) put_number(place, WONTABELI_PLACE_FIRST_TICK, tick);
    if (mistake(50) && going && step == 21 && number == 0) put_number(place, WONTABELI_PLACE_FIRST_TICK, tick);
    /* 51: the place stored back after 28, its report with it; 52: after 23, which ends it; 53: as it was after 21; 54: as it was after 22 */
    if (mistake(51) && number == WONTABELI_CODE_NOT_ALLOWED) place[WONTABELI_PLACE_REPORT] = WONTABELI_REPORT_FAILED;
    if (mistake(52) && number == WONTABELI_CLOCKS_DIFFER) place[WONTABELI_PLACE_PHASE] = number;
    if ((mistake(53) && number == WONTABELI_WAIT_FAILED) || (mistake(54) && number == WONTABELI_FLASH_MODE_DIFFERS))
        memcpy(place, before, WONTABELI_PLACE_SIZE);
    /* 55: a call after the end stores its report again; 56: a wait fails by its ticks; 57: 0 returned where a startup ends by 21 or 22; 58: 0 returned
     * after the end */
    if (mistake(55) && (number == 0 || number == 21 || number == 22) && !going) place[WONTABELI_PLACE_NUMBER] = number;
    if (mistake(56) && waiting && tick - number_at(place, WONTABELI_PLACE_FIRST_TICK) >= 1000000)
        return place[WONTABELI_PLACE_PHASE] = place[WONTABELI_PLACE_NUMBER] = WONTABELI_WAIT_FAILED;
    if ((number == WONTABELI_WAIT_FAILED || number == WONTABELI_FLASH_MODE_DIFFERS) && (mistake(57) ? going : mistake(58) && !going)) return 0;
    return number;
}

/* Bits of an image's byte as they were. */
static void kept(uint8_t *place, const uint8_t *before, int byte, uint8_t bits)
{
    byte += WONTABELI_PLACE_IMAGE;
    place[byte] = (uint8_t)((place[byte] & ~bits) | (before[byte] & bits));
}

/* A step is worked: mistakes in what it writes. */
static void wrong_writes(uint8_t *place, const uint8_t *before)
{
    uint8_t step = before[WONTABELI_PLACE_STEP], *image = place + WONTABELI_PLACE_IMAGE;
    uint32_t clocks[WONTABELI_CHECK_WORDS];
    /* 60: HSEON not written; 61: SW; 62: LOCK and FLOCK; 63: the other SCKMOD; 64: SCKMOD 1 at 100 MHz already */
    if (mistake(60) && step == 9) kept(place, before, 0, 0x20);
    if (mistake(61) && step == 26) kept(place, before, 1, 0x03);
    if (mistake(62) && step == 20) kept(place, before, 7, 0x60);
    if (mistake(63) && step == 20) image[7] ^= 0x80;
    if (mistake(64) && step == 20 && wontabeli_check(place, WONTABELI_PROFILE_SIZE, clocks, WONTABELI_CHECK_WORDS) == 0 &&
        clocks[WONTABELI_HCLK] == 100000000)
        image[7] |= 0x80;
    /* 65: HSEBYP not written; 66: the gate left on; 67: CSSON left on; 68: the codes of 24 and 32 MHz exchanged */
    if (mistake(65) && step == 8) kept(place, before, 0, 0x40);
    if (mistake(66) && step == 5) kept(place, before, 5, 0x01);
    if (mistake(67) && step == 6) kept(place, before, 0, 0x10);
    if (mistake(68) && step == 13 && (image[4] & 0x01)) image[5] ^= 0x80;
    /* 69: I2SPLLSRC cleared where the RNG has SYSCLK; 70: ADC_CLKDIV the divisor itself; 71: the gate's step not skipped with HSE as system clock */
    if (mistake(69) && step == 22 && (before[7] & 0x01) == 0 && (before[8] & 0x80) == 0) image[6] &= (uint8_t)~0x40;
    if (mistake(70) && step == 24) image[6] = (uint8_t)((image[6] & ~0x3e) | ((image[6] + 2) & 0x3e));
    if (mistake(71) && place[WONTABELI_PLACE_STEP] == 26 && step < 25 && (before[4] >> 4 & 3) == 1) place[WONTABELI_PLACE_STEP] = 25;
    /* 72: an unmet count kept where a wait after step 4 is met */
    if (mistake(72) && step > 4 && ticks_of(step) != 0) memcpy(place + WONTABELI_PLACE_UNMET, before + WONTABELI_PLACE_UNMET, 4);
}

/* A call did a step's work or used a reading: mistakes in what it notes and reports. */
static void wrong_notes(uint8_t *place, const uint8_t *before, uint16_t reading)
{
    uint8_t step = before[WONTABELI_PLACE_STEP], report = place[WONTABELI_PLACE_REPORT], *image = place + WONTABELI_PLACE_IMAGE;
    int reads = step == 21 || ticks_of(step) != 0;
    /* 73: a used reading's SCKMOD put into the image; 74: HSIRDY of a reading that is not used; 75: step 21's reading not put there */
    if (mistake(73) && reads) image[7] = (uint8_t)((image[7] & 0x7f) | (reading & WONTABELI_SCKMOD ? 0x80 : 0));
    if (mistake(74) && !reads) image[0] = (uint8_t)((image[0] & 0xfe) | (reading & WONTABELI_HSIRDY));
    if (mistake(75) && step == 21) kept(place, before, 1, 0xfc);
    /* 76: the step before named while a wait goes on; 77: byte 31 left as it was; 78: the unmet count cleared where the clocks run */
    if (mistake(76) && report == WONTABELI_REPORT_WAITING) place[WONTABELI_PLACE_NAMED] = before[WONTABELI_PLACE_NAMED];
    if (mistake(77)) place[31] = before[31];
    if (mistake(78) && report == WONTABELI_REPORT_RUNNING) put_number(place, WONTABELI_PLACE_UNMET, 0);
}

/* Mistakes in which startups are answered 28. */
static uint8_t wrong_28(uint8_t *place, const uint8_t *before, uint8_t number, uint16_t reading, uint32_t tick)
{
    uint32_t used = number_at(before, WONTABELI_PLACE_USED), clocks[WONTABELI_CHECK_WORDS];
    int going = before[WONTABELI_PLACE_PHASE] == WONTABELI_PHASE_GOING, refused = number == WONTABELI_CODE_NOT_ALLOWED;
    /* 79: 8,000,001 used readings are too many already; 80: 1,000,000 unmet ones too where the step has no wait */
    if (going && number < WONTABELI_CODE_NOT_ALLOWED && ((mistake(79) && used == 8000001) ||
        (mistake(80) && ticks_of(before[WONTABELI_PLACE_STEP]) == 0 && number_at(before, WONTABELI_PLACE_UNMET) > 999999))) {
        memcpy(place, before, WONTABELI_PLACE_SIZE);
        return WONTABELI_CODE_NOT_ALLOWED;
    }
    /* 81: no number of used readings is too many */
    if (mistake(81) && going && refused && used > 8000001) {
        put_number(place, WONTABELI_PLACE_USED, 0);
        number = __real_wontabeli_step(place, WONTABELI_PLACE_SIZE, reading, tick);
        put_number(place, WONTABELI_PLACE_USED, used + number_at(place, WONTABELI_PLACE_USED));
    }
    /* 82: a phase of 23 is one that no startup has; 83: the check's own number */
    if (mistake(82) && number == WONTABELI_CLOCKS_DIFFER && !going) return WONTABELI_CODE_NOT_ALLOWED;
    if (mistake(83) && going && refused && wontabeli_check(place, WONTABELI_PROFILE_SIZE, clocks, WONTABELI_CHECK_WORDS) != 0)
        return wontabeli_check(place, WONTABELI_PROFILE_SIZE, clocks, WONTABELI_CHECK_WORDS);
    return number;
}

uint8_t __wrap_wontabeli_step(uint8_t *place, size_t place_len, uint16_t reading, uint32_t tick)
{
    static uint32_t first_call;
    uint8_t number, phase = place[WONTABELI_PLACE_PHASE], before[WONTABELI_PLACE_SIZE];
    /* 2: the phase before profile and image */
    if (mistake(2) && place_len >= WONTABELI_PLACE_SIZE && phase == 7)
        return WONTABELI_CODE_NOT_ALLOWED;
    /* 3: SCKMOD's high bit dropped; 4: the ready bits of USBHS and ETH swapped */
    if (mistake(3))
        reading &= (uint16_t)~(WONTABELI_SCKMOD * 2);
    if (mistake(4))
        reading = (uint16_t)((reading & ~(WONTABELI_USBHS_PLLRDY | WONTABELI_ETH_PLLRDY)) | (reading & WONTABELI_USBHS_PLLRDY ? WONTABELI_ETH_PLLRDY : 0) |
                             (reading & WONTABELI_ETH_PLLRDY ? WONTABELI_USBHS_PLLRDY : 0));
    memcpy(before, place, sizeof before);
    if (before[WONTABELI_PLACE_STEP] == 1)
        first_call = tick;
    number = __real_wontabeli_step(place, place_len, reading, tick);
    /* 5: the unmet readings forgotten where a wait fails; 6: one of them where step 21 does */
    if (mistake(5) && phase == 0 && place[WONTABELI_PLACE_PHASE] == WONTABELI_WAIT_FAILED)
        memset(place + WONTABELI_PLACE_UNMET, 0, 4);
    if (mistake(6) && phase == 0 && place[WONTABELI_PLACE_PHASE] == WONTABELI_FLASH_MODE_DIFFERS)
        place[WONTABELI_PLACE_UNMET + 3] = 1;
    /* 59: the byte behind the place cleared */
    if (mistake(59) && number == 0 && place_len > WONTABELI_PLACE_SIZE)
        place[WONTABELI_PLACE_SIZE] = 0;
    if (number == 0 && phase == 0 && ticks_of(before[WONTABELI_PLACE_STEP]) != 0 && place[WONTABELI_PLACE_REPORT] == WONTABELI_REPORT_WORKED)
        wrong_ticks(place, before, tick, first_call);
    if (number == 0 && phase == 0 && place[WONTABELI_PLACE_REPORT] == WONTABELI_REPORT_WORKED)
        wrong_writes(place, before);
    if ((number == 0 || number == WONTABELI_WAIT_FAILED || number == WONTABELI_FLASH_MODE_DIFFERS) && phase == 0)
        wrong_notes(place, before, reading);
    number = wrong_28(place, before, number, reading, tick);
    return wrong_place(place, before, number, tick);
}

/* HCLK and what lies below it, where the AHB divides by half. */
static void twice_below(uint32_t *out)
{
    int i;
    for (i = WONTABELI_HCLK; i <= WONTABELI_PCLK2_TIM; i++)
        out[i] *= 2;
}

uint8_t __wrap_wontabeli_v1_check(uint8_t part, const uint8_t *config, size_t config_len, uint32_t *out, size_t out_len)
{
    uint8_t number = __real_wontabeli_v1_check(part, config, config_len, out, out_len);
    /* 32: AHB code 12 still by 32 */
    if (mistake(32) && number == 0 && config[11] == 12)
        twice_below(out);
    return number;
}

uint8_t __wrap_wontabeli_v1_decode(uint8_t part, const uint8_t *fields, size_t fields_len, uint32_t hse, uint32_t *out, size_t out_len)
{
    uint8_t number, f[V1];
    memcpy(f, fields, sizeof f);
    /* 7: part 2 taken for L1; 8: an HSI byte of 2 taken for 1; 9: the HSI byte inverted, here and in what is written */
    if (mistake(7) && part == 2)
        part = WONTABELI_V1_PART_L1;
    if (mistake(8) && f[7] == 2)
        f[7] = 1;
    if (mistake(9) && f[7] < 2)
        f[7] = !f[7];
    number = __real_wontabeli_v1_decode(part, f, fields_len, hse, out, out_len);
    /* 28: HPRE 12 still by 32; 29: HPRE 13 by 64, as HPRE 12 */
    if (number == 0 && ((mistake(28) && f[4] == 12) || (mistake(29) && f[4] == 13)))
        twice_below(out);
    return number;
}

uint8_t __wrap_wontabeli_v1_init_fields(uint8_t part, const uint8_t *config, size_t config_len, const uint8_t *earlier, size_t earlier_len,
    uint8_t *out, size_t out_len)
{
    uint8_t f[V1], number;
    uint32_t clocks[WONTABELI_CHECK_WORDS];
    memcpy(f, earlier, sizeof f);
    if (mistake(9) && f[7] < 2)
        f[7] = !f[7];
    /* 10: part 2 taken for L1; 11: 28 of the earlier fields after the check's refusals; 12: PPRE2 of them not looked at */
    if (mistake(10) && part == 2)
        part = WONTABELI_V1_PART_L1;
    number = wontabeli_v1_check(part, config, config_len, clocks, WONTABELI_CHECK_WORDS);
    if (mistake(11) && out_len >= V1 && number != 0)
        return number;
    if (mistake(12) && f[6] > 7)
        f[6] = 0;
    number = __real_wontabeli_v1_init_fields(part, config, config_len, f, earlier_len, out, out_len);
    if (mistake(9) && number == 0)
        out[7] = !out[7];
    return number;
}

uint8_t __wrap_wontabeli_v30x_check(const uint8_t *config, size_t config_len, uint32_t *out, size_t out_len)
{
    uint8_t number, c[WONTABELI_V30X_CONFIG_SIZE];
    memcpy(c, config, sizeof c);
    /* 13: the PLL's sources swapped; 14: the USBHS PLL's */
    if (mistake(13) && c[7] < 2)
        c[7] = !c[7];
    if (mistake(14) && c[15] < 2)
        c[15] = !c[15];
    number = __real_wontabeli_v30x_check(c, config_len, out, out_len);
    /* 30: AHB codes 12 to 15 still by 32, 64, 128, 256 */
    if (mistake(30) && number == 0 && c[12] > 11)
        twice_below(out);
    return number;
}

uint8_t __wrap_wontabeli_v30x_decode(const uint8_t *fields, size_t fields_len, uint32_t hse, uint32_t *out, size_t out_len)
{
    uint8_t number = __real_wontabeli_v30x_decode(fields, fields_len, hse, out, out_len);
    /* 31: HPRE 12 to 15 still by 32, 64, 128, 256 */
    if (mistake(31) && number == 0 && fields[5] > 11)
        twice_below(out);
    return number;
}

uint8_t __wrap_wontabeli_serial_divisor(uint32_t pclk, uint32_t rate, uint16_t *brr, int32_t *error)
{
    uint8_t number = __real_wontabeli_serial_divisor(pclk, rate, brr, error);
    /* 15: halves down; 16: rate x BRR - PCLK; 17: BRR 0 with a refusal */
    if (mistake(15) && number == 0 && *error < 0 && (uint32_t)-*error * 2 == rate) {
        *brr -= 1;
        *error += (int32_t)rate;
    }
    if (mistake(16) && number == 0)
        *error = -*error;
    if (mistake(17) && number != 0)
        *brr = 0;
    return number;
}

/* A record of a tray with a mistake in it, and the record before it. */
static void wrong_record(uint8_t *record, const uint8_t *before)
{
    int n;
    /* 18: a refused board keeps the frequencies before it; 19: its number in the first byte; 20: the least significant byte first */
    if (mistake(18) && before && record[WONTABELI_BOARD_NUMBER + 3] != 0)
        memcpy(record + 4, before + 4, WONTABELI_BOARD_SIZE - 4);
    if (mistake(19)) {
        record[0] = record[3];
        record[3] = 0;
    }
    for (n = 0; mistake(20) && n < WONTABELI_BOARD_SIZE; n += 4) {
        uint8_t four[4];
        memcpy(four, record + n, 4);
        record[n] = four[3];
        record[n + 1] = four[2];
        record[n + 2] = four[1];
        record[n + 3] = four[0];
    }
}

uint8_t __wrap_wontabeli_tray(const uint8_t *profiles, size_t profiles_len, uint8_t *out, size_t out_len)
{
    size_t boards = profiles_len / WONTABELI_PROFILE_SIZE, room = out_len / WONTABELI_BOARD_SIZE, n;
    uint8_t number;
    /* 21: 29 before 32; 22: 29 above 400 boards */
    if ((mistake(21) && profiles_len % WONTABELI_PROFILE_SIZE != 0) || (mistake(22) && boards > 400))
        return WONTABELI_PROFILE_LENGTH;
    /* 23: 31 bytes are enough for a board; 24: the boards that have room are served before 32; 25: the whole boards before 29 */
    if (mistake(23) && boards == 1 && profiles_len == WONTABELI_PROFILE_SIZE && out_len == 31)
        return 0;
    if (mistake(24) && room < boards)
        __real_wontabeli_tray(profiles, room * WONTABELI_PROFILE_SIZE, out, out_len);
    if (mistake(25) && room >= boards)
        __real_wontabeli_tray(profiles, boards * WONTABELI_PROFILE_SIZE, out, out_len);
    number = __real_wontabeli_tray(profiles, profiles_len, out, out_len);
    for (n = boards; number == 0 && n > 0; n--)
        wrong_record(out + (n - 1) * WONTABELI_BOARD_SIZE, n > 1 ? out + (n - 2) * WONTABELI_BOARD_SIZE : NULL);
    /* 26: the bytes beyond cleared; 27: the first refused board ends the tray, and its number is returned */
    if (mistake(26) && number == 0)
        memset(out + boards * WONTABELI_BOARD_SIZE, 0, out_len - boards * WONTABELI_BOARD_SIZE);
    for (n = 0; mistake(27) && number == 0 && n < boards; n++)
        number = out[n * WONTABELI_BOARD_SIZE + WONTABELI_BOARD_NUMBER + 3];
    return number;
}
