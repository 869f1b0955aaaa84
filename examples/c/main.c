/* A host in C: checks a profile, asks for a serial divisor, decodes a V30x board, then starts a simulated chip, with a good crystal and with a dead one. */
#include <stdio.h>
#include <string.h>
#include "wontabeli.h"

/* HSE 8 MHz, main PLL from it by 12.5, the system clock from that. */
static const uint8_t profile[WONTABELI_PROFILE_SIZE] = {0x80, 0x1e, 0x84, 0x80, 0x2c, 0xb8, 0x00, 0x00, 0x00, 0x34};

/* The simulated register file is an image. A crystal that fails never sets HSERDY. */
struct chip {
    uint8_t image[WONTABELI_IMAGE_SIZE];
    int crystal, keys;
    /* How many readings HSI, HSE and the main PLL have been on for. */
    int hsi, hse, pll;
    /* A counter of 32 bits that goes 100 on with each reading. It begins 2,500 before its end, so that it wraps while the crystal is waited for. */
    uint32_t tick;
};

/* The reading since a part is on at which it is ready; and the ticks of a reading. */
enum { HSI_READY = 2, HSE_READY = 31, PLL_READY = 4, TICKS_A_READING = 100 };

static int ready(int on, int *readings, int needed)
{
    *readings = on ? *readings + 1 : 0;
    return *readings >= needed;
}

/* What the chip's registers read as: what is on becomes ready, and the clock that was asked for is in use. */
static uint16_t read_chip(struct chip *chip)
{
    uint8_t f[WONTABELI_IMAGE_FIELDS] = {0};
    wontabeli_read_image(chip->image, sizeof chip->image, f, sizeof f);
    chip->tick += TICKS_A_READING;
    return (uint16_t)(ready(f[WONTABELI_IMAGE_HSION], &chip->hsi, HSI_READY) * WONTABELI_HSIRDY
        + (ready(f[WONTABELI_IMAGE_HSEON], &chip->hse, HSE_READY) && chip->crystal) * WONTABELI_HSERDY
        + ready(f[WONTABELI_IMAGE_PLLON], &chip->pll, PLL_READY) * WONTABELI_PLLRDY
        + f[WONTABELI_IMAGE_USBHS_PLLON] * WONTABELI_USBHS_PLLRDY
        + f[WONTABELI_IMAGE_ETH_PLLON] * WONTABELI_ETH_PLLRDY
        + f[WONTABELI_IMAGE_SW] * WONTABELI_SWS
        + f[WONTABELI_IMAGE_SCKMOD] * WONTABELI_SCKMOD);
}

/* At step 19 the host writes the keys, each to its register. */
static void write_keys(struct chip *chip)
{
    uint32_t key[WONTABELI_PAIR_WORDS];
    uint8_t position;
    for (position = 0; position < 4; position++)
        if (wontabeli_flash_key(position, key, WONTABELI_PAIR_WORDS) == 0) chip->keys += 1;
}

/* A refusal: its number, and why. */
static int refused(uint8_t number)
{
    printf("refused %u: %s\n", number, wontabeli_refusal_text(number));
    return 1;
}

/* One call, with a reading and its tick, and what the host then writes to the chip. */
static uint8_t turn(struct chip *chip, uint8_t *place)
{
    uint16_t reading = read_chip(chip);
    uint8_t number = wontabeli_step(place, WONTABELI_PLACE_SIZE, reading, chip->tick);
    if (number != 0) return number;
    /* The fields first: on a chip those that changed, but never the ready bits and SWS; at step 20 SCKMOD, LOCK and FLOCK in any case. */
    memcpy(chip->image, place + WONTABELI_PLACE_IMAGE, sizeof chip->image);
    /* Then the keys: LOCK and FLOCK written after them would lock the flash again. */
    if (place[WONTABELI_PLACE_REPORT] == WONTABELI_REPORT_WORKED && place[WONTABELI_PLACE_NAMED] == 19) write_keys(chip);
    return 0;
}

/* Four bytes of a place, the most significant first. */
static unsigned long number_at(const uint8_t *place, int at)
{
    return (unsigned long)place[at] << 24 | (unsigned long)place[at + 1] << 16 | (unsigned long)place[at + 2] << 8 | place[at + 3];
}

/* How a startup ended, and how many ticks each wait took.
 *
 * By hand: reading n has the tick 2^32 - 2,500 + 100 x n. Step 1 takes reading 1. Step 2's first reading is 2, and HSI is ready at 3: 100 ticks. The steps
 * 3 to 9 take 4 to 10. Step 10's first reading is 11, at 2^32 - 1,400, and HSE is ready at 41, at 1,600: 3,000 ticks, across the counter's end. Step 18's
 * first is 44, after 16 and 17, and the PLL is ready at 47: 300 ticks. The steps 4, 7 and 27 are met by their first reading: 0 ticks, and so have the
 * skipped 12 and 15. A dead crystal fails after 1,000,000 readings: its ticks stay 0, and the longest wait is step 2's. */
static void tell(const struct chip *chip, const uint8_t *place)
{
    static const int waits[] = {2, 4, 7, 10, 12, 15, 18, 27};
    int n;
    if (place[WONTABELI_PLACE_PHASE] == WONTABELI_PHASE_RUNNING)
        printf("running, %lu readings, %d keys written\n", number_at(place, WONTABELI_PLACE_USED), chip->keys);
    else
        printf("stopped by %u at step %u, %lu readings\n", place[WONTABELI_PLACE_NUMBER], place[WONTABELI_PLACE_NAMED], number_at(place, WONTABELI_PLACE_USED));
    printf("ticks");
    for (n = 0; n < 8; n++) printf(" %d:%lu", waits[n], number_at(place, WONTABELI_PLACE_TICKS + 4 * n));
    printf(", longest %lu\n", number_at(place, WONTABELI_PLACE_LONGEST));
}

static int start(int crystal)
{
    struct chip chip = {{0}, 0, 0, 0, 0, 0, 0};
    uint8_t place[WONTABELI_PLACE_SIZE] = {0};
    uint32_t calls, bound;
    uint8_t number = wontabeli_call_bound(profile, sizeof profile, &bound);
    if (number == 0) number = wontabeli_start(profile, sizeof profile, chip.image, sizeof chip.image, place, sizeof place);
    chip.crystal = crystal;
    chip.tick = (uint32_t)0 - 2500;
    /* It is proved that the startup is over within so many calls; a host that counts them ends also where something else is linked. */
    for (calls = 0; number == 0 && place[WONTABELI_PLACE_PHASE] == WONTABELI_PHASE_GOING; calls++) {
        if (calls == bound) {
            printf("not over after %lu calls\n", (unsigned long)calls);
            return 1;
        }
        number = turn(&chip, place);
    }
    /* 21 and 22 end the startup, and the place says at which step; after any other refusal it is as it was, an earlier startup's perhaps. */
    if (number != 0 && number != WONTABELI_WAIT_FAILED && number != WONTABELI_FLASH_MODE_DIFFERS) return refused(number);
    tell(&chip, place);
    return 0;
}

/* A CH32V30x board by its registers: HSE 8 MHz by 18 is SYSCLK, and HPRE reads as 12. */
static uint8_t decode_v30x(void)
{
    uint8_t fields[WONTABELI_V30X_FIELDS_SIZE] = {0};
    uint32_t clocks[WONTABELI_CLOCKS_WORDS];
    uint8_t number;
    fields[WONTABELI_V30X_FIELDS_SWS] = WONTABELI_SYSTEM_CLOCK_PLL;
    fields[WONTABELI_V30X_FIELDS_PLLSRC] = 1;
    fields[WONTABELI_V30X_FIELDS_PLLMUL] = WONTABELI_V30X_PLL_MUL18;
    fields[WONTABELI_V30X_FIELDS_HPRE] = 12;
    number = wontabeli_v30x_decode(fields, sizeof fields, 8000000, clocks, WONTABELI_CLOCKS_WORDS);
    if (number == 0) printf("v30x: sysclk %lu hclk %lu\n", (unsigned long)clocks[WONTABELI_SYSCLK], (unsigned long)clocks[WONTABELI_HCLK]);
    return number;
}

int main(void)
{
    static const char *const names[] = {"sysclk", "hclk", "pclk1", "pclk2", "pclk1_tim", "pclk2_tim", "adc"};
    uint32_t clocks[WONTABELI_CHECK_WORDS];
    uint8_t number = wontabeli_check(profile, sizeof profile, clocks, WONTABELI_CHECK_WORDS);
    uint16_t brr = 0;
    int32_t error = 0;
    int i;
    if (number != 0) return refused(number);
    for (i = 0; i < WONTABELI_CHECK_WORDS; i++) printf("%s %lu\n", names[i], (unsigned long)clocks[i]);
    /* A serial port of the first bus, at 115,200. */
    number = wontabeli_serial_divisor(clocks[WONTABELI_PCLK1], 115200, &brr, &error);
    if (number != 0) return refused(number);
    printf("brr %u error %ld\n", brr, (long)error);
    printf("nine bytes: refused %u\n", wontabeli_check(profile, 9, clocks, WONTABELI_CHECK_WORDS));
    number = decode_v30x();
    if (number != 0) return refused(number);
    return start(1) | start(0);
}
