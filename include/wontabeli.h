/* The clock library's calls for C99 and C++, on x86-64 hosts. The archive (include/archive) is not for the chips.
 *
 * Every call returns a number: 0, or a refusal (WONTABELI_RNG_WITHOUT_USBHS and so on; docs/REFUSALS.md). Of several reasons it returns the first, in
 * a fixed order. wontabeli_refusal_text(number) is its sentence. One call returns 0 also where something is refused: wontabeli_tray, where boards are;
 * their records say so.
 *
 * What a call gives goes into memory that the caller lends, at its start: frequencies as words of 32 bits, records as bytes; a serial divisor and its
 * error as two numbers of their types. After a refusal nothing that was lent is touched; after a call that is not refused, nothing beyond the record is.
 * One call is different: wontabeli_step, where it returns 21 or 22, leaves the ended startup in its place.
 * A number of several bytes in a record has the most significant byte first. A byte that says yes or no is 1 or 0.
 *
 * A pointer is valid and aligned for its type and its length, and never null, also where its length is 0; lent memory overlaps nothing else that
 * the call is handed. Lengths are tested: one that doesn't fit is refused, and one that is lent for output is tested first (32). Lengths of words
 * count words; an output without a length is one number.
 *
 * No call keeps a pointer, allocates, or has a state. Calls may run at the same time, in threads or interrupts, each on memory that no other uses
 * meanwhile.
 *
 * Names are written here without their WONTABELI_. wontabeli_numbers.h has them: sizes, the places in each record, and the codes that have a name,
 * as SYSTEM_CLOCK_PLL or V4X7_AHB_DIV2. docs/FORMATS.md says what the fields are.
 */
#ifndef WONTABELI_H
#define WONTABELI_H

#include <stddef.h>
#include <stdint.h>
#include "wontabeli_numbers.h"
#include "wontabeli_refusals.h"

#ifdef __cplusplus
extern "C" {
#endif

/* ---- CH32V4x7: the check, the decoder, the queries ---- */

/* Checks a profile of ten bytes. Gives CHECK_WORDS words: SYSCLK, HCLK, PCLK1, PCLK2, the timers' clocks of PCLK1 and PCLK2, the ADC's frequency.
 * Refused by 32, 29 (profile_len not 10), 30, then by the check's 1 to 16 (docs/REFUSALS.md has their order). */
uint8_t wontabeli_check(const uint8_t *profile, size_t profile_len, uint32_t *out, size_t out_len);

/* Decodes an image of eight bytes, with HSE's frequency in Hz; 0 means that there is no HSE, here and in the decoders below. Gives CLOCKS_WORDS
 * words, the clocks in the same order.
 * Refused by 32, 31 (image_len not 8, or filling), then by 3, 4, 5, 6, 8, 12, 17, 18, 19, 20. */
uint8_t wontabeli_decode(const uint8_t *image, size_t image_len, uint32_t hse, uint32_t *out, size_t out_len);

/* The frequency that an image gives the ADC, and the RNG's source, with SYSCLK in Hz. Gives PAIR_WORDS words: 1 and the frequency; or two zeros
 * where the PLL that it runs from is not ready. Refused by 32, 31. */
uint8_t wontabeli_adc(const uint8_t *image, size_t image_len, uint32_t sysclk, uint32_t *out, size_t out_len);
uint8_t wontabeli_rng(const uint8_t *image, size_t image_len, uint32_t sysclk, uint32_t *out, size_t out_len);

/* ---- CH32V4x7: a tray of boards ---- */

/* Checks the profiles of a tray, which lie back to back, PROFILE_SIZE bytes each. Gives BOARD_SIZE bytes for each, in their order: eight numbers of four
 * bytes, at the places BOARD_... They are 0 and the seven frequencies that wontabeli_check gives for this profile, or its refusal and seven zeros. A
 * refused board changes no other's record. There is no limit on how many; of no profiles nothing is written.
 * Refused by 32 (out_len less than BOARD_SIZE for each whole PROFILE_SIZE of profiles_len), then by 29 (profiles_len not a multiple of PROFILE_SIZE). */
uint8_t wontabeli_tray(const uint8_t *profiles, size_t profiles_len, uint8_t *out, size_t out_len);

/* ---- CH32V4x7: profiles and images, and their fields, a byte each ----
 *
 * PROFILE_.. and IMAGE_.. are the fields' places. The codes of a profile's fields are SYSTEM_CLOCK_.., APB_.. and V4X7_... */

/* The fields of a profile, PROFILE_FIELDS bytes. Refused by 32, 29, 30. */
uint8_t wontabeli_read_profile(const uint8_t *profile, size_t profile_len, uint8_t *out, size_t out_len);

/* The profile of PROFILE_FIELDS fields, PROFILE_SIZE bytes. Refused by 32; by 30: another number of fields, a code too wide, or what the reader
 * would refuse. */
uint8_t wontabeli_write_profile(const uint8_t *fields, size_t fields_len, uint8_t *out, size_t out_len);

/* The fields of an image, IMAGE_FIELDS bytes. Refused by 32, 31. */
uint8_t wontabeli_read_image(const uint8_t *image, size_t image_len, uint8_t *out, size_t out_len);

/* The image of IMAGE_FIELDS fields, IMAGE_SIZE bytes. Refused by 32; by 28: another number of fields, a code too wide, or a filling not zero. */
uint8_t wontabeli_write_image(const uint8_t *fields, size_t fields_len, uint8_t *out, size_t out_len);

/* ---- CH32V4x7: the startup ----
 *
 * The host keeps a startup in a place of PLACE_SIZE bytes. It hands the place to each call unchanged, until a call returns another number than 0 or
 * byte 27 is not PHASE_GOING:
 *   0..9    the profile
 *   10..17  the image: the fields that the host writes to the chip
 *   18      the step whose turn it is
 *   19..22  the unmet readings of its wait
 *   23..26  all readings used
 *   27      whether it is over: PHASE_GOING (call again), PHASE_RUNNING (over: the clocks run as the check promised), or the refusal that ended
 *           it: 21 or 22
 *   28      what the last call that changed the place reports: REPORT_WORKED (the step is worked), REPORT_WAITING (the reading did not meet the step's wait),
 *           REPORT_RUNNING (over: the clocks run as the check promised), REPORT_FAILED (over, by the refusal in byte 29)
 *   29      its refusal: 0, 21 or 22
 *   30      the step that it names; 0 before the first call
 *   31      zero
 *   32..35  the tick of the first reading of the wait whose turn it is, where bytes 19 to 22 are not 0
 *   36..67  the ticks of the eight waits, steps 2, 4, 7, 10, 12, 15, 18 and 27, four bytes each
 *   68..71  the longest of them
 * A call never looks at bytes 28 to 31 and 68 to 71, and at bytes 19 to 22 only where the step is a wait. PHASE_.. are values of byte 27 alone, REPORT_.. of byte 28 alone.
 *
 * After each call that returns 0 the host writes to the chip, in this order:
 *   1. the image's fields that changed, but never the ready bits and SWS, which only the chip writes. Where byte 30 is 20: SCKMOD, LOCK and FLOCK
 *      in one write, changed or not, since the keys have opened the locks;
 *   2. where byte 28 is REPORT_WORKED and byte 30 is 19: the four keys (wontabeli_flash_key).
 * LOCK and FLOCK, written again after the keys, would lock the flash, and step 21 would end by 22. docs/STARTUP.md has the steps and a driving
 * loop. */

/* Starts a startup with a profile and the image of the registers as they are. It works no step, and all ticks are 0.
 * Refused by 32, 29, 30, 31, then by the check's 1 to 16. The place then stays as it was: byte 27 is an earlier startup's, so go by the number. */
uint8_t wontabeli_start(const uint8_t *profile, size_t profile_len, const uint8_t *image, size_t image_len, uint8_t *place, size_t place_len);

/* One call: one step's work done or one reading used. The host calls until another number than 0 comes back or byte 27 is not PHASE_GOING.
 * The reading is the sum of HSIRDY, HSERDY, PLLRDY, USBHS_PLLRDY and ETH_PLLRDY where they are set, SWS times its value and SCKMOD times its value;
 * bits above are not looked at. The tick is what a free-running counter of 32 bits showed at that reading; a host without one hands in 0.
 *
 * It returns
 *   0        the place says how it went.
 *   21, 22   the startup is over: a wait failed, or the flash mode read back differs. The place holds the ended startup; byte 30 is the step.
 *   others   refused, and the place stays as it was: 32; 30 or 31 where the place's profile or image can't be read; 28 where byte 27 has none of its
 *            values or, in a startup that is not over, the check refuses the profile, the step is not one of the profile's, it is a wait whose unmet
 *            readings pass 999,999, or the used ones pass 8,000,001; 23 where the clocks differ after the switch, or byte 27 is 23, which no call leaves. A host that
 *            keeps the place's bytes as a call left them, and lends them all, sees none of these.
 * On a place that is over, and whose profile and image can be read, a call changes no byte and returns the number of the end again: 0 where the clocks
 * run, else 21 or 22. The clocks run where the number is 0 and byte 27 is PHASE_RUNNING. Other damage of a place is not noticed: the startup is worked as
 * it stands.
 *
 * Ticks: a wait's number is the ticks from its first reading to the met one, modulo 2^32. So the counter may wrap; a wait longer than a full turn
 * of it shows the remainder only. The number is 0 before its wait is met, for good where the wait is skipped or fails, and where the first reading
 * meets it. Only the ticks of the eight waits' readings count: not those of a call that uses no reading, and not step 21's. Ticks change nothing
 * else: a wait still fails at its 1,000,000th unmet reading, however long that took. */
uint8_t wontabeli_step(uint8_t *place, size_t place_len, uint16_t reading, uint32_t tick);

/* The keys that the host writes when a call names step 19, in their order: positions 0 to 3. Gives PAIR_WORDS words: KEYR or MODEKEYR, and the key.
 * Refused by 32; by 28 above 3. */
uint8_t wontabeli_flash_key(uint8_t position, uint32_t *out, size_t out_len);

/* How many waits a profile's startup has, and within how many calls it is over. A profile that the check refuses has these numbers too. Refused by
 * 29, 30. */
uint8_t wontabeli_waits_owed(const uint8_t *profile, size_t profile_len, uint32_t *out);
uint8_t wontabeli_call_bound(const uint8_t *profile, size_t profile_len, uint32_t *out);

/* ---- CH32V1 (V1_PART_V1) and CH32L1 (V1_PART_L1) ----
 *
 * A configuration has V1_CONFIG_SIZE bytes, at the places V1_CONFIG_..; the multiplier is a V1_PLL_.. code, AHB a V1_AHB_.. code (there is no
 * DIV32). Where HSE or the PLL is absent, its other bytes are zero; PLL_FROM_HSE is free.
 * The registers' fields have V1_FIELDS_SIZE bytes, at the places V1_FIELDS_..; the HSI predivider bit is 1 for HSI by 1, and 0 for HSI by 2.
 * All three calls are refused by 32, then by 28: another part or length, a byte that is neither yes nor no, a byte of an absent part that is not
 * zero, a code too wide for its field. */

/* Checks a configuration. Gives CHECK_WORDS words: the clocks, and twice the divisor that makes USB's 48 MHz of the PLL's output (3 is 1.5), or 0
 * where there is none. Then refused by 3, 24, 20, 3, 26. */
uint8_t wontabeli_v1_check(uint8_t part, const uint8_t *config, size_t config_len, uint32_t *out, size_t out_len);

/* Decodes fields, with HSE's frequency in Hz, or 0 where there is no HSE. Gives CLOCKS_WORDS words. Then refused by 3, 24. (A configuration that
 * runs from an HSE of 0 Hz is accepted, all its clocks 0; its fields are refused here by 3.) */
uint8_t wontabeli_v1_decode(uint8_t part, const uint8_t *fields, size_t fields_len, uint32_t hse, uint32_t *out, size_t out_len);

/* The fields that starting a configuration leaves, over earlier fields: V1_FIELDS_SIZE bytes. They are the fields at the end, and not a list of
 * writes: SWS is what it then reads as. Then refused as the check is. */
uint8_t wontabeli_v1_init_fields(uint8_t part, const uint8_t *config, size_t config_len, const uint8_t *earlier, size_t earlier_len, uint8_t *out, size_t out_len);

/* ---- CH32V30x ----
 *
 * A configuration has V30X_CONFIG_SIZE bytes, at the places V30X_CONFIG_..: PLL_SOURCE a V30X_PLL_SOURCE_.. code, PREDIVIDER a
 * V30X_PLL_PREDIVIDER_.. code, MULTIPLIER a V30X_PLL_.. code, AHB a V30X_AHB_.. code (there is no DIV32), USBHS_PRESCALER a V30X_USBHS_.. code; PLLX
 * is 1 where PLL2 or PLL3 is asked for. Where HSE, the PLL or the USBHS PLL is absent, its other bytes are zero; PLL_SOURCE and USBHS_FROM_HSE are
 * free. The registers' fields have V30X_FIELDS_SIZE bytes, at the places V30X_FIELDS_... All three calls are refused by 32 and 28 as V1's are. */

/* As V1's. The check is then refused by 27, 3, 24, 25, 3, 8, 20, 3, 26; the decoder by 27, 3, 24. */
uint8_t wontabeli_v30x_check(const uint8_t *config, size_t config_len, uint32_t *out, size_t out_len);
uint8_t wontabeli_v30x_decode(const uint8_t *fields, size_t fields_len, uint32_t hse, uint32_t *out, size_t out_len);
uint8_t wontabeli_v30x_init_fields(const uint8_t *config, size_t config_len, const uint8_t *earlier, size_t earlier_len, uint8_t *out, size_t out_len);

/* ---- CH32H4: arithmetic ---- */

/* The clocks of a SYSCLK in Hz and the codes of the four prescalers: HPRE as V4X7_AHB_.., PPRE1 and PPRE2 as APB_... Gives CHECK_WORDS words: the
 * clocks, and the AHB clock. Refused by 32, then by 28. */
uint8_t wontabeli_h4_clocks(uint32_t sysclk, uint8_t hpre, uint8_t fpre, uint8_t ppre1, uint8_t ppre2, uint32_t *out, size_t out_len);

/* Its single steps: the AHB clock after HPRE (28), HCLK after FPRE (of which two bits count: never refused). */
uint8_t wontabeli_h4_ahb(uint32_t sysclk, uint8_t hpre, uint32_t *out);
uint8_t wontabeli_h4_hclk(uint32_t ahb, uint8_t fpre, uint32_t *out);

/* PCLK after PPRE and its timers' clock, PAIR_WORDS words. Refused by 32, then by 28. */
uint8_t wontabeli_h4_pclk(uint32_t hclk, uint8_t ppre, uint32_t *out, size_t out_len);

/* The PLL's multiplier at a position of the list, doubled. Positions 0 to 31 are the multipliers 4, 6, 7, 8, 8.5, 9, 9.5, 10, 10.5, 11, 11.5, 12,
 * 12.5, 13, 14, 15, 16, 17, 18, 19, 20, 22, 24, 26, 28, 30, 32, 34, 36, 38, 40, 59. Refused by 28 (above 31). */
uint8_t wontabeli_h4_multiplier(uint8_t position, uint32_t *out);

/* ---- Serial divisors ---- */

/* BRR of a serial port for a wanted rate in baud, by its bus's clock in Hz (PCLK1 or PCLK2): the nearest whole number to pclk / rate, halves up. And its
 * error, pclk - rate x BRR: 0 exactly if the rate divides pclk, below 0 where BRR is rounded up. 20,000,000 at 115,200 gives 174 and -44,800.
 * Refused by 33 (rate 0), then by 34 (BRR outside 16..65,535). */
uint8_t wontabeli_serial_divisor(uint32_t pclk, uint32_t rate, uint16_t *brr, int32_t *error);

#ifdef __cplusplus
}
#endif

#endif
