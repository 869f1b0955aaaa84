/* Calls that a host must outlive: a startup that waits for ever, though it promises to be over within five calls. examples/run links the hosts with these. */
#include "wontabeli.h"

uint8_t wontabeli_start(const uint8_t *profile, size_t profile_len, const uint8_t *image, size_t image_len, uint8_t *place, size_t place_len)
{
    place[WONTABELI_PLACE_PHASE] = WONTABELI_PHASE_GOING;
    return 0;
}

uint8_t wontabeli_step(uint8_t *place, size_t place_len, uint16_t reading, uint32_t tick)
{
    place[WONTABELI_PLACE_REPORT] = WONTABELI_REPORT_WAITING;
    return 0;
}

uint8_t wontabeli_call_bound(const uint8_t *profile, size_t profile_len, uint32_t *out)
{
    *out = 5;
    return 0;
}

/* The others leave what is lent as it is. */
#define EMPTY(call, ...) uint8_t call(__VA_ARGS__) { return 0; }
EMPTY(wontabeli_check, const uint8_t *profile, size_t profile_len, uint32_t *out, size_t out_len)
EMPTY(wontabeli_decode, const uint8_t *image, size_t image_len, uint32_t hse, uint32_t *out, size_t out_len)
EMPTY(wontabeli_adc, const uint8_t *image, size_t image_len, uint32_t sysclk, uint32_t *out, size_t out_len)
EMPTY(wontabeli_rng, const uint8_t *image, size_t image_len, uint32_t sysclk, uint32_t *out, size_t out_len)
EMPTY(wontabeli_tray, const uint8_t *profiles, size_t profiles_len, uint8_t *out, size_t out_len)
EMPTY(wontabeli_read_profile, const uint8_t *profile, size_t profile_len, uint8_t *out, size_t out_len)
EMPTY(wontabeli_write_profile, const uint8_t *fields, size_t fields_len, uint8_t *out, size_t out_len)
EMPTY(wontabeli_read_image, const uint8_t *image, size_t image_len, uint8_t *out, size_t out_len)
EMPTY(wontabeli_write_image, const uint8_t *fields, size_t fields_len, uint8_t *out, size_t out_len)
EMPTY(wontabeli_flash_key, uint8_t position, uint32_t *out, size_t out_len)
EMPTY(wontabeli_waits_owed, const uint8_t *profile, size_t profile_len, uint32_t *out)
EMPTY(wontabeli_v1_check, uint8_t part, const uint8_t *config, size_t config_len, uint32_t *out, size_t out_len)
EMPTY(wontabeli_v1_decode, uint8_t part, const uint8_t *fields, size_t fields_len, uint32_t hse, uint32_t *out, size_t out_len)
EMPTY(wontabeli_v1_init_fields, uint8_t part, const uint8_t *config, size_t config_len, const uint8_t *earlier, size_t earlier_len, uint8_t *out, size_t out_len)
EMPTY(wontabeli_v30x_check, const uint8_t *config, size_t config_len, uint32_t *out, size_t out_len)
EMPTY(wontabeli_v30x_decode, const uint8_t *fields, size_t fields_len, uint32_t hse, uint32_t *out, size_t out_len)
EMPTY(wontabeli_v30x_init_fields, const uint8_t *config, size_t config_len, const uint8_t *earlier, size_t earlier_len, uint8_t *out, size_t out_len)
EMPTY(wontabeli_h4_clocks, uint32_t sysclk, uint8_t hpre, uint8_t fpre, uint8_t ppre1, uint8_t ppre2, uint32_t *out, size_t out_len)
EMPTY(wontabeli_h4_ahb, uint32_t sysclk, uint8_t hpre, uint32_t *out)
EMPTY(wontabeli_h4_hclk, uint32_t ahb, uint8_t fpre, uint32_t *out)
EMPTY(wontabeli_h4_pclk, uint32_t hclk, uint8_t ppre, uint32_t *out, size_t out_len)
EMPTY(wontabeli_h4_multiplier, uint8_t position, uint32_t *out)
EMPTY(wontabeli_serial_divisor, uint32_t pclk, uint32_t rate, uint16_t *brr, int32_t *error)
