/* Made by include/numbers; change what it reads and run it again. */
#ifndef WONTABELI_REFUSALS_H
#define WONTABELI_REFUSALS_H

#include <stdint.h>

/* The sentence of a refusal, as docs/REFUSALS.md has it; "Not refused." of 0, and "No refusal has this number." above 34. */
static inline const char *wontabeli_refusal_text(uint8_t number)
{
    static const char *const texts[] = {
        "Not refused.",
        "RNG from USBHS PLL, and that PLL not configured.",
        "RNG from ETH PLL, and that PLL not configured.",
        "HSE needed, no frequency.",
        "HSE outside 5,000,000..32,000,000.",
        "Main PLL output outside 100..400 MHz.",
        "ETH PLL needed, HSE not 25 MHz.",
        "USBHS reference from ETH, no ETH PLL.",
        "USBHS reference not an allowed frequency.",
        "SYSPLL from main PLL, not configured.",
        "SYSPLL from USBHS PLL, not configured.",
        "SYSPLL from ETH PLL, not configured.",
        "HCLK above 200 MHz.",
        "ADC from USBHS PLL, not configured.",
        "ADC divisor outside 1..32.",
        "ADC source > 30,000,000 x total divisor.",
        "ADC below 1 Hz.",
        "Decoder: USBHS source 3.",
        "Decoder: reference code not that of the reference.",
        "SYSPLL source 4, 5 or 7.",
        "System clock code 3.",
        "Startup: a wait failed.",
        "Startup: flash mode read back differs.",
        "Startup: clocks differ after the switch.",
        "V1, V30x: PLL product over 32 bits.",
        "V30x: HSI predivider not 1 or 2.",
        "V1, V30x: system clock PLL, none configured.",
        "V30x: PLL2 or PLL3 asked for, or PREDIV1SRC set.",
        "Code too wide or unnamed; a startup no starting gives.",
        "Profile not 10 bytes.",
        "Profile code or filling not allowed.",
        "Image not 8 bytes, or filling not zero.",
        "Lent output shorter than the record.",
        "Serial rate 0.",
        "Serial divisor BRR outside 16..65,535.",
    };
    return number < sizeof texts / sizeof *texts ? texts[number] : "No refusal has this number.";
}

#endif
