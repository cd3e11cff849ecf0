/*
 * power_on.c: every register after power-on, beside the rows of document 004,
 * 'REGISTER TABLE'.
 */
#include "checks.h"

#include "second/registers.h"

static const struct { uint8_t reg; uint16_t value; } table[] = {
    { 0x00, 0x8236 }, { 0x01, 0x0000 }, { 0x02, 0x8000 }, { 0x03, 0x0000 },
    { 0x04, 0x0000 }, { 0x05, 0x0000 }, { 0x07, 0x0000 }, { 0x08, 0x0000 },
    { 0x0A, 0x0F0F }, { 0x0B, 0x0000 }, { 0x10, 0x0002 }, { 0x11, 0x0000 },
    { 0x12, 0x0000 }, { 0x13, 0x0000 }, { 0x14, 0x0000 }, { 0x15, 0x0000 },
    { 0x18, 0x0000 }, { 0x19, 0x0000 }, { 0x1A, 0x0000 }, { 0x1B, 0x0000 },
    { 0x1C, 0x0000 }, { 0x1D, 0x0000 }, { 0x1E, 0x000C }, { 0x20, 0x0000 },
    { 0x21, 0x0000 }, { 0x22, 0x0000 }, { 0x23, 0x0000 }, { 0x24, 0x0000 },
    { 0x25, 0x0000 }, { 0x26, 0x0000 }, { 0x27, 0x0000 }, { 0x28, 0x0000 },
    { 0x29, 0x0000 }, { 0x2A, 0x0000 }, { 0x2B, 0x0000 }, { 0x2C, 0x0000 },
    { 0x2D, 0x0000 }, { 0x2E, 0x0000 }, { 0x2F, 0x0000 }, { 0x40, 0xFFFC },
    { 0x42, 0xFFFC }, { 0x44, 0x0000 }, { 0x46, 0x0000 }, { 0x48, 0xFFFC },
    { 0x49, 0x0000 }, { 0x4A, 0xFFF0 }, { 0x4B, 0x0000 }, { 0x4C, 0x0000 },
    { 0x4D, 0x0000 }, { 0x50, 0x0000 }, { 0x51, 0x0000 }, { 0x52, 0x0000 },
    { 0x57, 0x0000 }, { 0x58, 0x0000 }, { 0x59, 0x0000 }, { 0x5A, 0x0000 },
};

/* No row or no fixed figure (ID1, ID2): 0000h, as 01 says. */
static uint16_t table_value(unsigned reg)
{
    for (size_t i = 0; i < sizeof table / sizeof table[0]; i++)
        if (table[i].reg == reg)
            return table[i].value;
    return 0x0000;
}

void check_power_on(void)
{
    for (unsigned n = 1; n <= 32; n++) {
        fill_words(chain, CHAIN);
        check(s_power_on(n, chain, 256 * n) == 0, "power-on");
        for (unsigned i = 0; i < 256 * n; i++)
            check(chain[i] == table_value(i % 256), "register after power-on");
        check(are_marked(chain + 256 * n, CHAIN - 256 * n), "power-on keeps to its memory");
    }
    fill_words(chain, CHAIN);
    check(s_power_on(0, chain, 0) == 15, "power-on, n 0");
    check(s_power_on(33, chain, 256 * 33) == 15, "power-on, n 33");
    check(s_power_on(2, chain, 511) == 15, "power-on, a word short");
    check(s_power_on(2, chain, 513) == 15, "power-on, a word over");
    check(are_marked(chain, CHAIN), "refused power-on writes nothing");
}
