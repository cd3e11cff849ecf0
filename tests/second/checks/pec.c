/*
 * pec.c: the PEC by long division, beside the program's.
 *
 * Document 01's six (under 'Worked numbers'), every single byte, and random
 * bytes.
 */
#include "checks.h"

#include "second/pec.h"

/* 004, 'PEC Errors': long division by x^8+x^6+x^3+x^2+1, bits as received
 * (lowest first, highest power first); the remainder goes out likewise. */
unsigned divide(const uint8_t *bytes, size_t n)
{
    unsigned remainder = 0, pec = 0;
    for (size_t i = 0; i < 8 * (n + 1); i++) {
        unsigned bit = i < 8 * n ? bytes[i / 8] >> (i % 8) & 1u : 0;
        remainder = remainder << 1 | bit;
        if (remainder & 0x100)
            remainder ^= 0x14D;
    }
    for (unsigned i = 0; i < 8; i++)
        pec |= (remainder >> (7 - i) & 1) << i;
    return pec;
}

/* The PEC over the bytes before it; the alive byte. */
size_t close_bytes(uint8_t *bytes, size_t n, unsigned alive, unsigned count)
{
    bytes[n] = (uint8_t)divide(bytes, n);
    n++;
    if (alive)
        bytes[n++] = (uint8_t)count;
    return n;
}

void check_pec(void)
{
    uint8_t bytes[80] = { 0 };
    check(s_pec(bytes, 0) == 0x00, "PEC of nothing");
    check(s_pec((const uint8_t *)"\x01", 1) == 0x3E, "PEC of 01");
    check(s_pec((const uint8_t *)"\x02", 1) == 0x7C, "PEC of 02");
    check(s_pec((const uint8_t *)"\x03", 1) == 0x42, "PEC of 03");
    check(s_pec((const uint8_t *)"\x03\x12\x00", 3) == 0xCB, "PEC of 03 12 00");
    check(s_pec((const uint8_t *)"\x03\x12\x00\x00\x00", 5) == 0xBC, "PEC of 03 12 00 00 00");
    for (unsigned b = 0; b < 256; b++) {
        bytes[0] = (uint8_t)b;
        check(s_pec(bytes, 1) == divide(bytes, 1), "PEC of one byte by division");
    }
    for (unsigned run = 0; run < 1000; run++) {
        size_t n = any(80);
        for (size_t i = 0; i < n; i++)
            bytes[i] = (uint8_t)any(256);
        check(s_pec(bytes, n) == divide(bytes, n), "PEC by division");
    }
}
