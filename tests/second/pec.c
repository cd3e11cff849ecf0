/*
 * pec.c: the packet error check, bit by bit.
 *
 * Written from document 004, 'PEC Errors', Figure 69.
 */
#include "pec.h"

unsigned s_pec(const uint8_t *bytes, size_t n)
{
    unsigned crc = 0;
    for (size_t i = 0; i < n; i++) {
        crc ^= bytes[i];
        for (int bit = 0; bit < 8; bit++) {
            unsigned lowest = crc & 1;
            crc = crc >> 1;
            if (lowest == 1)
                crc ^= 0xB2;
        }
    }
    return crc;
}
