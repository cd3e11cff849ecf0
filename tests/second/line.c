/*
 * line.c: characters, and bytes on a line.
 *
 * Written from document 01, 'The line', and row 4 of 'Turned away'.
 */
#include "line.h"

/* 1 when an odd number of bits is set. */
static unsigned odd(unsigned bits)
{
    unsigned parity = 0;
    for (; bits != 0; bits >>= 1)
        parity ^= bits & 1;
    return parity;
}

/* Start bit 0, eight data bits, even parity, two stop bits 1. */
static uint16_t character(unsigned data)
{
    return (uint16_t)(data << 1 | odd(data) << 9 | 1u << 10 | 1u << 11);
}

uint16_t s_preamble(void)
{
    return character(0x15);
}

uint16_t s_stop(void)
{
    return character(0x54);
}

/* Each bit followed by its complement, lowest bit first. */
static uint16_t nibble_character(unsigned nibble)
{
    unsigned data = 0;
    for (unsigned i = 0; i < 4; i++) {
        unsigned bit = nibble >> i & 1;
        data |= bit << (2 * i);
        data |= (1 - bit) << (2 * i + 1);
    }
    return character(data);
}

/* The nibble a word would carry: its true bits, lowest first. */
static unsigned nibble_of(uint16_t word)
{
    unsigned nibble = 0;
    for (unsigned i = 0; i < 4; i++)
        nibble |= ((unsigned)word >> (1 + 2 * i) & 1) << i;
    return nibble;
}

int s_is_nibble(uint16_t word)
{
    return nibble_character(nibble_of(word)) == word;
}

/* 01, 'Turned away', row 4: what is no character at all. */
int s_is_character(uint16_t word)
{
    unsigned start = word & 1u;
    unsigned stops = word >> 10 & 3u;
    unsigned above = word >> 12;
    unsigned data_and_parity = word >> 1 & 0x1FFu;
    return above == 0 && start == 0 && stops == 3 && !odd(data_and_parity);
}

/* Preamble, two characters a byte, stop. */
size_t s_line_words(size_t bytes)
{
    return 1 + 2 * bytes + 1;
}

void s_put_line(const uint8_t *bytes, size_t n, uint16_t *line)
{
    line[0] = s_preamble();
    for (size_t i = 0; i < n; i++) {
        line[1 + 2 * i] = nibble_character(bytes[i] & 15u);
        line[2 + 2 * i] = nibble_character(bytes[i] >> 4);
    }
    line[1 + 2 * n] = s_stop();
}

/* Byte i of a line, if its two words are nibbles. */
unsigned s_line_byte(const uint16_t *line, size_t i)
{
    return nibble_of(line[1 + 2 * i]) | nibble_of(line[2 + 2 * i]) << 4;
}

/* Bytes i and i+1 of a line, low byte first. */
uint16_t s_line_value(const uint16_t *line, size_t i)
{
    return (uint16_t)(s_line_byte(line, i) | s_line_byte(line, i + 1) << 8);
}
