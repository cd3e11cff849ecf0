/*
 * line.c: framing spelled out in text, apart from the program under test, and
 * held to the words that document 01 prints ('The line').
 */
#include "checks.h"

/* 01, 'The line': twelve line bits written out, bit 0 first. */
static uint16_t spell(const char *bits)
{
    uint16_t word = 0;
    for (unsigned i = 0; i < 12; i++)
        if (bits[i] == '1')
            word = (uint16_t)(word | 1u << i);
    return word;
}

/* 004, Table 20: S, four bits each with its inverse, E 0, P, P. */
uint16_t spell_nibble(unsigned nibble)
{
    char bits[13] = "0........011";
    for (unsigned i = 0; i < 4; i++) {
        bits[1 + 2 * i] = (nibble >> i & 1) ? '1' : '0';
        bits[2 + 2 * i] = (nibble >> i & 1) ? '0' : '1';
    }
    return spell(bits);
}

size_t wire(const uint8_t *bytes, size_t n, uint16_t *line)
{
    size_t words = 0;
    line[words++] = 0xE2A;
    for (size_t i = 0; i < n; i++) {
        line[words++] = spell_nibble(bytes[i] & 15u);
        line[words++] = spell_nibble(bytes[i] >> 4);
    }
    line[words++] = 0xEA8;
    return words;
}

int is_wire(const uint16_t *line, size_t words, const uint8_t *bytes, size_t n)
{
    uint16_t expected[MOST + 4];
    return wire(bytes, n, expected) == words && same_words(line, expected, words);
}

/* Turns one data bit of byte i: two line bits. */
void turn(uint16_t *line, size_t i, unsigned bit)
{
    size_t word = 1 + 2 * i + bit / 4;
    line[word] ^= (uint16_t)(3u << (1 + 2 * (bit % 4)));
}

/* 01, 'The line': the words it prints. */
void check_line(void)
{
    check(spell("010101000111") == 0xE2A, "preamble 15h is E2Ah");
    check(spell("000101010111") == 0xEA8, "stop 54h is EA8h");
    check(spell_nibble(0) == 0xD54, "nibble 0 is D54h");
    check(spell_nibble(1) == 0xD52, "nibble 1 is D52h");
    check(spell_nibble(15) == 0xCAA, "nibble Fh is CAAh");
}
