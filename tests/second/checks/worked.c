/*
 * worked.c: document 01, 'Worked numbers', but for PEC and cells, which have
 * files of their own.
 */
#include "checks.h"

#include "second/certificate.h"
#include "second/command.h"
#include "second/reader.h"
#include "second/registers.h"

#include <string.h>

static void worked_lines(void)
{
    const uint8_t asked[] = { 0x03, 0x12, 0x00, 0xCB, 0xC2, 0xD3 };
    const uint8_t answer[] = { 0x03, 0x12, 0x00, 0x00, 0x00, 0xBC };
    struct s_question q = { .kind = 3, .n = 1, .reg = 0x12 };
    uint16_t line[MOST], value = MARK;
    struct s_answer a;
    size_t words = send_command(q, line);
    check(is_wire(line, words, asked, 6), "READALL of 12h, one device");
    check(s_power_on(1, chain, 256) == 0, "power-on of one device");
    steps(1, line, words);
    check(is_wire(line, words, answer, 6), "its answer for 0000h");
    a = s_read(q, line, words, &value, 1);
    check(a.number == 0 && a.values == 1 && value == 0, "and its reading");
}

/* The alive byte of the answer to a WRITEALL. */
static unsigned alive_after(unsigned n, unsigned seed)
{
    struct s_question q = { .kind = 1, .n = n, .alive = 1, .reg = 0x12, .seed = seed };
    uint16_t line[MOST], other[MOST];
    size_t words = send_command(q, line);
    s_power_on(n, chain, 256 * n);
    steps(n, line, words);
    check(s_read(q, line, words, NULL, 0).number == 0, "alive byte accepted");
    for (unsigned byte = 0; byte < 256; byte++) {
        memcpy(other, line, sizeof other);
        other[11] = spell_nibble(byte & 15);
        other[12] = spell_nibble(byte >> 4);
        if (same_words(line, other, words))
            return byte;
        check(s_read(q, other, words, NULL, 0).number == 9, "another alive byte");
    }
    return 256;
}

/* The longest line, and one word more. */
static void worked_longest(void)
{
    struct s_question q = { .kind = 3, .n = 32, .alive = 1 };
    uint16_t line[MOST + 1] = { 0 };
    size_t words = send_command(q, line);
    check(words == 140, "140 words");
    any_chain(32);
    steps(32, line, words);
    check(read_number(q, line, 140) == 0, "140 words good");
    check(read_number(q, line, 141) == 3, "141 words LENGTH");
    q.n = 33;
    check(read_number(q, line, 140) == 1, "n 33 QUESTION");
}

/* n 32 good, n 33 QUESTION, HELLOALL excepted; an empty line. */
static void worked_bounds(void)
{
    uint16_t line[MOST];
    size_t words;
    for (unsigned kind = 0; kind <= 4; kind++) {
        struct s_question q = { .kind = kind, .n = 32 };
        check(read_number(q, line, 0) == 3, "an empty line LENGTH");
        check(s_command(q, line, MOST, &words) == 0, "n 32 good");
        q.n = 33;
        check(s_command(q, line, MOST, &words) == (kind == 0 ? 0 : 1), "n 33");
        check(read_number(q, line, 0) == (kind == 0 ? 3 : 1), "n 33 read");
        q.n = 0;
        check(s_command(q, line, MOST, &words) == (kind == 0 ? 0 : 1), "n 0");
    }
}

/* In an entry 141 words are FILE, 140 are not. */
static void worked_entry(void)
{
    uint8_t file[7 + 8 + 282] = { 'B', 'M', 'C', 1, 0, 32, 1, 3 };
    char printed[64];
    size_t written;
    file[13] = 140;
    check(s_certificate(file, 7 + 8 + 280, printed, 64, &written) == 0, "140 words in an entry");
    file[13] = 141;
    check(s_certificate(file, 7 + 8 + 282, printed, 64, &written) == 14, "141 words in an entry");
}

void check_worked(void)
{
    worked_lines();
    check(alive_after(1, 0xFF) == 0x00, "seed FFh, one device: 00h");
    check(alive_after(32, 0xF0) == 0x10, "seed F0h, 32 devices: 10h");
    worked_longest();
    worked_bounds();
    worked_entry();
}
