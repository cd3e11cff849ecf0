/*
 * distance.c: document 01, 'Distance, and where it ends': its example with 15
 * devices, and the turned bits that are always noticed.
 */
#include "checks.h"

#include "second/reader.h"

#include <string.h>

static unsigned turned_bits(const uint16_t *a, const uint16_t *b, size_t words)
{
    unsigned count = 0;
    for (size_t i = 0; i < words; i++)
        for (unsigned bit = 0; bit < 16; bit++)
            count += (unsigned)((a[i] ^ b[i]) >> bit & 1);
    return count;
}

static void four_bits(unsigned n, unsigned alive, int due)
{
    struct s_question q = any_question(3, n, alive);
    uint16_t line[MOST], other[MOST], was[32], is[32];
    size_t words = send_command(q, line);
    any_chain(n);
    steps(n, line, words);
    check(s_read(q, line, words, was, 32).number == 0, "answer before the turn");
    memcpy(other, line, sizeof other);
    turn(other, 2, 0);
    turn(other, 2 + 2 * n + 1, 7);
    check(turned_bits(line, other, words) == 4, "four line bits");
    check(s_read(q, other, words, is, 32).number == due, "answer after the turn");
    if (due != 0)
        return;
    check(is[n - 1] == (was[n - 1] ^ 1), "another value");
    check(same_words(was, is, n - 1), "the others the same");
}

/* One or two turned data bits of values and PEC (the other bytes are fixed):
 * fewer than six line bits never give another answer up to 14 devices. */
static void no_near_answer(unsigned n)
{
    struct s_question q = any_question(3, n, 0);
    uint16_t line[MOST], values[32];
    size_t words = send_command(q, line);
    unsigned bits = 16 * n + 8 + 8;
    any_chain(n);
    steps(n, line, words);
    for (unsigned i = 0; i < bits; i++)
        for (unsigned j = i; j < bits; j++) {
            uint16_t other[MOST];
            memcpy(other, line, words * sizeof *line);
            turn(other, 2 + i / 8, i % 8);
            if (j != i)
                turn(other, 2 + j / 8, j % 8);
            check(s_read(q, other, words, values, 32).number == 8, "distance 6");
        }
}

void check_distance(void)
{
    for (unsigned alive = 0; alive <= 1; alive++)
        for (unsigned n = 1; n <= 32; n++)
            four_bits(n, alive, n == 15 ? 0 : 8);
    no_near_answer(1);
    no_near_answer(13);
    no_near_answer(14);
}
