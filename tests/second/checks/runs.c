/*
 * runs.c: a whole chain in one call is its devices one after the other.
 */
#include "checks.h"

#include "second/chain.h"

#include <string.h>

enum { LONG = MOST + 20 };

/* A line through the chain in one call, and device by device. */
static void through_both(unsigned n, const uint16_t *line, size_t words)
{
    static uint16_t before[CHAIN], after[CHAIN];
    uint16_t once[LONG + 4], stepped[MOST];
    memcpy(before, chain, sizeof chain);
    fill_words(once, LONG + 4);
    check(s_run(n, chain, 256 * n, line, words, once, words) == 0, "run");
    check(are_marked(once + words, LONG + 4 - words), "the rest stays");
    memcpy(after, chain, sizeof chain);
    memcpy(chain, before, sizeof chain);
    memcpy(stepped, line, words * sizeof *line);
    steps(n, stepped, words);
    check(same_words(once, stepped, words), "the line, device by device");
    check(same_words(after, chain, 256 * n), "the registers, device by device");
}

static void long_line(unsigned n)
{
    static uint16_t before[CHAIN];
    uint16_t line[LONG], out[LONG];
    send_command(any_question(1, n, 0), line);
    for (size_t i = MOST; i < LONG; i++)
        line[i] = (uint16_t)any(65536);
    memcpy(before, chain, sizeof chain);
    check(s_run(n, chain, 256 * n, line, LONG, out, LONG) == 0, "a long line passes");
    check(same_words(line, out, LONG), "as it came");
    check(same_words(before, chain, 256 * n), "and changes no register");
}

void check_runs(void)
{
    uint16_t line[MOST] = { 0 }, out[MOST];
    for (unsigned i = 0; i < 400; i++) {
        unsigned n = 1 + any(32), alive = any(2);
        struct s_question q = any_question(any(5), n, alive);
        any_chain(n);
        size_t words = send_command(q, line);
        if (any(3) == 0)
            turn(line, any((unsigned)words / 2 - 1), any(8));
        through_both(n, line, words);
        long_line(n);
    }
    fill_words(out, MOST);
    check(s_run(0, chain, 0, line, 8, out, 0) == 15, "n 0");
    check(s_run(33, chain, 256 * 33, line, 8, out, 0) == 15, "n 33");
    check(s_run(2, chain, 511, line, 8, out, 0) == 15, "memory a word short");
    check(s_run(2, chain, 512, line, 8, out, 7) == 2, "ROOM");
    check(are_marked(out, MOST), "a refused run writes nothing");
}
