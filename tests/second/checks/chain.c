/*
 * chain.c: a chain of twins with its memory, and what is sent through it.
 */
#include "checks.h"

#include "second/command.h"
#include "second/reader.h"
#include "second/twin.h"

#include <string.h>

uint16_t chain[CHAIN];

void any_chain(unsigned n)
{
    for (unsigned i = 0; i < 256 * n; i++)
        chain[i] = (uint16_t)any(65536);
}

struct s_question any_question(unsigned kind, unsigned n, unsigned alive)
{
    struct s_question q = { kind, n, alive, any(256), any(65536), any(n), any(256) };
    return q;
}

size_t send_command(struct s_question q, uint16_t *line)
{
    size_t words = 0;
    check(s_command(q, line, MOST, &words) == 0, "command written");
    return words;
}

void step(unsigned n, unsigned device, uint16_t *line, size_t words)
{
    uint16_t out[MOST];
    check(s_step(n, device, chain, 256 * n, line, words, out, MOST) == 0, "stepped");
    memcpy(line, out, words * sizeof *line);
}

void steps(unsigned n, uint16_t *line, size_t words)
{
    for (unsigned device = 0; device < n; device++)
        step(n, device, line, words);
}

int read_number(struct s_question q, const uint16_t *line, size_t words)
{
    uint16_t values[32];
    return s_read(q, line, words, values, 32).number;
}
