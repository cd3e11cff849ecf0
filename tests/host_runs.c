/*
 * host_runs.c: bmc_twin_run, a whole chain in one call.
 *
 * Commands as they are written, commands and lines with something wrong, lines of
 * any length, and every refusal; memory and output are compared after each run, by
 * host_twin.c's compare_step.
 */
#include "host.h"

#include <string.h>

/* A command comes back as its right answer. */
static void try_command_round(struct chain *c)
{
    static struct reply r;
    struct s_question q = chain_question(c->n);
    put_command(c, q);
    compare_step(c, WHOLE_CHAIN, any_room(c->line_bytes / 2));
    set_question_of(&r, q);
    r.line_bytes = c->line_bytes;
    memcpy(r.line, c->line, c->line_bytes);
    must(BMC_NUMBER(compare_read(&r)) == BMC_ACCEPTED, "the chain's answer was refused");
}

/* Bits turned over in a command, or no command at all. */
static void try_wrong_line(struct chain *c)
{
    if (any(3) == 0)
        put_some_line(c);
    else
        put_command(c, chain_question(any(4) == 0 ? some_chain() : c->n));
    for (unsigned turns = any(3); turns > 0 && c->line_bytes > 0; turns--)
        c->line[any((unsigned)c->line_bytes)] ^= (uint8_t)(1u << any(8));
    compare_step(c, WHOLE_CHAIN, c->line_bytes + any(20));
}

static void try_refused_run(struct chain *c)
{
    static const int off[] = { 0, 0, -512, -2, -1, 1, 2, 512 };
    c->n = any(41);
    size_t own = 512 * (size_t)c->n;
    int by = off[any(8)];
    c->memory_bytes = by < 0 && own < 512 ? 3 : (size_t)((long)own + by);
    any_bytes(c->memory, c->memory_bytes);
    put_some_line(c);
    compare_step(c, WHOLE_CHAIN, any((unsigned)c->line_bytes + 20));
}

/* TWIN, then ROOM, then LENGTH. */
static void try_run_order(struct chain *c)
{
    for (unsigned size = 0; size <= 1; size++)
        for (unsigned odd = 0; odd <= 1; odd++)
            for (unsigned short_of = 0; short_of <= 3; short_of++) {
                set_chain(c, 2);
                put_command(c, chain_question(2));
                c->line_bytes += odd;
                c->memory_bytes += size;
                size_t room = c->line_bytes - short_of;
                unsigned expected = size ? S_TWIN
                                    : room / 2 < c->line_bytes / 2 ? S_ROOM
                                    : odd ? S_LENGTH : S_ACCEPTED;
                must(BMC_NUMBER(compare_step(c, WHOLE_CHAIN, room)) == expected,
                     "not the first row that holds");
            }
}

enum { CHAINS = 4000, COMMANDS = 4, REFUSALS = 10000 };

void try_runs(void)
{
    static struct chain c;
    for (unsigned long i = 0; i < rounds(CHAINS); i++) {
        set_chain(&c, some_chain());
        for (unsigned j = 0; j < COMMANDS; j++) {
            try_command_round(&c);
            try_wrong_line(&c);
        }
    }
    try_run_order(&c);
    for (unsigned long i = 0; i < rounds(REFUSALS); i++)
        try_refused_run(&c);
    need_numbers(S_ACCEPTED, S_ACCEPTED);
    need_numbers(S_ROOM, S_LENGTH);
    need_numbers(S_TWIN, S_TWIN);
}
