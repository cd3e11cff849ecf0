/*
 * host_twin.c: bmc_twin_power_on, bmc_twin_step, and bmc_twin_run as a step of all.
 *
 * Commands go through whole chains, device by device, memory and line compared
 * after every step. Here the line that comes back must be the right answer, with
 * the registers the memory holds; host_rough.c has the chains where something
 * goes wrong on the way.
 */
#include "host.h"

#include <string.h>

enum { OUT_MOST = 400 };

/* ---- Power-on ----------------------------------------------------------- */

static struct lent memory, line_memory, out_memory;

static void make_memory(void)
{
    if (memory.low != NULL)
        return;
    make_lent(&memory, MEMORY_MOST);
    make_lent(&line_memory, LINE_MOST);
    make_lent(&out_memory, OUT_MOST);
}

uint32_t compare_power_on(unsigned n, size_t memory_bytes)
{
    static uint8_t expected[MEMORY_MOST];
    const unsigned long figures[2] = { n, memory_bytes };
    make_memory();
    set_trial("bmc_twin_power_on", "n memory_bytes", figures, 2);
    memcpy(expected, lend(&memory, memory_bytes), memory_bytes);
    uint32_t ours = bmc_twin_power_on((uint8_t)n, memory.at, memory_bytes);
    uint32_t theirs = expect_power_on(n, expected, memory_bytes);
    settle("memory", (struct side){ ours, memory.at, memory_bytes },
           (struct side){ theirs, expected, memory_bytes });
    check_guards(&memory);
    count_input(BMC_NUMBER(ours));
    return ours;
}

const uint8_t *power_on_memory(void)
{
    return memory.at;
}

/* The chain's own size, or one that is wrong in some way. */
static size_t some_size(unsigned n, unsigned which)
{
    const size_t own = 512 * (size_t)n;
    switch (which) {
    case 0:
        return own;
    case 1:
        return own + 1;
    case 2:
        return own + 2;
    case 3:
        return n == 0 ? 3 : own - 1;
    case 4:
        return n == 0 ? 512 : own - 2;
    case 5:
        return own / 2;
    case 6:
        return own + 512;
    default:
        return any(MEMORY_MOST);
    }
}

static void try_power_on(void)
{
    for (unsigned n = 0; n <= 40; n++)
        for (unsigned which = 0; which < 9; which++)
            compare_power_on(n, some_size(n, which));
    for (unsigned n = 41; n <= 255; n++)
        compare_power_on(n, any(MEMORY_MOST));
}

/* ---- One step ----------------------------------------------------------- */

static void set_step_trial(const struct chain *c, unsigned device, size_t room)
{
    const unsigned long figures[3] = { c->n, room, device };
    if (device == WHOLE_CHAIN)
        set_trial("bmc_twin_run", "n room", figures, 2);
    else
        set_trial("bmc_twin_step", "n room device", figures, 3);
    trial.given[0] = (struct given){ "line", c->line, c->line_bytes };
    trial.given[1] = (struct given){ "memory", c->memory, c->memory_bytes };
}

static void lend_chain(const struct chain *c)
{
    make_memory();
    lend_copy(&memory, c->memory, c->memory_bytes);
    lend_copy(&line_memory, c->line, c->line_bytes);
}

static uint32_t call_step(const struct chain *c, unsigned device)
{
    if (device == WHOLE_CHAIN)
        return bmc_twin_run((uint8_t)c->n, memory.at, memory.bytes,
                            line_memory.at, line_memory.bytes,
                            out_memory.at, out_memory.bytes);
    return bmc_twin_step((uint8_t)c->n, (uint8_t)device,
                         memory.at, memory.bytes, line_memory.at, line_memory.bytes,
                         out_memory.at, out_memory.bytes);
}

/* What the reference expects becomes the chain's memory, and the line handed
 * on its line. */
uint32_t compare_step(struct chain *c, unsigned device, size_t room)
{
    static uint8_t registers[MEMORY_MOST];
    uint8_t next[OUT_MOST];
    set_step_trial(c, device, room);
    lend_chain(c);
    memcpy(next, lend(&out_memory, room), room);
    memcpy(registers, c->memory, c->memory_bytes);
    uint32_t ours = call_step(c, device);
    uint32_t theirs = expect_step(c->n, device, registers, c->memory_bytes,
                                  c->line, c->line_bytes, next, room);
    settle("memory", (struct side){ ours, memory.at, memory.bytes },
           (struct side){ theirs, registers, memory.bytes });
    settle("output", (struct side){ ours, out_memory.at, room },
           (struct side){ theirs, next, room });
    check_guards(&memory);
    check_guards(&out_memory);
    check_input(&line_memory, c->line);
    count_input(BMC_NUMBER(ours));
    memcpy(c->memory, registers, c->memory_bytes);
    if (ours == BMC_ACCEPTED)
        memcpy(c->line, next, c->line_bytes);
    return ours;
}

/* ---- Chains and commands ------------------------------------------------ */

void set_chain(struct chain *c, unsigned n)
{
    c->n = n;
    c->memory_bytes = 512 * (size_t)n;
    any_bytes(c->memory, c->memory_bytes);
    if (any(2) == 0)
        expect_power_on(n, c->memory, c->memory_bytes);
}

unsigned some_chain(void)
{
    return any(4) == 0 ? between(1, 32) : between(1, 6);
}

struct s_question chain_question(unsigned n)
{
    struct s_question q = any_question(any(5));
    q.n = n;
    q.device = any(n);
    if (any(8) == 0)
        q.reg = 0x00;
    return q;
}

void put_command(struct chain *c, struct s_question q)
{
    c->line_bytes = 2 * words_of(q);
    expect_command(q, c->line, c->line_bytes);
}

/* A line of any length, even a little too long, and any content. */
void put_some_line(struct chain *c)
{
    c->line_bytes = any(any(4) == 0 ? LINE_MOST + 1 : 282);
    any_bytes(c->line, c->line_bytes);
}

static unsigned register_of(const struct chain *c, unsigned device, unsigned reg)
{
    const uint8_t *at = c->memory + 512 * (size_t)device + 2 * reg;
    return at[0] | (unsigned)at[1] << 8;
}

/* ---- Right answers ------------------------------------------------------ */

static void check_registers(const struct chain *c, struct s_question q,
                            const uint8_t *values)
{
    unsigned first = q.kind == BMC_READALL ? 0 : q.device;
    for (unsigned i = 0; i < values_of(q); i++) {
        unsigned value = values[2 * i] | (unsigned)values[2 * i + 1] << 8;
        must(value == register_of(c, first + i, q.reg), "not the register's value");
    }
}

static void check_written(const struct chain *c, struct s_question q)
{
    unsigned first = q.kind == BMC_WRITEALL ? 0 : q.device;
    unsigned last = q.kind == BMC_WRITEALL ? q.n - 1 : q.device;
    for (unsigned device = first; device <= last && q.reg != 0x00; device++)
        must(register_of(c, device, q.reg) == q.value, "not the value written");
}

/* What came back is the right answer. */
static void check_answer(const struct chain *c, struct s_question q)
{
    static struct reply r;
    set_question_of(&r, q);
    memcpy(r.line, c->line, c->line_bytes);
    r.line_bytes = c->line_bytes;
    uint32_t result = compare_read(&r);
    must(BMC_NUMBER(result) == BMC_ACCEPTED, "the twin's answer was refused");
    if (q.kind == BMC_HELLOALL)
        must(BMC_BYTE(result) == q.n, "not the number of devices");
    if (is_read(q.kind))
        check_registers(c, q, read_values());
    if (is_write(q.kind))
        check_written(c, q);
}

static void try_smooth(struct chain *c)
{
    struct s_question q = chain_question(c->n);
    put_command(c, q);
    for (unsigned device = 0; device < c->n; device++)
        compare_step(c, device, any_room(c->line_bytes / 2));
    check_answer(c, q);
}

/* A line longer than any command passes every device as it came, whatever it
 * begins with, and no register changes. */
static void try_long(struct chain *c)
{
    static uint8_t line[LINE_MOST], registers[MEMORY_MOST];
    put_command(c, chain_question(c->n));
    any_bytes(c->line + c->line_bytes, LINE_MOST - c->line_bytes);
    c->line_bytes = 2 * between(BMC_LINE_MOST_WORDS + 1, LINE_MOST / 2);
    memcpy(line, c->line, c->line_bytes);
    memcpy(registers, c->memory, c->memory_bytes);
    for (unsigned device = 0; device < c->n; device++)
        must(compare_step(c, device, c->line_bytes + any(20)) == BMC_ACCEPTED,
             "a long line was turned away");
    must(memcmp(line, c->line, c->line_bytes) == 0, "a long line was changed");
    must(memcmp(registers, c->memory, c->memory_bytes) == 0,
         "a long line changed a register");
}

/* ---- Refusals ----------------------------------------------------------- */

/* Each row alone and where two of them hold: TWIN, then ROOM, then LENGTH. */
static void try_order(void)
{
    static struct chain c;
    for (unsigned over = 0; over <= 1; over++)
        for (unsigned odd = 0; odd <= 1; odd++)
            for (unsigned short_of = 0; short_of <= 3; short_of++) {
                set_chain(&c, 2);
                put_command(&c, chain_question(2));
                c.line_bytes += odd;
                size_t room = c.line_bytes - short_of;
                unsigned expected = over ? S_TWIN
                                    : room / 2 < c.line_bytes / 2 ? S_ROOM
                                    : odd ? S_LENGTH : S_ACCEPTED;
                must(BMC_NUMBER(compare_step(&c, over ? 2 : 1, room)) == expected,
                     "not the first row that holds");
            }
}


static void try_refusal(struct chain *c)
{
    c->n = any(41);
    c->memory_bytes = some_size(c->n, any(9));
    any_bytes(c->memory, c->memory_bytes);
    if (any(2) == 0)
        put_some_line(c);
    else
        put_command(c, chain_question(some_chain()));
    unsigned device = any(2) == 0 ? any(c->n + 1) : any(256);
    compare_step(c, device, any((unsigned)c->line_bytes + 20));
}

/* ---- The part ----------------------------------------------------------- */

enum { CHAINS = 2500, COMMANDS = 4, REFUSALS = 10000 };

void try_twin(void)
{
    static struct chain c;
    try_power_on();
    for (unsigned long i = 0; i < rounds(CHAINS); i++) {
        set_chain(&c, some_chain());
        for (unsigned j = 0; j < COMMANDS; j++) {
            try_smooth(&c);
            try_rough(&c);
        }
        try_long(&c);
    }
    try_nearly_right_chains(&c);
    try_order();
    for (unsigned long i = 0; i < rounds(REFUSALS); i++)
        try_refusal(&c);
    need_numbers(S_ACCEPTED, S_ACCEPTED);
    need_numbers(S_ROOM, S_LENGTH);
    need_numbers(S_TWIN, S_TWIN);
}
