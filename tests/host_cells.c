/*
 * host_cells.c: bmc_cell for all 65,536 registers in both ranges, for cell
 * numbers inside, at the edges and outside, enabled and not; and bmc_cells for
 * measurements of twelve, with room and lengths right and wrong.
 *
 * The voltage is compared bit by bit: zero must be plus zero.
 */
#include "host.h"

#include <string.h>

static struct lent microvolts_memory, volts_memory;

static void make_memory(void)
{
    if (volts_memory.low != NULL)
        return;
    make_lent(&microvolts_memory, sizeof(int32_t));
    make_lent(&volts_memory, sizeof(float));
}

/* Both outputs, one behind the other, as the report shows them. */
static void join(const void *microvolts, const void *volts, uint8_t both[8])
{
    memcpy(both, microvolts, 4);
    memcpy(both + 4, volts, 4);
}

static void set_cell_trial(unsigned cell, unsigned enabled, unsigned reg,
                           unsigned bipolar)
{
    const unsigned long figures[4] = { cell, enabled, reg, bipolar };
    set_trial("bmc_cell", "cell enabled reg bipolar", figures, 4);
}

uint32_t compare_cell(unsigned cell, unsigned enabled, unsigned reg,
                      unsigned bipolar, int32_t *microvolts, float *volts)
{
    uint8_t ours[8], theirs[8];
    make_memory();
    set_cell_trial(cell, enabled, reg, bipolar);
    memcpy(microvolts, lend(&microvolts_memory, 4), 4);
    memcpy(volts, lend(&volts_memory, 4), 4);
    uint32_t result = bmc_cell((uint8_t)cell, (uint16_t)enabled, (uint16_t)reg,
                               (uint8_t)bipolar, (void *)microvolts_memory.at,
                               (void *)volts_memory.at);
    uint32_t expected = expect_cell(cell, enabled, reg, bipolar, microvolts, volts);
    join(microvolts_memory.at, volts_memory.at, ours);
    join(microvolts, volts, theirs);
    settle("microvolts and volts", (struct side){ result, ours, 8 },
           (struct side){ expected, theirs, 8 });
    check_guards(&microvolts_memory);
    check_guards(&volts_memory);
    count_input(BMC_NUMBER(result));
    return result;
}

static void try_cell(unsigned cell, unsigned enabled, unsigned reg, unsigned bipolar)
{
    int32_t microvolts;
    float volts;
    compare_cell(cell, enabled, reg, bipolar, &microvolts, &volts);
}

/* Enabled alone, enabled with others, not enabled, and none at all. */
static void try_masks(unsigned cell, unsigned reg, unsigned bipolar)
{
    unsigned own = cell >= 1 && cell <= 16 ? 1u << (cell - 1) : 0;
    try_cell(cell, own, reg, bipolar);
    try_cell(cell, 0xFFFF, reg, bipolar);
    try_cell(cell, 0xFFFF & ~own, reg, bipolar);
    try_cell(cell, any(65536), reg, bipolar);
}

static void try_register(unsigned reg)
{
    static const unsigned cells[] = { 0, 1, 12, 13, 255 };
    for (size_t i = 0; i < sizeof cells / sizeof cells[0]; i++) {
        try_masks(cells[i], reg, 0);
        try_masks(cells[i], reg, 1);
    }
}

static void try_any_cell(void)
{
    unsigned cell = any(4) > 0 ? between(1, 12) : any(256);
    unsigned bipolar = any(8) > 0 ? any(2) : any(256);
    try_cell(cell, any(65536), any(65536), bipolar);
}

/* ---- Twelve at a time --------------------------------------------------- */

enum { MOST_CELLS = 16, MOST_CELL_BYTES = 4 * MOST_CELLS, MOST_REGISTER_BYTES = 48 };

static struct lent registers_memory, outputs_memory[3];

static void make_memories(void)
{
    if (registers_memory.low != NULL)
        return;
    make_lent(&registers_memory, MOST_REGISTER_BYTES);
    for (size_t i = 0; i < 3; i++)
        make_lent(&outputs_memory[i], MOST_CELL_BYTES);
}

/* The three outputs, one behind the other, as the report shows them. */
static size_t join_outputs(struct cell_outputs o, uint8_t all[3 * MOST_CELL_BYTES])
{
    const void *from[3] = { o.microvolts, o.volts, o.answers };
    size_t bytes = 0;
    for (size_t i = 0; i < 3; i++) {
        memcpy(all + bytes, from[i], 4 * o.counts[i]);
        bytes += 4 * o.counts[i];
    }
    return bytes;
}

static void set_cells_trial(unsigned enabled, unsigned bipolar, const size_t counts[3],
                            const uint8_t *registers, size_t register_bytes)
{
    const unsigned long figures[5] = {
        enabled, bipolar, counts[0], counts[1], counts[2]
    };
    set_trial("bmc_cells", "enabled bipolar microvolts volts answers", figures, 5);
    trial.given[0] = (struct given){ "registers", registers, register_bytes };
}

static void compare_cells(unsigned enabled, unsigned bipolar, const size_t counts[3],
                          const uint8_t *registers, size_t register_bytes)
{
    int32_t microvolts[MOST_CELLS];
    float volts[MOST_CELLS];
    uint32_t answers[MOST_CELLS];
    uint8_t ours[3 * MOST_CELL_BYTES], theirs[3 * MOST_CELL_BYTES];
    make_memories();
    set_cells_trial(enabled, bipolar, counts, registers, register_bytes);
    lend_copy(&registers_memory, registers, register_bytes);
    memcpy(microvolts, lend(&outputs_memory[0], 4 * counts[0]), 4 * counts[0]);
    memcpy(volts, lend(&outputs_memory[1], 4 * counts[1]), 4 * counts[1]);
    memcpy(answers, lend(&outputs_memory[2], 4 * counts[2]), 4 * counts[2]);
    struct cell_outputs lent = {
        (void *)outputs_memory[0].at, (void *)outputs_memory[1].at,
        (void *)outputs_memory[2].at, { counts[0], counts[1], counts[2] }
    };
    struct cell_outputs copies = {
        microvolts, volts, answers, { counts[0], counts[1], counts[2] }
    };
    uint32_t result = bmc_cells((uint16_t)enabled, (uint8_t)bipolar,
                                registers_memory.at, register_bytes,
                                lent.microvolts, counts[0], lent.volts, counts[1],
                                lent.answers, counts[2]);
    uint32_t expected = expect_cells(enabled, bipolar, registers, register_bytes, copies);
    size_t bytes = join_outputs(lent, ours);
    join_outputs(copies, theirs);
    settle("microvolts, volts and answers", (struct side){ result, ours, bytes },
           (struct side){ expected, theirs, bytes });
    check_input(&registers_memory, registers);
    for (size_t i = 0; i < 3; i++)
        check_guards(&outputs_memory[i]);
    count_input(BMC_NUMBER(result));
}

/* Room for twelve or more, or now and then for fewer. */
static size_t any_count(void)
{
    return any(16) > 0 ? between(12, MOST_CELLS) : any(12);
}

/* Registers with low bits in one of eight. */
static void put_registers(uint8_t *registers, size_t register_bytes)
{
    any_bytes(registers, register_bytes);
    for (size_t i = 0; i < register_bytes; i += 2)
        if (any(8) > 0)
            registers[i] &= 0xFC;
}

static void try_any_cells(void)
{
    uint8_t registers[MOST_REGISTER_BYTES];
    const size_t counts[3] = { any_count(), any_count(), any_count() };
    size_t register_bytes = any(8) > 0 ? BMC_CELLS_BYTES : any(MOST_REGISTER_BYTES + 1);
    unsigned bipolar = any(8) > 0 ? any(2) : any(256);
    unsigned enabled = any(2) > 0 ? 0x0FFF : any(65536);
    put_registers(registers, register_bytes);
    compare_cells(enabled, bipolar, counts, registers, register_bytes);
}

enum { ANY_CELLS = 200000 };

void try_cells(void)
{
    for (unsigned reg = 0; reg < 65536; reg += share)
        try_register(reg);
    for (unsigned long i = 0; i < rounds(ANY_CELLS); i++)
        try_any_cell();
    for (unsigned long i = 0; i < rounds(ANY_CELLS); i++)
        try_any_cells();
    need_numbers(S_QUESTION, S_LENGTH);
    need_numbers(S_CHANNEL, S_LOW_BITS);
}
