/*
 * cells.c: what a register says of a cell, in microvolts and in volts.
 *
 * Written from document 01, 'Cells', and rows 12 and 13 of 'Turned away'.
 */
#include "cells.h"

/* code * 5,000,000 / 16384, nearest, a half going away from zero. */
static int32_t to_microvolts(int32_t code)
{
    int64_t size = code < 0 ? -(int64_t)code : code;
    int64_t nearest = (2 * size * 5000000 + 16384) / (2 * 16384);
    return (int32_t)(code < 0 ? -nearest : nearest);
}

/* code * 5 is below 2^24 and 16384 a power of two: nothing is rounded. */
static float to_volts(int32_t code)
{
    return (float)(code * 5) / 16384.0f;
}

/* CHANNEL comes first, then 'not measured', then LOW BITS. */
int s_cell(unsigned cell, unsigned enabled, unsigned reg, int bipolar,
           int *measured, int32_t *microvolts, float *volts)
{
    if (cell < 1 || cell > 12)
        return S_CHANNEL;
    if ((enabled >> (cell - 1) & 1) == 0) {
        *measured = 0;
        *microvolts = 0;
        *volts = 0.0f;
        return S_ACCEPTED;
    }
    if ((reg & 3) != 0)
        return S_LOW_BITS;
    int32_t code = (int32_t)((reg & 0xFFFF) / 4) - (bipolar ? 8192 : 0);
    *measured = 1;
    *microvolts = to_microvolts(code);
    *volts = to_volts(code);
    return S_ACCEPTED;
}

void s_cells(unsigned enabled, int bipolar, const uint16_t registers[12],
             struct s_measured cells[12])
{
    for (unsigned cell = 1; cell <= 12; cell++) {
        struct s_measured *c = &cells[cell - 1];
        *c = (struct s_measured){ 0 };
        c->number = s_cell(cell, enabled, registers[cell - 1], bipolar,
                           &c->measured, &c->microvolts, &c->volts);
    }
}
