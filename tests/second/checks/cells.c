/*
 * cells.c: document 01, 'Cells', of every code and both ranges, with its worked
 * numbers of cells, and 004's Table 4.
 */
#include "checks.h"

#include "second/cells.h"

#include <math.h>

static int is_cell(unsigned m, int bipolar, int32_t microvolts)
{
    int measured = 0;
    int32_t got = 0;
    float volts = 0;
    int number = s_cell(1, 1, m * 4, bipolar, &measured, &got, &volts);
    double exact = ((double)m - (bipolar ? 8192 : 0)) * 5 / 16384;
    return number == 0 && measured == 1 && got == microvolts
        && (double)volts == exact && (volts != 0 || !signbit(volts));
}

static void worked_cells(void)
{
    check(is_cell(128, 0, 39063), "m 128 unipolar");
    check(is_cell(8064, 1, -39063), "m 8064 bipolar");
    check(is_cell(0, 1, -2500000), "m 0 bipolar");
    check(is_cell(16383, 0, 4999695), "m 16383 unipolar");
    check(is_cell(8192, 0, 2500000), "m 8192 unipolar");
    check(is_cell(8192, 1, 0), "m 8192 bipolar");
    check(is_cell(11796, 0, 3599854), "m 11796 unipolar");
}

static int cell_number(unsigned cell, unsigned enabled, unsigned reg, int *measured)
{
    int32_t microvolts = 77;
    float volts = 77;
    int number = s_cell(cell, enabled, reg, 0, measured, &microvolts, &volts);
    check(number == 0 || (microvolts == 77 && volts == 77), "refused cell writes nothing");
    return number;
}

static void worked_cell_bounds(void)
{
    int measured = 5;
    check(cell_number(1, 1, 0x0001, &measured) == 13, "register 0001h: LOW BITS");
    check(measured == 5, "LOW BITS writes nothing");
    check(cell_number(1, 0xFFFE, 0x0001, &measured) == 0 && measured == 0, "not enabled");
    check(cell_number(12, 0x0800, 0, &measured) == 0 && measured == 1, "cell 12 good");
    check(cell_number(13, 0xFFFF, 1, &measured) == 12, "cell 13 CHANNEL");
    check(cell_number(0, 0, 1, &measured) == 12, "cell 0 CHANNEL");
    check(cell_number(255, 0, 1, &measured) == 12, "cell 255 CHANNEL");
}

/* Cell 1 good, cell 2 with a low bit, cell 12 good, the others not enabled. */
static void worked_twelve_cells(void)
{
    const uint16_t registers[12] = { 512, 513, [10] = 1, [11] = 65532 };
    struct s_measured cells[12];
    s_cells(0xF803, 0, registers, cells);
    check(cells[0].measured && cells[0].microvolts == 39063, "the first of twelve");
    check(cells[1].number == 13 && !cells[1].measured, "LOW BITS of one of twelve");
    for (int i = 2; i < 11; i++)
        check(cells[i].number == 0 && !cells[i].measured, "not enabled, of twelve");
    check(cells[11].measured && cells[11].microvolts == 4999695, "the last of twelve");
}

/* |256 * microvolts - code * 78125| is at most a half (128), and at a half
 * the microvolts lie farther from zero. */
static int is_nearest(int64_t code, int64_t microvolts)
{
    int64_t far = 256 * microvolts - code * 78125;
    if (code < 0)
        far = -far;
    return far > -128 && far <= 128;
}

static void every_code(void)
{
    for (unsigned reg = 0; reg < 65536; reg++)
        for (int bipolar = 0; bipolar <= 1; bipolar++) {
            int measured = 5;
            int32_t microvolts = 0;
            float volts = 0;
            int number = s_cell(reg % 12 + 1, 0xFFFF, reg, bipolar,
                                &measured, &microvolts, &volts);
            int code = (int)(reg / 4) - (bipolar ? 8192 : 0);
            check(number == (reg % 4 == 0 ? 0 : 13), "LOW BITS exactly then");
            if (number != 0)
                continue;
            check(is_nearest(code, microvolts), "nearest microvolt");
            check((double)volts * 16384 == (double)code * 5, "volts exact");
            check(code != 0 || !signbit(volts), "zero is plus zero");
        }
}

/* 004, Table 4, where 01 and its formula agree with it. */
static void check_table_4(void)
{
    check(is_cell(0, 0, 0) && is_cell(0, 1, -2500000), "Table 4, 0000h");
    check(is_cell(0x2000, 0, 2500000) && is_cell(0x2000, 1, 0), "Table 4, 2000h");
}

void check_cells(void)
{
    worked_cells();
    worked_cell_bounds();
    worked_twelve_cells();
    every_code();
    check_table_4();
}
