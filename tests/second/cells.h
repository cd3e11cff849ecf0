/* cells.h: a cell's register in microvolts and in volts (01, 'Cells'). */
#ifndef SECOND_CELLS_H
#define SECOND_CELLS_H

#include "second.h"

/* 0, CHANNEL or LOW BITS. A cell that is not measured gives measured 0, and 0
 * for both figures. */
int s_cell(unsigned cell, unsigned enabled, unsigned reg, int bipolar,
           int *measured, int32_t *microvolts, float *volts);

/* Of the twelve cells of one measurement, cell 1 first. */
struct s_measured {
    int number;                     /* 0 or LOW BITS */
    int measured;
    int32_t microvolts;
    float volts;
};
void s_cells(unsigned enabled, int bipolar, const uint16_t registers[12],
             struct s_measured cells[12]);

#endif
