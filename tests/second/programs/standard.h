/* standard.h: standard input, and what a program answers on standard output. */
#ifndef SECOND_PROGRAMS_STANDARD_H
#define SECOND_PROGRAMS_STANDARD_H

#include "second/second.h"

#include <stdio.h>

/* One byte more than an input may have, so that a longer one is noticed. */
static uint8_t file[65537];

/* Whether all of it could be read. */
static int take_in(size_t *bytes)
{
    *bytes = fread(file, 1, sizeof file, stdin);
    return !ferror(stdin);
}

/* What was written, or the number that turned the input away. The exit status is
 * 0 unless the output could not be written. */
static int put_out(int number, const void *out, size_t written)
{
    if (number != S_ACCEPTED)
        printf("R %d\n", number);
    else
        fwrite(out, 1, written, stdout);
    return fflush(stdout) == 0 && ferror(stdout) == 0 ? 0 : 1;
}

#endif
