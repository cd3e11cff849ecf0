/*
 * rehearse.c: the rehearsal program, second version.
 *
 * Reads a job file from standard input and writes it again, each answer now the
 * one a twin chain gives; or prints the line 'R 14' when the file is turned away
 * (docs/DECISIONS.md, 'Rehearsal'). See second.h.
 */
#include "standard.h"

#include "second/rehearsal.h"

static uint8_t answered[65536];

int main(void)
{
    size_t bytes, written = 0;
    int number = S_FILE;
    if (take_in(&bytes))
        number = s_rehearse(file, bytes, answered, sizeof answered, &written);
    return put_out(number, answered, written);
}
