/*
 * job_files.c: document 01, 'Job file and certificate': which files are none,
 * by their header, their entries' fields and their length.
 */
#include "checks.h"

#include "second/certificate.h"

#include <stdio.h>
#include <stdlib.h>
#include <string.h>

/* FILE for each wrong header byte; a header alone is good. */
static void check_headers(void)
{
    for (unsigned n = 0; n < 256; n++) {
        char due[16];
        begin(n, n % 2);
        snprintf(due, sizeof due, "BMC 1 %u\n", n);
        check(n >= 1 && n <= 32 ? is_text(due) : is_refused(14), "n in the header");
    }
    for (size_t i = 0; i < 7; i++) {
        begin(2, 1);
        job[i] ^= 0x40;
        check(is_refused(14), "a wrong header");
        begin(2, 1);
        job_bytes = i;
        check(is_refused(14), "a header cut short");
    }
    begin(2, 2);
    check(is_refused(14), "alive 2 in the header");
}

/* Which unused fields are FILE: kind, alive, field. */
static int is_used(unsigned kind, unsigned alive, unsigned field)
{
    const char *used[] = { "", "rv", "rvd", "r", "rd" };
    if (field == 4)
        return alive && kind != 0;
    return strchr(used[kind], "rvVd"[field] == 'V' ? 'v' : "rvVd"[field]) != NULL;
}

static void check_fields(void)
{
    for (unsigned kind = 0; kind < 256; kind++)
        for (unsigned alive = 0; alive <= 1; alive++)
            for (unsigned field = 0; field < 5; field++) {
                size_t written;
                begin(3, alive);
                add_bare(kind, 0, 0, 0, 0);
                int plain = s_certificate(job, job_bytes, text, sizeof text, &written);
                check(plain == (kind > 4 ? 14 : 0), "kind in the file");
                if (kind > 4)
                    continue;
                job[7 + 1 + field] = 1;
                int number = s_certificate(job, job_bytes, text, sizeof text, &written);
                check(number == (is_used(kind, alive, field) ? 0 : 14), "unused field");
            }
}

/* An entry cut short anywhere; a file too long. */
static void check_cuts(void)
{
    example();
    size_t whole = job_bytes, written;
    for (size_t cut = 8; cut < whole; cut++) {
        int at_end = cut == 7 + 8 + 24;
        uint8_t *exact = malloc(cut);
        if (exact == NULL)
            abort();
        memcpy(exact, job, cut);
        int number = s_certificate(exact, cut, text, sizeof text, &written);
        check(number == (at_end ? 0 : 14), "cut short");
        free(exact);
    }
    begin(1, 0);
    while (job_bytes + 8 <= 65536)
        add_bare(0, 0, 0, 0, 0);
    check(job_bytes == 65535, "8191 entries");
    check(s_certificate(job, 65535, text, sizeof text, &written) == 0, "65,535 bytes");
    check(s_certificate(job, 65536, text, sizeof text, &written) == 14, "one byte more");
    memset(job + 65535, 0, 8);
    check(s_certificate(job, 65543, text, sizeof text, &written) == 14, "too long");
}

void check_job_files(void)
{
    check_headers();
    check_fields();
    check_cuts();
}
