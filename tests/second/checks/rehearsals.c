/*
 * rehearsals.c: job files answered by a chain of twins.
 */
#include "checks.h"

#include "second/certificate.h"
#include "second/rehearsal.h"

#include <stdio.h>
#include <string.h>

/* Answers aside, registers kept from entry to entry, no words for a bad question. */
static void check_rehearsal(void)
{
    const uint8_t hello[] = { 0x57, 0x00, 0x02 };
    uint16_t junk[3] = { 1, 2, 3 }, line[MOST];
    struct s_question bad = { .kind = 4, .n = 2, .reg = 1, .device = 2 };
    struct s_question h = { .kind = 0, .n = 2 };
    size_t written, whole;
    begin(2, 0);
    add(h, junk, 3);
    add(bad, junk, 3);
    check(s_rehearse(job, job_bytes, rehearsed, sizeof rehearsed, &written) == 0, "rehearsed");
    begin(2, 0);
    add(h, line, wire(hello, 3, line));
    add(bad, NULL, 0);
    check(written == job_bytes && memcmp(job, rehearsed, written) == 0, "the answered file");
    whole = written;
    memset(rehearsed, '#', sizeof rehearsed);
    check(s_rehearse(job, job_bytes, rehearsed, whole - 1, &written) == 2, "its ROOM");
    check(written == 0 && rehearsed[0] == '#', "nothing written");
    check(s_rehearse(job, job_bytes, rehearsed, whole, &written) == 0, "its room");
    check(written == whole && rehearsed[whole] == '#', "the rest stays");
}

/* n 2: WRITEDEVICE to 1, READALL: the document's table with the twin's values. */
static void check_rehearsal_registers(void)
{
    uint8_t write[8] = { 0x0C, 0x40, 0x34, 0x12 };
    uint8_t read[12] = { 0x03, 0x40, 0x34, 0x12, 0xFC, 0xFF, 0x00 };
    struct s_question w = { .kind = 2, .n = 2, .alive = 1, .reg = 0x40,
                            .value = 0x1234, .device = 1, .seed = 0xFF };
    struct s_question r = { .kind = 3, .n = 2, .alive = 1, .reg = 0x40, .seed = 0xFF };
    size_t written;
    begin(2, 1);
    add(w, NULL, 0);
    add(r, NULL, 0);
    check(s_rehearse(job, job_bytes, rehearsed, sizeof rehearsed, &written) == 0, "rehearsed");
    begin(2, 1);
    add_bytes(w, write, close_bytes(write, 4, 1, 0x00));
    add_bytes(r, read, close_bytes(read, 7, 1, 0x01));
    check(written == job_bytes && memcmp(job, rehearsed, written) == 0, "written, then read");
}

static int rehearsed_number(size_t *written)
{
    rehearsed[0] = '#';
    int number = s_rehearse(job, job_bytes, rehearsed, sizeof rehearsed, written);
    check(number == 0 || (*written == 0 && rehearsed[0] == '#'), "refused writes nothing");
    return number;
}

/* An answered file of 65,535 bytes is good; 65,539 and more are FILE, also
 * where there would be no room. */
static void check_rehearsal_length(void)
{
    size_t written;
    begin(1, 0);
    for (unsigned i = 0; i < 2730; i++)
        add_bare(0, 0, 0, 0, 0);
    add_bare(4, 0, 0, 1, 0);
    check(rehearsed_number(&written) == 0 && written == 65535, "65,535 bytes answered");
    job[7 + 8 * 2730] = 0;
    job[7 + 8 * 2730 + 4] = 0;
    check(rehearsed_number(&written) == 14, "65,551 bytes answered");
    begin(1, 1);
    for (unsigned i = 0; i < 8187; i++)
        add_bare(4, 0, 0, 1, 0);
    add_bare(1, 0, 0, 0, 0);
    check(rehearsed_number(&written) == 14, "65,539 bytes answered");
    check(s_rehearse(job, job_bytes, rehearsed, 0, &written) == 14, "FILE before ROOM");
    job[6] = 2;
    check(rehearsed_number(&written) == 14, "a bad job file");
}

/* Any questions: every good one is accepted by the reader. */
static void check_rehearsal_accepted(void)
{
    for (unsigned run = 0; run < 200; run++) {
        unsigned n = 1 + any(32), alive = any(2), entries = any(30);
        begin(n, alive);
        for (unsigned i = 0; i < entries; i++)
            add(job_question(n, alive), NULL, 0);
        size_t written = 0, at = 0;
        check(rehearse_job() == 0, "rehearsed");
        check(s_certificate(job, job_bytes, text, sizeof text, &written) == 0, "good file");
        for (unsigned i = 1; i <= entries; i++) {
            char due[32];
            while (text[at++] != '\n')
                continue;
            snprintf(due, sizeof due, "E %u 0\n", i);
            check(memcmp(text + at, due, strlen(due)) == 0, "accepted");
        }
    }
}

void check_rehearsals(void)
{
    check_rehearsal();
    check_rehearsal_registers();
    check_rehearsal_length();
    check_rehearsal_accepted();
}
