/*
 * jobs.c: a job file under way, and what its certificate is due to be.
 */
#include "checks.h"

#include "second/certificate.h"
#include "second/rehearsal.h"

#include <string.h>

uint8_t job[JOB_ROOM];
size_t job_bytes;
uint8_t rehearsed[JOB_ROOM];
char text[TEXT_ROOM];

static void put(size_t byte)
{
    job[job_bytes++] = (uint8_t)byte;
}

static void put_two(size_t figure)
{
    put(figure);
    put(figure >> 8);
}

void begin(unsigned n, unsigned alive)
{
    begin_version(1, n, alive);
}

void begin_version(unsigned version, unsigned n, unsigned alive)
{
    job_bytes = 0;
    put('B');
    put('M');
    put('C');
    put_two(version);
    put(n);
    put(alive);
}

/* In version 2 a write is expected to show all its bits. */
void add(struct s_question q, const uint16_t *line, size_t words)
{
    add_masked(q, q.kind == 1 || q.kind == 2 ? 0xFFFF : 0, line, words);
}

/* Only version 2 has a place for the mask. */
void add_masked(struct s_question q, unsigned mask, const uint16_t *line, size_t words)
{
    put(q.kind);
    put(q.reg);
    put_two(q.value);
    if (job[3] == 2)
        put_two(mask);
    put(q.device);
    put(q.seed);
    put_two(words);
    for (size_t i = 0; i < words; i++)
        put_two(line[i]);
}

void add_bare(unsigned kind, unsigned reg, unsigned value, unsigned device,
                     unsigned seed)
{
    struct s_question q = { kind, job[5], job[6], reg, value, device, seed };
    add(q, NULL, 0);
}

/* A question whose unused fields are 0. */
struct s_question job_question(unsigned n, unsigned alive)
{
    struct s_question q = any_question(any(5), n, alive);
    if (q.kind == 0)
        q.reg = 0;
    if (q.kind != 1 && q.kind != 2)
        q.value = 0;
    if (q.kind != 2 && q.kind != 4)
        q.device = 0;
    if (q.kind == 0 || !alive)
        q.seed = 0;
    return q;
}

/* A right answer, with these values in wire order. */
void add_bytes(struct s_question q, const uint8_t *bytes, size_t n)
{
    uint16_t line[MOST];
    add(q, line, wire(bytes, n, line));
}

int is_text(const char *due)
{
    size_t written = 99, length = strlen(due);
    memset(text, '#', sizeof text);
    int number = s_certificate(job, job_bytes, text, length, &written);
    return number == 0 && written == length && memcmp(text, due, length) == 0
        && text[length] == '#';
}

int is_refused(int number)
{
    size_t written = 99;
    memset(text, '#', sizeof text);
    int got = s_certificate(job, job_bytes, text, sizeof text, &written);
    return got == number && written == 0 && text[0] == '#';
}

/* The document's example, its PECs by long division. */
void example(void)
{
    uint8_t write[] = { 0x02, 0x12, 0x0F, 0x00, 0 };
    uint8_t read[] = { 0x03, 0x12, 0x00, 0x00, 0x0F, 0x00, 0x00, 0 };
    struct s_question w = { .kind = 1, .n = 2, .reg = 0x12, .value = 0x000F };
    struct s_question r = { .kind = 3, .n = 2, .reg = 0x12 };
    begin(2, 0);
    close_bytes(write, 4, 0, 0);
    close_bytes(read, 7, 0, 0);
    add_bytes(w, write, 5);
    add_bytes(r, read, 8);
}

/* Answers the job by the twin chain, and takes the answered file up. */
int rehearse_job(void)
{
    size_t written;
    int number = s_rehearse(job, job_bytes, rehearsed, sizeof rehearsed, &written);
    if (number == 0) {
        memcpy(job, rehearsed, written);
        job_bytes = written;
    }
    return number;
}
