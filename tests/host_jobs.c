/*
 * host_jobs.c: job files for the certificate, built field by field from
 * document 01's 'Job file and certificate' and, for version 2, document 02's M-100.
 *
 * Registers and values come from a few figures, so that reads meet the write
 * they follow, and writes and reads differ in letters S, O and U.
 */
#include "host.h"

static void put(struct job *j, unsigned byte)
{
    j->bytes[j->count++] = (uint8_t)byte;
}

static void put_two(struct job *j, unsigned figure)
{
    put(j, figure & 255);
    put(j, figure >> 8);
}

void put_header(struct job *j, unsigned version, unsigned n, unsigned alive)
{
    j->count = 0;
    j->entry_count = 0;
    put(j, 'B');
    put(j, 'M');
    put(j, 'C');
    put_two(j, version);
    put(j, n);
    put(j, alive);
}

static int has_masks(const struct job *j)
{
    return j->bytes[3] == 2;
}

size_t field_bytes(const struct job *j)
{
    return has_masks(j) ? 10 : 8;
}

void put_entry(struct job *j, struct s_question q, unsigned mask,
               const uint16_t *words, size_t count)
{
    j->entries[j->entry_count++] = j->count;
    put(j, q.kind);
    put(j, q.reg);
    put_two(j, q.value);
    if (has_masks(j))
        put_two(j, mask);
    put(j, q.device);
    put(j, q.seed);
    put_two(j, (unsigned)count);
    for (size_t i = 0; i < count; i++)
        put_two(j, words[i]);
}

/* ---- Questions ---------------------------------------------------------- */

/* Unused fields are 0. */
struct s_question clear_unused(struct s_question q)
{
    if (q.kind == BMC_HELLOALL)
        q.reg = 0;
    if (!is_write(q.kind))
        q.value = 0;
    if (q.kind != BMC_WRITEDEVICE && q.kind != BMC_READDEVICE)
        q.device = 0;
    if (q.kind == BMC_HELLOALL || q.alive == 0)
        q.seed = 0;
    return q;
}

static unsigned few_registers(void)
{
    return any(8) == 0 ? any(256) : 0x12 + any(2);
}

static unsigned few_values(void)
{
    return any(8) == 0 ? any(65536) : any(4) == 0 ? 0x0000 : 0x000F;
}

/* All bits, one, all but one, or any; 0 for what is no write. */
unsigned some_mask(unsigned kind)
{
    if (!is_write(kind))
        return MASK_NONE;
    switch (any(4)) {
    case 0:
        return MASK_ALL;
    case 1:
        return 1u << any(16);
    case 2:
        return MASK_ALL ^ 1u << any(16);
    default:
        return between(1, MASK_ALL);
    }
}

static struct s_question job_question(const struct job *j)
{
    struct s_question q = any_question(any(3) == 0 ? any(5) : between(1, 4));
    q.n = j->bytes[5];
    q.alive = j->bytes[6];
    q.reg = few_registers();
    q.value = few_values();
    q.device = any(12) == 0 ? between(q.n, 255) : any(q.n);
    return clear_unused(q);
}

/* ---- Answers ------------------------------------------------------------ */

static void put_few_answer(struct reply *r, struct s_question q)
{
    set_question_of(r, q);
    for (size_t i = 0; i < BMC_MOST_DEVICES; i++)
        r->values[i] = (uint16_t)few_values();
    put_right_bytes(r);
    put_words(r);
}

static void put_damaged_answer(struct reply *r, struct s_question q)
{
    const struct damage *d = &damages[any((unsigned)damage_count)];
    while (!fits(d, q.kind))
        d = &damages[any((unsigned)damage_count)];
    put_damaged(r, q, &d, 1);
    if (r->word_count > BMC_LINE_MOST_WORDS)
        r->word_count = BMC_LINE_MOST_WORDS;
}

static void put_random_answer(struct reply *r)
{
    r->word_count = any(BMC_LINE_MOST_WORDS + 1);
    for (size_t i = 0; i < r->word_count; i++)
        r->words[i] = (uint16_t)(any(2) == 0 ? any(65536) : nibble_word(any(16)));
}

static void put_any_entry(struct job *j)
{
    static struct reply r;
    struct s_question q = job_question(j);
    switch (any(8)) {
    case 0:
    case 1:
        put_damaged_answer(&r, q);
        break;
    case 2:
        r.word_count = 0;
        break;
    case 3:
        put_random_answer(&r);
        break;
    default:
        put_few_answer(&r, q);
    }
    put_entry(j, q, some_mask(q.kind), r.words, r.word_count);
}

/* ---- Files -------------------------------------------------------------- */

static unsigned some_n(void)
{
    return any(4) == 0 ? between(1, 32) : between(1, 5);
}

unsigned some_version(void)
{
    return between(1, 2);
}

void put_any_job(struct job *j, unsigned version)
{
    put_header(j, version, some_n(), any(2));
    for (unsigned entries = any(12); entries > 0; entries--)
        put_any_entry(j);
}

/* Entries without an answer, while they fit. */
void put_empty_entries(struct job *j, size_t up_to)
{
    while (j->count + field_bytes(j) <= up_to) {
        struct s_question q = job_question(j);
        put_entry(j, q, some_mask(q.kind), NULL, 0);
    }
}

/* 32 devices, a WRITEALL and READALL answers while they fit, then empty entries
 * while they fit. */
void put_full_job(struct job *j, unsigned version, unsigned alive)
{
    static struct reply r;
    struct s_question q = { .kind = BMC_WRITEALL, .n = 32, .alive = alive,
                            .reg = 0x12, .value = 0x000F };
    put_header(j, version, 32, alive);
    for (;;) {
        put_few_answer(&r, clear_unused(q));
        if (j->count + field_bytes(j) + 2 * r.word_count > BMC_FILE_MOST_BYTES)
            break;
        put_entry(j, r.q, some_mask(r.q.kind), r.words, r.word_count);
        q.kind = BMC_READALL;
        q.seed = any(256);
    }
    put_empty_entries(j, BMC_FILE_MOST_BYTES);
}
