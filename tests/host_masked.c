/*
 * host_masked.c: the bits a write is expected to show, through bmc_certificate,
 * by document 02's M-100.
 *
 * What a read differs in is chosen first, outside the mask, inside, both or
 * nowhere, so that its letter is known without asking: the reference is asked as
 * well, but it is the document that decides here.
 */
#include "host.h"

#include <stdio.h>
#include <string.h>

static struct job job;
static struct reply r;
static unsigned numbers[16];                /* of its entries, where they are known */

/* ---- Certificates that are known beforehand ----------------------------- */

/* Memory for every certificate here, which is of a few entries. */
static char due[1000];
static size_t due_bytes;

static void due_line(const char *letter, unsigned long a, unsigned long b)
{
    due_bytes += (size_t)snprintf(due + due_bytes, sizeof due - due_bytes,
                                  "%s %lu %lu\n", letter, a, b);
}

/* All but the letters. */
static void begin_due(void)
{
    due_bytes = 0;
    due_line("BMC", job.bytes[3], job.bytes[5]);
    for (unsigned long i = 0; i < job.entry_count; i++)
        due_line("E", i + 1, numbers[i]);
}

static void due_letter(unsigned device, char letter)
{
    due_bytes += (size_t)snprintf(due + due_bytes, sizeof due - due_bytes,
                                  "D %u %c\n", device, letter);
}

static void must_be_due(const char *what)
{
    uint32_t result = compare_certificate(job.bytes, job.count, due_bytes);
    must(result == due_bytes << 8, what);
    must(memcmp(certificate_text(), due, due_bytes) == 0, what);
}

/* ---- A write, and reads of its register --------------------------------- */

enum { NOWHERE, OUTSIDE, INSIDE, BOTH, SORTS };

static struct s_question last;
static unsigned mask;
static char letters[BMC_MOST_DEVICES];
static unsigned long came[SORTS];           /* where values read differ */

/* An entry with the words of the reply. */
static void put_known(struct s_question q, unsigned said, unsigned number)
{
    numbers[job.entry_count] = number;
    put_entry(&job, clear_unused(q), said, r.words, r.word_count);
}

static void put_write(struct s_question q, unsigned shown)
{
    last = q;
    mask = job.bytes[3] == 1 ? MASK_ALL : shown;
    memset(letters, 'U', sizeof letters);
    put_right_answer(&r, q);
    put_known(q, mask, S_ACCEPTED);
}

/* To a device that is not there: neither its value nor its mask counts. */
static void put_bad_write(void)
{
    struct s_question q = last;
    q.kind = BMC_WRITEDEVICE;
    q.value = any(65536);
    q.device = between(q.n, 255);
    put_known(q, some_mask(q.kind), S_QUESTION);
}

static void take_value(unsigned device, unsigned value)
{
    unsigned bits = value ^ last.value;
    unsigned sort = ((bits & ~mask) != 0 ? OUTSIDE : NOWHERE)
                  | ((bits & mask) != 0 ? INSIDE : NOWHERE);
    came[sort]++;
    letters[device] = (sort & INSIDE) == 0 ? 'S' : 'O';
}

/* Reads these values, lowest address first; the letters are as they say. */
static void put_read(unsigned kind, unsigned device, const uint16_t *values)
{
    struct s_question q = { .kind = kind, .n = last.n, .alive = last.alive,
                            .reg = last.reg, .device = device, .seed = any(256) };
    set_question_of(&r, q);
    memcpy(r.values, values, values_of(q) * sizeof *values);
    put_right_bytes(&r);
    put_words(&r);
    put_known(q, MASK_NONE, S_ACCEPTED);
    for (unsigned i = 0; i < values_of(q); i++)
        take_value(device + i, values[i]);
}

static void must_have_letters(const char *what)
{
    begin_due();
    for (unsigned device = 0; device < last.n; device++)
        if (last.kind == BMC_WRITEALL || device == last.device)
            due_letter(device, letters[device]);
    must_be_due(what);
}

/* Some of these bits, often one alone; none where there are none. */
static unsigned some_bits(unsigned among)
{
    unsigned bits = 0;
    while (bits == 0 && among != 0)
        bits = (any(2) == 0 ? 1u << any(16) : any(65536)) & among;
    return bits;
}

static uint16_t some_value(void)
{
    unsigned sort = any(SORTS), bits = 0;
    if ((sort & OUTSIDE) != 0)
        bits |= some_bits(MASK_ALL ^ mask);
    if ((sort & INSIDE) != 0)
        bits |= some_bits(mask);
    return (uint16_t)(last.value ^ bits);
}

static void try_letters(void)
{
    uint16_t values[BMC_MOST_DEVICES];
    struct s_question q = any_question(between(BMC_WRITEALL, BMC_WRITEDEVICE));
    put_header(&job, some_version(), q.n, q.alive);
    put_write(q, some_mask(q.kind));
    for (unsigned left = any(4); left > 0; left--) {
        unsigned all = any(2);
        if (any(4) == 0)
            put_write(q, some_mask(q.kind));
        if (any(4) == 0)
            put_bad_write();
        for (unsigned i = 0; i < q.n; i++)
            values[i] = some_value();
        put_read(all ? BMC_READALL : BMC_READDEVICE, all ? 0 : any(q.n), values);
    }
    must_have_letters("masked bits alone decide, those of the last write");
}

/* 004, SCANCTRL: SCAN always reads 0, SCANDONE and DATARDY the monitor sets. */
static void check_scanctrl(unsigned version, unsigned shown, unsigned read, char letter)
{
    const struct s_question q = { .kind = BMC_WRITEALL, .n = 1, .value = 0x0025,
                                  .reg = BMC_REGISTER_SCANCTRL };
    const uint16_t values[1] = { (uint16_t)read };
    put_header(&job, version, 1, 0);
    put_write(q, shown);
    put_read(BMC_READALL, 0, values);
    must(letters[0] == letter, "not the letter that was meant");
    must_have_letters("a register whose bits the monitor sets and clears");
}

/* ---- Files that are none ------------------------------------------------ */

static void must_number(unsigned number, const char *what)
{
    uint32_t result = compare_certificate(job.bytes, job.count, sizeof due);
    must(BMC_NUMBER(result) == number, what);
}

/* A write's mask of 0, its device in the chain or not, or another's mask not 0. */
static void try_rule(unsigned kind, unsigned said)
{
    struct s_question q = any_question(kind);
    put_any_job(&job, 2);
    q.alive = job.bytes[6];
    q.device = any(256);
    put_entry(&job, clear_unused(q), said, NULL, 0);
    if (any(2) == 0)
        put_empty_entries(&job, job.count + any(30));
    must_number(is_write(kind) == (said != 0) ? BMC_ACCEPTED : BMC_FILE,
                "a write alone has a mask, and has one");
}

static void try_rules(void)
{
    for (unsigned kind = 0; kind <= 4; kind++) {
        try_rule(kind, MASK_NONE);
        try_rule(kind, MASK_ALL);
        try_rule(kind, between(1, MASK_ALL));
        for (unsigned bit = 0; bit < 16; bit++)
            try_rule(kind, 1u << bit);
    }
}

static void try_version(unsigned version)
{
    put_any_job(&job, some_version());
    job.bytes[3] = (uint8_t)version;
    job.bytes[4] = (uint8_t)(version >> 8);
    if (version == 1 || version == 2)
        compare_certificate(job.bytes, job.count, sizeof due);
    else
        must_number(BMC_FILE, "the versions are 1 and 2");
}

static void try_versions(void)
{
    static const unsigned versions[] = {
        0, 1, 2, 3, 255, 256, 257, 258, 512, 513, 514, 65535
    };
    for (size_t i = 0; i < sizeof versions / sizeof versions[0]; i++)
        try_version(versions[i]);
    try_version(any(65536));
}

/* ---- A version 1 file as version 2 -------------------------------------- */

/* All bits are what a version 1 file's writes are expected to show. */
static void carry(const struct job *from, struct job *to)
{
    uint16_t words[BMC_LINE_MOST_WORDS];
    put_header(to, 2, from->bytes[5], from->bytes[6]);
    for (size_t i = 0; i < from->entry_count; i++) {
        const uint8_t *entry = from->bytes + from->entries[i];
        size_t count = bmc_word_get(entry, 3);
        struct s_question q = { .kind = entry[0], .reg = entry[1],
                                .value = bmc_word_get(entry, 1),
                                .device = entry[4], .seed = entry[5] };
        to_words(entry + 8, count, words);
        put_entry(to, q, is_write(q.kind) ? MASK_ALL : MASK_NONE, words, count);
    }
}

static void try_both_versions(void)
{
    static struct job first;
    put_any_job(&first, 1);
    carry(&first, &job);
    due_bytes = BMC_TEXT_BYTES(compare_certificate(first.bytes, first.count, sizeof due));
    memcpy(due, certificate_text(), due_bytes);
    must(memcmp(due, "BMC 1 ", 6) == 0, "the first line of a version 1 certificate");
    due[4] = '2';
    must_be_due("the same job, and only the version in the first line differs");
}

/* ---- The part ----------------------------------------------------------- */

enum { LETTERS = 100000, RULES = 200, VERSIONS = 300, CARRIED = 5000 };

void try_masked(void)
{
    check_scanctrl(2, 0x1FFE, 0xA024, 'S');
    check_scanctrl(1, MASK_ALL, 0xA024, 'O');
    check_scanctrl(2, MASK_ALL, 0xA024, 'O');
    check_scanctrl(2, 0x1FFE, 0xA004, 'O');
    for (unsigned long i = 0; i < rounds(LETTERS); i++)
        try_letters();
    for (unsigned long i = 0; i < rounds(RULES); i++)
        try_rules();
    for (unsigned long i = 0; i < rounds(VERSIONS); i++)
        try_versions();
    for (unsigned long i = 0; i < rounds(CARRIED); i++)
        try_both_versions();
    for (unsigned sort = 0; sort < SORTS; sort++)
        must(came[sort] > 0, "a way to differ never came");
    need_numbers(S_ACCEPTED, S_ACCEPTED);
    need_numbers(S_FILE, S_FILE);
}
