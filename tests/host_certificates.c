/*
 * host_certificates.c: bmc_certificate on job files, good, cut, spoiled, random
 * and as long as a file may be, with every sort of room for the text.
 */
#include "host.h"

#include <string.h>

/* ---- The call ----------------------------------------------------------- */

enum { TEXT_MOST = BMC_CERTIFICATE_MOST + 200 };

static struct lent file_memory, text_memory;
static uint8_t scratch[TEXT_MOST];

uint32_t compare_certificate(const uint8_t *file, size_t file_bytes, size_t room)
{
    const unsigned long figures[1] = { room };
    if (file_memory.low == NULL) {
        make_lent(&file_memory, JOB_MOST);
        make_lent(&text_memory, TEXT_MOST);
    }
    set_trial("bmc_certificate", "room", figures, 1);
    trial.given[0] = (struct given){ "file", file, file_bytes };
    lend_copy(&file_memory, file, file_bytes);
    memcpy(scratch, lend(&text_memory, room), room);
    uint32_t ours = bmc_certificate(file_memory.at, file_bytes, text_memory.at, room);
    uint32_t theirs = expect_certificate(file, file_bytes, scratch, room);
    settle("text", (struct side){ ours, text_memory.at, room },
           (struct side){ theirs, scratch, room });
    check_guards(&text_memory);
    check_input(&file_memory, file);
    count_input(BMC_NUMBER(ours));
    return ours;
}

const uint8_t *certificate_text(void)
{
    return text_memory.at;
}

/* ---- Rooms -------------------------------------------------------------- */

/* The length of a file's certificate, 0 if it has none. */
static size_t text_length(const uint8_t *file, size_t file_bytes)
{
    return expect_certificate(file, file_bytes, scratch, TEXT_MOST) >> 8;
}

static size_t some_room(size_t exact)
{
    switch (any(16)) {
    case 0:
        return 0;
    case 1:
    case 2:
    case 3:
        return exact == 0 ? 0 : exact - 1;
    case 4:
        return any((unsigned)exact + 1);
    case 5:
    case 6:
    case 7:
        return exact + any(100);
    default:
        return exact;
    }
}

static void try_any_room(const uint8_t *file, size_t file_bytes)
{
    compare_certificate(file, file_bytes, some_room(text_length(file, file_bytes)));
}

static void try_each_room(const uint8_t *file, size_t file_bytes)
{
    size_t exact = text_length(file, file_bytes);
    must(exact > 0, "a good file was turned away");
    compare_certificate(file, file_bytes, exact);
    compare_certificate(file, file_bytes, exact - 1);
    compare_certificate(file, file_bytes, 0);
    compare_certificate(file, file_bytes, exact + 1 + any(100));
}

/* Memory of this size holds every certificate. */
static void try_most_room(const uint8_t *file, size_t file_bytes)
{
    uint32_t result = compare_certificate(file, file_bytes, BMC_CERTIFICATE_MOST);
    must(BMC_NUMBER(result) == BMC_ACCEPTED, "a certificate longer than the most");
}

/* ---- Files good, cut and spoiled ---------------------------------------- */

static struct job job;

static void try_good(void)
{
    put_any_job(&job, some_version());
    try_each_room(job.bytes, job.count);
}

static void try_prefixes(void)
{
    put_any_job(&job, some_version());
    for (size_t cut = 0; cut <= job.count; cut++)
        try_any_room(job.bytes, cut);
}

/* A byte of the header, of some entry's fields, or any byte. */
static size_t some_place(void)
{
    if (job.entry_count == 0 || any(8) == 0)
        return any(7);
    if (any(2) == 0)
        return job.entries[any((unsigned)job.entry_count)]
            + any((unsigned)field_bytes(&job));
    return any((unsigned)job.count);
}

static void try_spoiled(void)
{
    put_any_job(&job, some_version());
    for (unsigned left = between(1, 3); left > 0; left--) {
        uint8_t *byte = &job.bytes[some_place()];
        *byte = any(2) == 0 ? other_byte(*byte) : (uint8_t)(*byte ^ 1u << any(8));
    }
    try_any_room(job.bytes, job.count);
}

/* An entry of about 140 words: up to 140 are good, 141 and more are FILE. */
static void try_word_counts(void)
{
    static uint16_t words[150];
    struct s_question q = { .kind = BMC_READALL, .reg = 0x12 };
    unsigned count = between(136, 144);
    put_any_job(&job, some_version());
    put_entry(&job, q, MASK_NONE, words, count);
    if (any(2) == 0)
        put_entry(&job, q, MASK_NONE, words, any(20));
    unsigned number = count <= 140 ? BMC_ACCEPTED : BMC_FILE;
    uint32_t result = compare_certificate(job.bytes, job.count, BMC_CERTIFICATE_MOST);
    must(BMC_NUMBER(result) == number, "an entry has 140 words at most");
}

/* Every value of every byte of the header. */
static void try_each_header(void)
{
    for (unsigned place = 0; place < 7; place++)
        for (unsigned byte = 0; byte < 256; byte++) {
            put_header(&job, some_version(), between(1, 32), any(2));
            job.bytes[place] = (uint8_t)byte;
            try_any_room(job.bytes, job.count);
        }
}

/* Either byte of it 0 or not. */
static unsigned any_mask(void)
{
    return any(2) * between(1, 255) + any(2) * between(1, 255) * 256;
}

/* An entry of each kind, good and bad, with each of its fields 0 or not. */
static void try_fields(unsigned version, unsigned kind, unsigned alive)
{
    for (unsigned set = 0; set < 32; set++) {
        struct s_question q = {
            .kind = kind, .reg = (set & 1) * between(1, 255),
            .value = (set >> 1 & 1) * between(1, 255)
                   + (set >> 2 & 1) * between(1, 255) * 256,
            .device = (set >> 3 & 1) * between(1, 255),
            .seed = (set >> 4 & 1) * between(1, 255)
        };
        put_header(&job, version, between(1, 32), alive);
        put_entry(&job, q, any_mask(), NULL, 0);
        try_any_room(job.bytes, job.count);
    }
}

static void try_each_kind(void)
{
    for (unsigned kind = 0; kind < 256; kind++)
        for (unsigned version = 1; version <= 2; version++) {
            try_fields(version, kind, 0);
            try_fields(version, kind, 1);
        }
}

/* Random bytes: from the start, behind a good header, or small ones behind a
 * good header, so that entries come about. */
static void try_random(void)
{
    unsigned sort = any(3);
    put_header(&job, some_version(), between(1, 32), any(2));
    if (sort == 0)
        job.count = 0;
    for (unsigned left = any(120); left > 0; left--)
        job.bytes[job.count++] = (uint8_t)(sort < 2 || any(8) == 0 ? any(256) : any(2));
    try_any_room(job.bytes, job.count);
}

/* ---- Files as long as may be -------------------------------------------- */

static void must_be(const struct job *j, size_t bytes, unsigned number)
{
    uint32_t result = compare_certificate(j->bytes, j->count, BMC_CERTIFICATE_MOST);
    must(j->count == bytes, "not the length that was meant");
    must(BMC_NUMBER(result) == number, "not the number that was meant");
}

/* The last entry with so many words. */
static void put_last(size_t words)
{
    static const uint16_t preamble[5] = { 0xE2A };
    struct s_question q = { .kind = BMC_HELLOALL };
    job.count = job.entries[--job.entry_count];
    put_entry(&job, q, MASK_NONE, preamble, words);
}

/* 8,191 entries of version 1 are 65,535 bytes, and so are 6,552 of version 2, the
 * last with four words; an entry has an even length, so 65,536 bytes are never a
 * good file, and 65,537 are one but for their number. */
static void try_longest(unsigned version, unsigned n, unsigned alive)
{
    size_t words = version == 1 ? 0 : 4;
    put_header(&job, version, n, alive);
    put_empty_entries(&job, BMC_FILE_MOST_BYTES);
    must(job.entry_count == (version == 1 ? 8191 : 6552),
         "not the number of entries that was meant");
    put_last(words);
    must_be(&job, 65535, BMC_ACCEPTED);
    try_each_room(job.bytes, job.count);
    job.bytes[job.count++] = 0;
    must_be(&job, 65536, BMC_FILE);
    put_last(words + 1);
    must_be(&job, 65537, BMC_FILE);
}

static void try_full(unsigned version, unsigned alive)
{
    put_full_job(&job, version, alive);
    try_most_room(job.bytes, job.count);
    try_each_room(job.bytes, job.count);
}

static void try_long_files(void)
{
    for (unsigned version = 1; version <= 2; version++)
        for (unsigned alive = 0; alive <= 1; alive++) {
            try_longest(version, 1, alive);
            try_longest(version, between(2, 32), alive);
            try_full(version, alive);
        }
}

/* ---- The part ----------------------------------------------------------- */

enum { GOOD = 6000, WORD_COUNTS = 600, SPOILED = 40000, CUT = 50, RANDOM = 400000 };

void try_certificates(void)
{
    try_long_files();
    try_each_header();
    try_each_kind();
    for (unsigned long i = 0; i < rounds(GOOD); i++)
        try_good();
    for (unsigned long i = 0; i < rounds(WORD_COUNTS); i++)
        try_word_counts();
    for (unsigned long i = 0; i < rounds(SPOILED); i++)
        try_spoiled();
    for (unsigned long i = 0; i < rounds(CUT); i++)
        try_prefixes();
    for (unsigned long i = 0; i < rounds(RANDOM); i++)
        try_random();
    need_numbers(S_ACCEPTED, S_ACCEPTED);
    need_numbers(S_ROOM, S_ROOM);
    need_numbers(S_FILE, S_FILE);
}
