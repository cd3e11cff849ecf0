/*
 * jobs.c: the job file, its header and its entries.
 *
 * Written from document 01, 'Job file and certificate', and row 14 of 'Turned
 * away', and from document 02, M-100.
 */
#include "jobs.h"

#include "line.h"
#include "masks.h"

/* Sixteen bits, low byte first. */
unsigned s_two_bytes(const uint8_t *at)
{
    return at[0] | (unsigned)at[1] << 8;
}

unsigned s_file_version(const uint8_t *file)
{
    return s_two_bytes(file + 3);
}

/* The mark BMC, version 1 or 2, n, alive. */
static int is_header(const uint8_t *file, size_t bytes)
{
    if (bytes < S_HEADER_BYTES)
        return 0;
    if (file[0] != 'B' || file[1] != 'M' || file[2] != 'C')
        return 0;
    if (s_file_version(file) != 1 && s_file_version(file) != 2)
        return 0;
    return file[5] >= 1 && file[5] <= S_MOST_DEVICES && file[6] <= 1;
}

/* Kind, register, value, mask, device, seed, number of words. */
static size_t field_bytes(const uint8_t *file)
{
    return 1 + 1 + 2 + s_mask_bytes(s_file_version(file)) + 1 + 1 + 2;
}

/* The entry at a place that has at least its field_bytes left. */
struct s_entry s_entry_at(const uint8_t *file, size_t at)
{
    const uint8_t *e = file + at;
    size_t mask_bytes = s_mask_bytes(s_file_version(file));
    struct s_entry entry;
    entry.q.kind = e[0];
    entry.q.n = file[5];
    entry.q.alive = file[6];
    entry.q.reg = e[1];
    entry.q.value = s_two_bytes(e + 2);
    entry.mask = mask_bytes == 0 ? s_unsaid_mask(e[0]) : s_two_bytes(e + 4);
    e += mask_bytes;
    entry.q.device = e[4];
    entry.q.seed = e[5];
    entry.words = s_two_bytes(e + 6);
    entry.field_bytes = field_bytes(file);
    entry.answer = file + at + entry.field_bytes;
    return entry;
}

size_t s_entry_size(struct s_entry entry)
{
    return entry.field_bytes + 2 * entry.words;
}

/* A field its kind does not use is 0; the seed too where alive is off. */
static int are_unused_zero(struct s_question q)
{
    int uses_reg = q.kind != S_HELLOALL;
    int uses_value = s_is_write(q.kind);
    int uses_device = s_is_for_one(q.kind);
    int uses_seed = q.alive && q.kind != S_HELLOALL;
    return (uses_reg || q.reg == 0) && (uses_value || q.value == 0)
        && (uses_device || q.device == 0) && (uses_seed || q.seed == 0);
}

static int is_entry(const uint8_t *file, size_t bytes, size_t at)
{
    struct s_entry entry;
    if (bytes - at < field_bytes(file))
        return 0;
    entry = s_entry_at(file, at);
    return entry.q.kind <= 4 && entry.words <= S_MOST_WORDS
        && s_entry_size(entry) <= bytes - at && are_unused_zero(entry.q)
        && s_is_mask(entry.q.kind, entry.mask);
}

int s_is_job_file(const uint8_t *file, size_t bytes)
{
    if (bytes > S_MOST_FILE_BYTES || !is_header(file, bytes))
        return 0;
    size_t at = S_HEADER_BYTES;
    while (at < bytes) {
        if (!is_entry(file, bytes, at))
            return 0;
        at += s_entry_size(s_entry_at(file, at));
    }
    return 1;
}
