/*
 * rehearsal.c: a job file answered by a twin chain.
 *
 * Written from document 01, 'The twin' and 'Job file and certificate'.
 */
#include "rehearsal.h"

#include "chain.h"
#include "command.h"
#include "jobs.h"
#include "line.h"
#include "registers.h"

/* A command through all devices in address order; the line's length. */
static size_t through_chain(struct s_question q, uint16_t *memory, uint16_t *line)
{
    uint16_t command[S_MOST_WORDS];
    size_t words;
    if (s_command(q, command, S_MOST_WORDS, &words) != S_ACCEPTED)
        return 0;
    s_run(q.n, memory, (size_t)S_REGISTERS * q.n, command, words, line, S_MOST_WORDS);
    return words;
}

static void put_two(uint8_t *out, size_t figure)
{
    out[0] = (uint8_t)figure;
    out[1] = (uint8_t)(figure >> 8);
}

/* The entry as it stood up to its number of words, and these words for its
 * answer. */
static void put_entry(const uint8_t *entry, size_t field_bytes,
                      const uint16_t *line, size_t words, uint8_t *out)
{
    for (size_t i = 0; i < field_bytes - 2; i++)
        out[i] = entry[i];
    put_two(out + field_bytes - 2, words);
    for (size_t i = 0; i < words; i++)
        put_two(out + field_bytes + 2 * i, line[i]);
}

/* Answers a good job file into a whole file's room; 0 when it is too long. */
static size_t answer_file(const uint8_t *file, size_t bytes,
                          uint8_t answered[S_MOST_FILE_BYTES])
{
    uint16_t memory[S_REGISTERS * S_MOST_DEVICES], line[S_MOST_WORDS];
    size_t length = S_HEADER_BYTES;
    struct s_entry entry;
    s_power_on(file[5], memory, (size_t)S_REGISTERS * file[5]);
    for (size_t i = 0; i < S_HEADER_BYTES; i++)
        answered[i] = file[i];
    for (size_t at = S_HEADER_BYTES; at < bytes; at += s_entry_size(entry)) {
        entry = s_entry_at(file, at);
        size_t words = through_chain(entry.q, memory, line);
        size_t size = entry.field_bytes + 2 * words;
        if (length + size > S_MOST_FILE_BYTES)
            return 0;
        put_entry(file + at, entry.field_bytes, line, words, answered + length);
        length += size;
    }
    return length;
}

int s_rehearse(const uint8_t *file, size_t bytes,
               uint8_t *out, size_t room, size_t *written)
{
    uint8_t answered[S_MOST_FILE_BYTES];
    *written = 0;
    if (!s_is_job_file(file, bytes))
        return S_FILE;
    size_t length = answer_file(file, bytes, answered);
    if (length == 0)
        return S_FILE;
    if (room < length)
        return S_ROOM;
    for (size_t i = 0; i < length; i++)
        out[i] = answered[i];
    *written = length;
    return S_ACCEPTED;
}
