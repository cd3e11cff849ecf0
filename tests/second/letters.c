/*
 * letters.c: the letters, which say of each device whether it holds what the
 * last write set.
 *
 * Written from document 01, 'Job file and certificate', and document 02, M-100.
 */
#include "letters.h"

#include "line.h"
#include "masks.h"
#include "reader.h"

/* An entry's answer, read with room for 32 values. */
int s_read_entry(struct s_entry entry, uint16_t values[S_MOST_DEVICES])
{
    uint16_t line[S_MOST_WORDS];
    for (size_t i = 0; i < entry.words; i++)
        line[i] = (uint16_t)s_two_bytes(entry.answer + 2 * i);
    return s_read(entry.q, line, entry.words, values, S_MOST_DEVICES).number;
}

/* The last write whose question is good, or 0 (the header's place). */
size_t s_last_write(const uint8_t *file, size_t bytes)
{
    size_t found = 0;
    struct s_entry entry;
    for (size_t at = S_HEADER_BYTES; at < bytes; at += s_entry_size(entry)) {
        entry = s_entry_at(file, at);
        if (s_is_write(entry.q.kind) && s_is_good_question(entry.q))
            found = at;
    }
    return found;
}

/* What an accepted read says of the devices it covers. */
static void mark(struct s_question read, const uint16_t *values,
                 struct s_entry write, char letters[S_MOST_DEVICES])
{
    for (unsigned device = 0; device < read.n; device++)
        if (s_covers(read, device)) {
            uint16_t value = values[read.kind == S_READALL ? device : 0];
            letters[device] = s_letter(write.mask, value, write.q.value);
        }
}

/* Reads after the write, of its register, accepted; the latest decides. */
void s_judge(const uint8_t *file, size_t bytes, size_t write_at,
             char letters[S_MOST_DEVICES])
{
    struct s_entry write = s_entry_at(file, write_at), entry;
    uint16_t values[S_MOST_DEVICES];
    for (unsigned device = 0; device < S_MOST_DEVICES; device++)
        letters[device] = 'U';
    for (size_t at = write_at + s_entry_size(write); at < bytes;
         at += s_entry_size(entry)) {
        entry = s_entry_at(file, at);
        if (!s_is_read(entry.q.kind) || entry.q.reg != write.q.reg)
            continue;
        if (s_read_entry(entry, values) == S_ACCEPTED)
            mark(entry.q, values, write, letters);
    }
}
