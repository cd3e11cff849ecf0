/*
 * chain.c: every device of a chain once, in address order.
 *
 * Written from document 01, 'The twin'.
 */
#include "chain.h"

#include "line.h"
#include "registers.h"
#include "twin.h"

static void copy(const uint16_t *from, size_t words, uint16_t *to)
{
    for (size_t i = 0; i < words; i++)
        to[i] = from[i];
}

int s_run(unsigned n, uint16_t *memory, size_t memory_words,
          const uint16_t *line, size_t words, uint16_t *out, size_t room)
{
    uint16_t here[S_MOST_WORDS];
    if (!s_is_twin(n, memory_words))
        return S_TWIN;
    if (room < words)
        return S_ROOM;
    copy(line, words, out);
    /* A line longer than any command is none, and no device acts on it. */
    for (unsigned device = 0; device < n && words <= S_MOST_WORDS; device++) {
        copy(out, words, here);
        s_step(n, device, memory, memory_words, here, words, out, room);
    }
    return S_ACCEPTED;
}
