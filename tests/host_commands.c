/*
 * host_commands.c: bmc_command for all kinds, device counts 0 to 40 and alive
 * 0 to 3, with random fields and every sort of room.
 */
#include "host.h"

#include <string.h>

static struct lent out_memory;

static uint32_t call_command(struct s_question q)
{
    return bmc_command((uint8_t)q.kind, (uint8_t)q.n, (uint8_t)q.alive,
                       (uint8_t)q.reg, (uint16_t)q.value, (uint8_t)q.device,
                       (uint8_t)q.seed, out_memory.at, out_memory.bytes);
}

uint32_t compare_command(struct s_question q, size_t room)
{
    uint8_t expected[400];
    if (out_memory.low == NULL)
        make_lent(&out_memory, sizeof expected);
    set_question("bmc_command", QUESTION_NAMES "room", q, room);
    memcpy(expected, lend(&out_memory, room), room);
    uint32_t ours = call_command(q);
    uint32_t theirs = expect_command(q, expected, room);
    settle("output", (struct side){ ours, out_memory.at, room },
           (struct side){ theirs, expected, room });
    check_guards(&out_memory);
    count_input(BMC_NUMBER(ours));
    return ours;
}

const uint8_t *command_words(void)
{
    return out_memory.at;
}

/* Exact, a byte less, a byte more, any, or plenty. */
static size_t some_room(size_t needed)
{
    switch (any(5)) {
    case 0:
        return needed;
    case 1:
        return needed - 1;
    case 2:
        return needed + 1;
    case 3:
        return any((unsigned)needed + 2);
    default:
        return needed + any(60);
    }
}

static void try_command(unsigned kind, unsigned n, unsigned alive)
{
    struct s_question q = any_question(any(5));
    size_t needed = 8;
    q.kind = kind;
    q.n = n;
    q.alive = alive;
    if (any(4) > 0 && n > 0)
        q.device = any(n);
    if (kind <= 4 && alive <= 1 && n <= 32)
        needed = 2 * words_of(q);
    compare_command(q, some_room(needed));
}

enum { EACH = 60 };

void try_commands(void)
{
    static const unsigned kinds[] = { 0, 1, 2, 3, 4, 5, 6, 127, 255 };
    for (unsigned long i = 0; i < rounds(EACH); i++)
        for (size_t k = 0; k < sizeof kinds / sizeof kinds[0]; k++)
            for (unsigned n = 0; n <= 40; n++)
                for (unsigned alive = 0; alive <= 3; alive++)
                    try_command(kinds[k], n, alive);
    need_numbers(S_ACCEPTED, S_ROOM);
}
