/*
 * host_rough.c: twin chains where something goes wrong on the way.
 *
 * Lines are damaged between two devices, devices step out of turn, rooms are
 * too small; and lines that a device would act on are changed in every place,
 * one at a time.
 */
#include "host.h"
#include "second/pec.h"

/* ---- Mishaps ------------------------------------------------------------ */

static void turn_a_bit(struct chain *c)
{
    if (c->line_bytes > 0)
        c->line[any((unsigned)c->line_bytes)] ^= (uint8_t)(1u << any(8));
}

static void put_nibble(struct chain *c, size_t word, unsigned nibble)
{
    uint16_t character = nibble_word(nibble);
    put_slice(&character, 1, c->line + 2 * word);
}

static void change_a_nibble(struct chain *c)
{
    size_t words = c->line_bytes / 2;
    if (words > 2)
        put_nibble(c, between(1, (unsigned)words - 2), any(16));
}

/* The nibble that a word carries, 0 if it is none. */
static unsigned nibble_at(const struct chain *c, size_t word)
{
    unsigned nibble = 15;
    unsigned found = c->line[2 * word] | (unsigned)c->line[2 * word + 1] << 8;
    while (nibble > 0 && nibble_word(nibble) != found)
        nibble--;
    return nibble;
}

/* The bytes that the line carries. */
static size_t get_bytes(const struct chain *c, uint8_t *bytes)
{
    size_t count = c->line_bytes < 4 ? 0 : (c->line_bytes / 2 - 2) / 2;
    for (size_t i = 0; i < count; i++)
        bytes[i] = (uint8_t)(nibble_at(c, 1 + 2 * i) | nibble_at(c, 2 + 2 * i) << 4);
    return count;
}

static void put_byte(struct chain *c, size_t i, unsigned byte)
{
    put_nibble(c, 1 + 2 * i, byte & 15);
    put_nibble(c, 2 + 2 * i, byte >> 4);
}

/* Another byte at a place, and a right PEC for it where the line has its PEC. */
static void change_byte(struct chain *c, size_t place, size_t pec)
{
    uint8_t bytes[LINE_MOST];
    get_bytes(c, bytes);
    bytes[place] = any(2) == 0 ? other_byte(bytes[place])
                               : (uint8_t)(bytes[place] ^ 1u << any(8));
    put_byte(c, place, bytes[place]);
    put_byte(c, pec, s_pec(bytes, pec));
}

/* The PEC stands where a read at this device, or a write, has it. */
static void change_a_byte(struct chain *c, unsigned device)
{
    uint8_t bytes[LINE_MOST];
    size_t pec = any(2) == 0 ? 3 + 2 * (size_t)device : any(2) == 0 ? 3 : 4;
    if (pec < get_bytes(c, bytes))
        change_byte(c, any((unsigned)pec), pec);
}

static void change_length(struct chain *c)
{
    size_t other = c->line_bytes + any(9);
    other = other < 4 ? 0 : other - 4;
    c->line_bytes = other < LINE_MOST ? other : LINE_MOST;
}

static void other_command(struct chain *c)
{
    put_command(c, chain_question(some_chain()));
}

static void mishap(struct chain *c, unsigned device)
{
    switch (any(7)) {
    case 0:
        turn_a_bit(c);
        break;
    case 1:
        change_a_nibble(c);
        break;
    case 2:
    case 3:
        change_a_byte(c, device);
        break;
    case 4:
        put_some_line(c);
        break;
    case 5:
        change_length(c);
        break;
    default:
        other_command(c);
    }
}

static size_t rough_room(const struct chain *c)
{
    if (any(16) == 0)
        return any((unsigned)c->line_bytes + 1);
    return any_room((c->line_bytes + 1) / 2);
}

void try_rough(struct chain *c)
{
    put_command(c, chain_question(any(8) == 0 ? some_chain() : c->n));
    for (unsigned device = 0; device < c->n; device++) {
        unsigned stepped = any(16) == 0 ? any(c->n + 1) : device;
        if (any(6) == 0)
            mishap(c, device);
        compare_step(c, stepped, rough_room(c));
    }
}

/* ---- Lines nearly right ------------------------------------------------- */

/* A bit turned, another nibble, or another good character. */
static void change_word(struct chain *c, size_t word, unsigned how)
{
    uint16_t character = character_of(any(256));
    if (how == 0)
        c->line[2 * word + any(2)] ^= (uint8_t)(1u << any(8));
    else if (how == 1)
        put_nibble(c, word, any(16));
    else
        put_slice(&character, 1, c->line + 2 * word);
}

/* Where the PEC stands on a line that comes to this device; 0 for HELLOALL. */
static size_t pec_at(struct s_question q, unsigned device)
{
    if (q.kind == BMC_HELLOALL)
        return 0;
    if (is_write(q.kind))
        return 4;
    return q.kind == BMC_READALL ? 3 + 2 * (size_t)device : 3;
}

/* The line that comes to this device, changed in every place, one at a time. */
static void try_each_place(struct chain *c, struct s_question q, unsigned device)
{
    const struct chain right = *c;
    for (size_t word = 0; word < right.line_bytes / 2; word++)
        for (unsigned how = 0; how < 3; how++) {
            *c = right;
            change_word(c, word, how);
            compare_step(c, device, c->line_bytes);
        }
    for (size_t place = 0; place < pec_at(q, device); place++) {
        *c = right;
        change_byte(c, place, pec_at(q, device));
        compare_step(c, device, c->line_bytes);
    }
}

static void try_nearly_right(struct chain *c, unsigned kind, unsigned alive,
                             unsigned device)
{
    struct s_question q = chain_question(c->n);
    q.kind = kind;
    q.alive = alive;
    q.device = device;
    put_command(c, q);
    for (unsigned before = 0; before < device; before++)
        compare_step(c, before, c->line_bytes);
    try_each_place(c, q, device);
}

static void try_nearly_right_chain(struct chain *c, unsigned n, unsigned step)
{
    set_chain(c, n);
    for (unsigned device = 0; device < n; device += step)
        for (unsigned kind = 0; kind <= 4; kind++)
            for (unsigned alive = 0; alive <= 1; alive++)
                try_nearly_right(c, kind, alive, device);
}

void try_nearly_right_chains(struct chain *c)
{
    for (unsigned n = 1; n <= 5; n++)
        try_nearly_right_chain(c, n, 1);
    try_nearly_right_chain(c, 15, 7);
    try_nearly_right_chain(c, 32, 31);
}
