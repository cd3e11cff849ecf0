/*
 * host_spoil.c: right answers damaged, one way for each thing that a row of
 * 'Turned away' names.
 *
 * A damage alone gives exactly its row's number; several at once give what the
 * reference says. The bytes are changed before they go on the line, the words
 * after, and the lent slices last.
 */
#include "host.h"

enum {
    HELLO = 1 << BMC_HELLOALL,
    WRITES = 1 << BMC_WRITEALL | 1 << BMC_WRITEDEVICE,
    READS = 1 << BMC_READALL | 1 << BMC_READDEVICE,
    ALL = HELLO | WRITES | READS
};

/* ---- The answer's bytes ------------------------------------------------- */

static void spoil_byte(struct reply *r, size_t place)
{
    r->bytes[place] = other_byte(r->bytes[place]);
}

/* The first or second byte or a write's value; the PEC follows, or not. */
static void spoil_echo(struct reply *r)
{
    spoil_byte(r, any(is_write(r->q.kind) ? 4 : 2));
    if (r->q.kind != BMC_HELLOALL && any(2) == 0)
        put_pec(r);
}

static void spoil_pec(struct reply *r)
{
    spoil_byte(r, pec_place(r));
}

static void spoil_value(struct reply *r)
{
    spoil_byte(r, between(2, (unsigned)pec_place(r) - 2));
}

static void spoil_alive(struct reply *r)
{
    if (r->q.alive)
        spoil_byte(r, r->byte_count - 1);
}

static void spoil_check(struct reply *r)
{
    r->bytes[pec_place(r) - 1] = (uint8_t)between(1, 255);
    put_pec(r);
}

static void spoil_count(struct reply *r)
{
    r->bytes[2] = (uint8_t)(any(4) == 0 ? 0 : any(4) == 0 ? 33 : between(33, 255));
}

/* ---- The line's words --------------------------------------------------- */

static uint16_t *any_word(struct reply *r)
{
    return &r->words[any((unsigned)r->word_count)];
}

static void spoil_high_bits(struct reply *r)
{
    *any_word(r) |= (uint16_t)(between(1, 15) << 12);
}

static void spoil_start(struct reply *r)
{
    *any_word(r) |= 1;
}

static void spoil_stop(struct reply *r)
{
    *any_word(r) &= (uint16_t)~(between(1, 3) << 10);
}

static void spoil_parity(struct reply *r)
{
    *any_word(r) ^= (uint16_t)(1u << between(1, 9));
}

/* Another good character where the preamble or the stop should be. */
static void spoil_frame(struct reply *r)
{
    uint16_t *word = any(2) == 0 ? &r->words[0] : &r->words[r->word_count - 1];
    uint16_t was = *word;
    while (*word == was)
        *word = any(4) == 0 ? (any(2) == 0 ? 0xE2A : 0xEA8) : character_of(any(256));
}

static int is_nibble_data(unsigned data)
{
    return ((data ^ data >> 1) & 0x55) == 0x55;
}

/* A good character between that is no nibble. */
static void spoil_manchester(struct reply *r)
{
    unsigned data = any(256);
    while (is_nibble_data(data))
        data = any(4) == 0 ? 0x15 : any(256);
    r->words[between(1, (unsigned)r->word_count - 2)] = character_of(data);
}

static size_t other_length(size_t right)
{
    size_t other = any(REPLY_WORDS + 1);
    if (any(2) == 0 && right >= 4 && right + 4 <= REPLY_WORDS)
        other = right - 4 + any(9);
    return other == right ? right - 1 : other;
}

/* Cut short, or run on with more of the same. */
static void spoil_length(struct reply *r)
{
    size_t right = r->word_count, other = other_length(right);
    for (size_t i = right; i < other; i++)
        r->words[i] = r->words[i % right];
    r->word_count = other;
}

/* ---- The lent slices ---------------------------------------------------- */

static void spoil_odd(struct reply *r)
{
    if (r->line_bytes == REPLY_BYTES || (any(2) == 0 && r->line_bytes > 0))
        r->line_bytes--;
    else
        r->line[r->line_bytes++] = (uint8_t)any(256);
}

static void spoil_room(struct reply *r)
{
    size_t needed = 2 * values_of(r->q);
    if (needed > 0)
        r->room = any(2) == 0 ? needed - 1 : any((unsigned)needed);
}

/* ---- The table ---------------------------------------------------------- */

const struct damage damages[] = {
    { "too little room must be ROOM", S_ROOM, READS, NULL, NULL, spoil_room },
    { "a wrong length must be LENGTH", S_LENGTH, ALL, NULL, spoil_length, NULL },
    { "an odd line must be LENGTH", S_LENGTH, ALL, NULL, NULL, spoil_odd },
    { "high bits must be CHARACTER", S_CHARACTER, ALL, NULL, spoil_high_bits, NULL },
    { "start 1 must be CHARACTER", S_CHARACTER, ALL, NULL, spoil_start, NULL },
    { "stop 0 must be CHARACTER", S_CHARACTER, ALL, NULL, spoil_stop, NULL },
    { "odd parity must be CHARACTER", S_CHARACTER, ALL, NULL, spoil_parity, NULL },
    { "a wrong frame must be FRAME", S_FRAME, ALL, NULL, spoil_frame, NULL },
    { "no nibble must be MANCHESTER", S_MANCHESTER, ALL, NULL, spoil_manchester, NULL },
    { "another echo must be ECHO", S_ECHO, ALL, spoil_echo, NULL, NULL },
    { "a wrong PEC must be PEC", S_PEC, WRITES | READS, spoil_pec, NULL, NULL },
    { "a changed value must be PEC", S_PEC, READS, spoil_value, NULL, NULL },
    { "another alive must be ALIVE", S_ALIVE, WRITES | READS, spoil_alive, NULL, NULL },
    { "a check byte must be CHECK", S_CHECK, READS, spoil_check, NULL, NULL },
    { "a wrong count must be COUNT", S_COUNT, HELLO, spoil_count, NULL, NULL }
};

const size_t damage_count = sizeof damages / sizeof damages[0];

int fits(const struct damage *d, unsigned kind)
{
    return (d->kinds >> kind & 1) == 1;
}

/* A good question that the damage can fall on. */
struct s_question fitting_question(const struct damage *d)
{
    unsigned kind = any(5);
    while (!fits(d, kind))
        kind = any(5);
    struct s_question q = any_question(kind);
    if (d->number == S_ALIVE)
        q.alive = 1;
    return q;
}

/* The answer to a question, right but for the chosen damages. */
void put_damaged(struct reply *r, struct s_question q,
                 const struct damage *const *chosen, size_t count)
{
    set_question_of(r, q);
    put_right_bytes(r);
    for (size_t i = 0; i < count; i++)
        if (chosen[i]->bytes != NULL && fits(chosen[i], q.kind))
            chosen[i]->bytes(r);
    put_words(r);
    for (size_t i = 0; i < count; i++)
        if (chosen[i]->words != NULL && r->word_count > 2)
            chosen[i]->words(r);
    put_line(r);
    for (size_t i = 0; i < count; i++)
        if (chosen[i]->slice != NULL)
            chosen[i]->slice(r);
}
