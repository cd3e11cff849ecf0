/*
 * host_reads.c: bmc_read and bmc_part on right, damaged and random lines.
 *
 * Every line goes to both calls. Where the document alone settles the answer
 * (a right answer, a single damage) it is held against that as well.
 */
#include "host.h"

#include <string.h>

/* ---- The calls ---------------------------------------------------------- */

static struct lent line_memory, out_memory;

static void make_memory(void)
{
    if (line_memory.low != NULL)
        return;
    make_lent(&line_memory, 400);
    make_lent(&out_memory, 200);
}

static void set_line_trial(const char *call, const char *names,
                           const struct reply *r, unsigned long last)
{
    set_question(call, names, r->q, last);
    trial.given[0] = (struct given){ "line", r->line, r->line_bytes };
}

static uint32_t call_read(struct s_question q)
{
    return bmc_read((uint8_t)q.kind, (uint8_t)q.n, (uint8_t)q.alive, (uint8_t)q.reg,
                    (uint16_t)q.value, (uint8_t)q.device, (uint8_t)q.seed,
                    line_memory.at, line_memory.bytes,
                    out_memory.at, out_memory.bytes);
}

static uint32_t call_part(struct s_question q, unsigned named)
{
    return bmc_part((uint8_t)q.kind, (uint8_t)q.n, (uint8_t)q.alive, (uint8_t)q.reg,
                    (uint16_t)q.value, (uint8_t)q.device, (uint8_t)q.seed,
                    (uint8_t)named, line_memory.at, line_memory.bytes);
}

uint32_t compare_read(const struct reply *r)
{
    uint8_t expected[200];
    make_memory();
    set_line_trial("bmc_read", QUESTION_NAMES "room", r, r->room);
    lend_copy(&line_memory, r->line, r->line_bytes);
    memcpy(expected, lend(&out_memory, r->room), r->room);
    uint32_t ours = call_read(r->q);
    uint32_t theirs = expect_read(r->q, r->line, r->line_bytes, expected, r->room);
    settle("output", (struct side){ ours, out_memory.at, r->room },
           (struct side){ theirs, expected, r->room });
    check_guards(&out_memory);
    check_input(&line_memory, r->line);
    count_input(BMC_NUMBER(ours));
    return ours;
}

const uint8_t *read_values(void)
{
    return out_memory.at;
}

uint32_t compare_part(const struct reply *r, unsigned named)
{
    static const uint8_t nothing[1];
    make_memory();
    set_line_trial("bmc_part", QUESTION_NAMES "named", r, named);
    lend_copy(&line_memory, r->line, r->line_bytes);
    uint32_t ours = call_part(r->q, named);
    uint32_t theirs = expect_part(r->q, named, r->line, r->line_bytes);
    settle("nothing", (struct side){ ours, nothing, 0 },
           (struct side){ theirs, nothing, 0 });
    check_input(&line_memory, r->line);
    count_part(BMC_PART_WORDS(ours));
    return ours;
}

/* ---- Right answers ------------------------------------------------------ */

static int are_values(const struct reply *r, const uint8_t *out)
{
    uint8_t values[BMC_VALUES_MOST_BYTES];
    put_slice(r->values, values_of(r->q), values);
    return memcmp(out, values, 2 * values_of(r->q)) == 0;
}

/* The part's four words carry this value, lowest nibble first. */
static int is_part_of(const struct reply *r, uint32_t part, unsigned value)
{
    const uint16_t *words = r->words + BMC_PART_PLACE(part);
    if (BMC_PART_WORDS(part) != 4 || BMC_PART_PLACE(part) + 4u > r->word_count)
        return 0;
    for (unsigned i = 0; i < 4; i++)
        if (words[i] != nibble_word(value >> 4 * i))
            return 0;
    return 1;
}

static void check_covered_part(const struct reply *r)
{
    int all = r->q.kind == BMC_READALL;
    unsigned named = all ? any(r->q.n) : r->q.device;
    uint32_t part = compare_part(r, named);
    must(is_part_of(r, part, r->values[all ? named : 0]), "not the device's part");
}

static void try_right_answer(struct reply *r)
{
    put_right_answer(r, any_question(any(5)));
    uint32_t result = compare_read(r);
    must(BMC_NUMBER(result) == BMC_ACCEPTED, "a right answer was refused");
    must(BMC_WRITTEN(result) == values_of(r->q), "not the values of the answer");
    must(are_values(r, read_values()), "not the values of the answer");
    if (r->q.kind == BMC_HELLOALL)
        must(BMC_BYTE(result) == r->bytes[2], "not the count on the line");
    if (is_read(r->q.kind))
        check_covered_part(r);
    else
        must(compare_part(r, any(256)) == 0, "a part of no read");
}

/* ---- Damaged answers ---------------------------------------------------- */

static void try_part(const struct reply *r)
{
    compare_part(r, (any(2) == 0 ? any(r->q.n + 2) : any(256)) & 255);
}

static void try_one_damage(struct reply *r)
{
    const struct damage *d = &damages[any((unsigned)damage_count)];
    put_damaged(r, fitting_question(d), &d, 1);
    must(BMC_NUMBER(compare_read(r)) == d->number, d->rule);
    try_part(r);
}

static void try_several_damages(struct reply *r)
{
    const struct damage *chosen[4];
    unsigned count = between(2, 4);
    for (unsigned i = 0; i < count; i++)
        chosen[i] = &damages[any((unsigned)damage_count)];
    put_damaged(r, any_question(any(5)), chosen, count);
    compare_read(r);
    try_part(r);
}

/* ---- Other questions ---------------------------------------------------- */

static void change_question(struct s_question *q)
{
    switch (any(7)) {
    case 0:
        q->kind = any(6);
        break;
    case 1:
        q->n = any(34);
        break;
    case 2:
        q->alive = any(3);
        break;
    case 3:
        q->reg = any(256);
        break;
    case 4:
        q->value ^= 1u << any(16);
        break;
    case 5:
        q->device = any(q->n + 1) & 255;
        break;
    default:
        q->seed = any(256);
    }
}

/* A right answer, but to another question than the one it is read for. */
static void try_other_question(struct reply *r)
{
    put_right_answer(r, any_question(any(5)));
    if (any(3) == 0)
        r->q = bad_question();
    else
        change_question(&r->q);
    if (any(4) == 0)
        r->room = any(70);
    compare_read(r);
    try_part(r);
}

/* ---- Random lines ------------------------------------------------------- */

static void put_garbage(struct reply *r)
{
    r->line_bytes = any(301);
    any_bytes(r->line, r->line_bytes);
}

/* Of the answer's length, each word good in one respect more: any word, any
 * character, any nibble in a right frame. */
static void put_likely_garbage(struct reply *r, unsigned how_likely)
{
    r->word_count = words_of(r->q);
    for (size_t i = 0; i < r->word_count; i++) {
        if (how_likely == 0)
            r->words[i] = (uint16_t)(any(4) == 0 ? any(65536) : 0xC00 | any(1024));
        else if (how_likely == 1)
            r->words[i] = character_of(any(256));
        else
            r->words[i] = nibble_word(any(16));
    }
    if (how_likely > 0 && any(4) > 0) {
        r->words[0] = 0xE2A;
        r->words[r->word_count - 1] = 0xEA8;
    }
    put_line(r);
}

static void try_garbage(struct reply *r)
{
    unsigned how_likely = any(4);
    set_question_of(r, any_question(any(5)));
    if (how_likely == 3)
        put_garbage(r);
    else
        put_likely_garbage(r, how_likely);
    if (any(8) == 0)
        r->room = any(70);
    compare_read(r);
    try_part(r);
}

/* ---- The part ----------------------------------------------------------- */

enum { LINES = 1000000 };

void try_reads(void)
{
    static struct reply r;
    for (unsigned long i = 0; i < rounds(LINES); i++)
        switch (i % 8) {
        case 0:
        case 1:
            try_right_answer(&r);
            break;
        case 2:
        case 3:
        case 4:
            try_one_damage(&r);
            break;
        case 5:
            try_several_damages(&r);
            break;
        case 6:
            try_other_question(&r);
            break;
        default:
            try_garbage(&r);
        }
    need_numbers(S_ACCEPTED, S_COUNT);
}
