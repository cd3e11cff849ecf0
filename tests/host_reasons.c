/*
 * host_reasons.c: bmc_explain on right, damaged and random lines of any length.
 *
 * Where the document alone settles the reason (a turned bit, a field out of its
 * bounds, a line of another length) it is held against that as well. Every line
 * but those of try_lengths goes to bmc_read too: the number is bmc_read's, and so
 * are the place of CHARACTER and MANCHESTER and the byte of CHECK and COUNT.
 */
#include "host.h"

#include <string.h>

/* ---- The call ------------------------------------------------------------ */

enum { LONG_LINE = 70000 };

static uint64_t compare_explain(struct s_question q, const uint8_t *line, size_t bytes)
{
    static struct lent memory;
    static const uint8_t nothing[1];
    if (memory.low == NULL)
        make_lent(&memory, LONG_LINE + 2 * GUARD);
    set_question("bmc_explain", QUESTION_NAMES "bytes", q, bytes);
    trial.given[0] = (struct given){ "line", line, bytes };
    lend_copy(&memory, line, bytes);
    uint64_t ours = bmc_explain((uint8_t)q.kind, (uint8_t)q.n, (uint8_t)q.alive,
                                (uint8_t)q.reg, (uint16_t)q.value, (uint8_t)q.device,
                                (uint8_t)q.seed, memory.at, bytes);
    settle("nothing", (struct side){ ours, nothing, 0 },
           (struct side){ expect_explain(q, line, bytes), nothing, 0 });
    check_input(&memory, line);
    must(BMC_WHY_FAULT(ours) == 0, "bits 12 to 15 are 0");
    count_input(BMC_NUMBER(ours));
    return ours;
}

/* The same line to bmc_read, with room for 32 values. */
static uint64_t explain(struct reply *r)
{
    r->room = BMC_VALUES_MOST_BYTES;
    uint32_t read = compare_read(r);
    uint64_t why = compare_explain(r->q, r->line, r->line_bytes);
    unsigned number = BMC_NUMBER(why);
    must(number == BMC_NUMBER(read), "not the reader's number");
    if (number == BMC_CHARACTER || number == BMC_MANCHESTER)
        must(BMC_PLACE(why) == BMC_PLACE(read), "not the reader's place");
    if (number == BMC_CHECK || number == BMC_COUNT)
        must(BMC_WHY_STOOD(why) == BMC_BYTE(read), "not the reader's byte");
    return why;
}

static uint64_t reason(unsigned number, unsigned how, size_t place, unsigned stood)
{
    return number | how << 8 | (uint64_t)place << 16 | (uint64_t)stood << 32;
}

static uint64_t only(unsigned right)
{
    return UINT64_C(1) << 11 | (uint64_t)right << 48;
}

/* ---- Every single turned bit ---------------------------------------------- */

/* One bit makes a word that is no character, wherever it is. */
static void turn_bits(struct reply *r)
{
    for (size_t i = 0; i < r->word_count; i++)
        for (unsigned bit = 0; bit < 16; bit++) {
            r->words[i] ^= (uint16_t)(1u << bit);
            put_line(r);
            must(explain(r) == reason(BMC_CHARACTER, BMC_AT_WORD, i, r->words[i]),
                 "a turned bit is CHARACTER at its word");
            r->words[i] ^= (uint16_t)(1u << bit);
        }
}

static void try_turned_bits(struct reply *r)
{
    for (unsigned kind = 0; kind <= 4; kind++)
        for (unsigned alive = 0; alive <= 1; alive++) {
            struct s_question q = any_question(kind);
            q.alive = alive;
            put_right_answer(r, q);
            must(explain(r) == 0, "a right answer was turned away");
            turn_bits(r);
        }
}

/* ---- Every field spoiled -------------------------------------------------- */

static void try_field(struct reply *r, struct s_question q, unsigned field, unsigned figure,
                      int is_good, uint64_t right)
{
    r->q = q;
    uint64_t why = explain(r);
    if (!is_good)
        must(why == (reason(BMC_QUESTION, BMC_AT_FIELD, field, figure) | right),
             "a field that breaks its rule is QUESTION at that field");
    else
        must(BMC_NUMBER(why) != BMC_QUESTION, "a good question was turned away");
}

/* The figure in each field that row 1 speaks of, one field at a time, the others
 * good. As a kind it is tried where it is a bad one: the good ones are 'kind'. */
static void try_fields(struct reply *r, unsigned kind, unsigned figure)
{
    struct s_question q = any_question(kind), was = q;
    int names_one = kind == BMC_WRITEDEVICE || kind == BMC_READDEVICE;
    put_right_answer(r, q);
    if (figure > 4) {
        q.kind = figure;
        try_field(r, q, BMC_FIELD_KIND, figure, 0, 0);
    }
    q = was;
    q.alive = figure;
    try_field(r, q, BMC_FIELD_ALIVE, figure, figure <= 1, 0);
    q = was;
    q.n = figure;
    q.device = 0;
    try_field(r, q, BMC_FIELD_N, figure,
              kind == BMC_HELLOALL || (figure >= 1 && figure <= 32), 0);
    q = was;
    q.n = any(4) == 0 ? 1 : was.n % 32 + 1;
    q.device = figure;
    try_field(r, q, BMC_FIELD_DEVICE, figure, !names_one || figure < q.n,
              q.n == 1 ? only(0) : 0);
}

/* ---- Lengths ------------------------------------------------------------- */

static void try_lengths(void)
{
    static uint8_t line[LONG_LINE];
    const size_t lengths[] = { 0, 1, 2, 279, 281, 282, 65533, 65534, 65535, 65536, LONG_LINE - 1,
                               LONG_LINE };
    any_bytes(line, sizeof line);
    for (unsigned kind = 0; kind <= 4; kind++)
        for (size_t i = 0; i < sizeof lengths / sizeof lengths[0]; i++) {
            struct s_question q = any_question(kind);
            unsigned stood = lengths[i] < 65535 ? (unsigned)lengths[i] : 65535;
            must(compare_explain(q, line, lengths[i])
                     == (reason(BMC_LENGTH, BMC_AT_LINE, 0, stood)
                         | only(2 * (unsigned)words_of(q))),
                 "a line of another length is LENGTH");
            compare_explain(bad_question(), line, lengths[i]);
        }
}

/* ---- Damaged and random lines --------------------------------------------- */

static void try_damaged(struct reply *r)
{
    const struct damage *chosen[3];
    unsigned count = between(1, 3);
    for (unsigned i = 0; i < count; i++)
        chosen[i] = &damages[any((unsigned)damage_count)];
    put_damaged(r, fitting_question(chosen[0]), chosen, count);
    uint64_t why = explain(r);
    if (count == 1 && chosen[0]->number != S_ROOM)
        must(BMC_NUMBER(why) == chosen[0]->number, chosen[0]->rule);
}

static void try_random(struct reply *r)
{
    set_question_of(r, any(8) == 0 ? bad_question() : any_question(any(5)));
    r->line_bytes = any(2) == 0 ? 2 * words_of(r->q) % REPLY_BYTES : any(301);
    any_bytes(r->line, r->line_bytes);
    explain(r);
}

/* ---- The part ------------------------------------------------------------ */

enum { DAMAGED = 200000 };

void try_reasons(void)
{
    static struct reply r;
    for (unsigned long i = 0; i < rounds(7); i++)
        try_turned_bits(&r);
    for (unsigned kind = 0; kind <= 4; kind++)
        for (unsigned figure = 0; figure < 256; figure++)
            try_fields(&r, kind, figure);
    try_lengths();
    for (unsigned long i = 0; i < rounds(DAMAGED); i++)
        if (i % 8 == 0)
            try_random(&r);
        else
            try_damaged(&r);
    need_numbers(S_ACCEPTED, S_QUESTION);
    need_numbers(S_LENGTH, S_COUNT);
}
