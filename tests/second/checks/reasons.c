/*
 * reasons.c: document 02, M-101: where a line failed, what stood there, and
 * what alone would have passed.
 *
 * A right answer is damaged at a place that is known, so that what is due is
 * known too. Then, of answers damaged anyhow, every byte, every word of twelve
 * bits, every length up to past the longest answer's or every figure of a field
 * is put where the reason is: exactly the one right thing passes, or several.
 */
#include "checks.h"

#include "second/reasons.h"

#include <string.h>

/* ---- A right answer, and its line as bytes ------------------------------- */

struct answer {
    struct s_question q;
    uint8_t bytes[80];
    size_t count;
    uint16_t words[MOST];
    uint8_t line[2 * MOST];
    size_t length;
};

static void put_slice(struct answer *a)
{
    for (size_t i = 0; i < a->length / 2; i++) {
        a->line[2 * i] = (uint8_t)a->words[i];
        a->line[2 * i + 1] = (uint8_t)(a->words[i] >> 8);
    }
}

static void put_line(struct answer *a)
{
    a->length = 2 * wire(a->bytes, a->count, a->words);
    put_slice(a);
}

static struct answer right(unsigned kind, unsigned n, unsigned alive)
{
    struct answer a = { .q = any_question(kind, n, alive) };
    any_chain(n);
    a.count = column(a.q, chain, n, a.bytes);
    put_line(&a);
    return a;
}

static struct s_reason tell(const struct answer *a)
{
    return s_explain(a->q, a->line, a->length);
}

/* A right thing of -1 stands for several. */
static void due(const struct answer *a, int number, int how, size_t place,
                size_t stood, int right)
{
    struct s_reason r = tell(a);
    check(r.number == number && r.how == how && r.place == place, "why and where");
    check(r.stood == stood, "what stood there");
    check(r.one == (right >= 0) && r.right == (size_t)(right >= 0 ? right : 0), "what passes");
}

static void check_accepted(const struct answer *a)
{
    due(a, 0, 0, 0, 0, -1);
}

/* ---- Damage at one place ------------------------------------------------- */

enum { WORD = 1, BYTE = 2, LINE = 3, FIELD = 4 };

static size_t echoed(unsigned kind)
{
    return kind == 1 || kind == 2 ? 4 : 2;
}

/* Byte i is another one; the PEC is the old one, or is worked out afresh. */
static void spoil_byte(struct answer a, size_t i, unsigned turned, int afresh)
{
    size_t pec = a.q.kind == 0 ? 99 : a.count - 1 - a.q.alive;
    unsigned was = a.bytes[i], is = was ^ turned;
    a.bytes[i] = (uint8_t)is;
    if (afresh && i < pec && pec != 99)
        a.bytes[pec] = (uint8_t)divide(a.bytes, pec);
    put_line(&a);
    if (i < echoed(a.q.kind))
        due(&a, 7, BYTE, i, is, (int)was);
    else if (a.q.kind == 0 && (is == 0 || is > 32))
        due(&a, 11, BYTE, 2, is, -1);
    else if (i > pec)
        due(&a, 9, BYTE, i, is, (int)was);
    else if (pec != 99 && (i == pec || !afresh))
        due(&a, 8, BYTE, pec, a.bytes[pec], (int)divide(a.bytes, pec));
    else if (i + 1 == pec && a.q.kind >= 3)
        due(&a, 10, BYTE, i, is, 0x00);
    else
        check_accepted(&a);
}

static int is_nibble(uint16_t word)
{
    for (unsigned i = 0; i < 16; i++)
        if (spell_nibble(i) == word)
            return 1;
    return 0;
}

/* Word i is another character, or none at all. */
static void spoil_word(struct answer a, size_t i, uint16_t word)
{
    size_t last = a.length / 2 - 1;
    unsigned ones = 0;
    for (unsigned bit = 1; bit <= 9; bit++)
        ones += word >> bit & 1;
    a.words[i] = word;
    put_slice(&a);
    if ((word & 0xFC01) != 0x0C00 || ones % 2)
        due(&a, 4, WORD, i, word, -1);
    else if (i == 0 && word != 0xE2A)
        due(&a, 5, WORD, 0, word, 0xE2A);
    else if (i == last && word != 0xEA8)
        due(&a, 5, WORD, last, word, 0xEA8);
    else if (i != 0 && i != last && !is_nibble(word))
        due(&a, 6, WORD, i, word, -1);
}

static void spoil_one(struct answer a)
{
    check_accepted(&a);
    for (size_t i = 0; i < a.count; i++)
        for (unsigned bit = 0; bit < 8; bit++) {
            spoil_byte(a, i, 1u << bit, 0);
            spoil_byte(a, i, 1 + any(255), 1);
        }
    for (size_t i = 0; i < a.length / 2; i++) {
        for (unsigned bit = 0; bit < 16; bit++)
            spoil_word(a, i, (uint16_t)(a.words[i] ^ 1u << bit));
        for (unsigned run = 0; run < 100; run++)
            spoil_word(a, i, (uint16_t)(run % 2 ? any(65536) : 0xC00 | any(512) << 1));
    }
}

/* ---- Damage at two places: the lower is named ---------------------------- */

static void spoil_two(struct answer a)
{
    size_t last = a.length / 2 - 1, low = 1 + any((unsigned)last - 2);
    size_t high = low + 1 + any((unsigned)(last - low - 1));
    struct answer b = a;
    b.words[low] = b.words[high] = b.words[last] = 0x0000;
    put_slice(&b);
    due(&b, 4, WORD, low, 0x0000, -1);
    b = a;
    b.words[low] = b.words[high] = 0xE2A;
    put_slice(&b);
    due(&b, 6, WORD, low, 0xE2A, -1);
    b.words[0] = b.words[last] = 0xD54;
    put_slice(&b);
    due(&b, 5, WORD, 0, 0xD54, 0xE2A);
    b = a;
    low = any((unsigned)echoed(a.q.kind) - 1);
    for (size_t i = low; i < b.count; i++)
        b.bytes[i] ^= 0xFF;
    put_line(&b);
    due(&b, 7, BYTE, low, b.bytes[low], a.bytes[low]);
}

/* ---- The line's length, odd ones too ------------------------------------- */

static void check_length(struct answer a)
{
    static uint8_t long_line[70001];
    const size_t lengths[] = { 281, 65534, 65535, 65536, 65537, 70000, 70001 };
    size_t count = a.length;
    for (a.length = 0; a.length <= 2 * MOST; a.length++)
        if (a.length != count)
            due(&a, 3, LINE, 0, a.length, (int)count);
    for (unsigned i = 0; i < 7; i++) {
        struct s_reason r = s_explain(a.q, long_line, lengths[i]);
        check(r.number == 3 && r.how == LINE && r.place == 0, "a long line");
        check(r.stood == lengths[i] && r.one && r.right == count, "its bytes");
    }
}

/* ---- The fields of the question, which come before all else --------------- */

static void check_field(struct answer a, unsigned figure)
{
    struct answer b = a;
    int one = a.q.kind == 2 || a.q.kind == 4;
    a.length = any(2 * MOST);
    if (figure > 4) {
        b.q.kind = figure;
        b.q.alive = b.q.n = 77;
        due(&b, 1, FIELD, 0, figure, -1);
    }
    b = a;
    if (figure > 1) {
        b.q.alive = figure;
        b.q.n = a.q.kind == 0 ? a.q.n : 33;
        due(&b, 1, FIELD, 2, figure, -1);
    }
    b = a;
    if (a.q.kind != 0 && (figure == 0 || figure > 32)) {
        b.q.n = figure;
        b.q.device = 255;
        due(&b, 1, FIELD, 1, figure, -1);
    }
    b = a;
    if (one && figure >= a.q.n) {
        b.q.device = figure;
        due(&b, 1, FIELD, 5, figure, a.q.n == 1 ? 0 : -1);
    }
    b.q.device = figure;
    if (!one)
        check(tell(&b).number != 1, "a device that is not asked for");
}

/* ---- Exactly the one right thing passes, or several ----------------------- */

/* Where the reason was, this check is passed: another is named, or this one
 * further up. An earlier check is not passed on the way. */
static int passes(const struct answer *a, struct s_reason was)
{
    struct s_reason is = tell(a);
    return is.number == 0 || is.number > was.number
        || (is.number == was.number && (was.how == FIELD ? is.place != was.place
                                                         : is.place > was.place));
}

/* The answer with another thing where the reason is. A check byte comes with a
 * PEC of its own, since the PEC is asked first. */
static struct answer with(struct answer a, struct s_reason was, unsigned thing)
{
    const size_t low = 1 + 2 * was.place, pec = a.count - 1 - a.q.alive;
    unsigned *const fields[] = { &a.q.kind, &a.q.n, &a.q.alive, 0, 0, &a.q.device };
    if (was.how == FIELD)
        *fields[was.place] = thing;
    else if (was.how == LINE)
        a.length = thing;
    else if (was.how == WORD)
        a.words[was.place] = (uint16_t)thing;
    else
        a.words[low] = spell_nibble(thing & 15), a.words[low + 1] = spell_nibble(thing >> 4);
    if (was.number == 10) {
        a.bytes[was.place] = (uint8_t)thing;
        a.bytes[pec] = (uint8_t)divide(a.bytes, pec);
        wire(a.bytes, a.count, a.words);
    }
    if (was.how == WORD || was.how == BYTE)
        put_slice(&a);
    return a;
}

static void try_all(const struct answer *a)
{
    struct s_reason was = tell(a);
    unsigned passing = 0, most = was.how == LINE ? 2 * MOST + 2 : was.how == WORD ? 4096 : 256;
    if (was.number == 0)
        return;
    for (unsigned thing = 0; thing < most; thing++) {
        struct answer b = with(*a, was, thing);
        int passed = passes(&b, was);
        passing += (unsigned)passed;
        check(!was.one || passed == (thing == was.right), "the right thing, and no other");
    }
    check(was.one ? passing == 1 : passing >= 2, "how many pass");
}

/* Any damage, at every level. */
static struct answer damaged(void)
{
    struct answer a = right(any(5), 1 + any(32), any(2));
    size_t pec = a.count - 1 - a.q.alive;
    for (unsigned left = any(3); left > 0; left--)
        a.bytes[any((unsigned)a.count)] = (uint8_t)any(256);
    if (a.q.kind != 0 && any(2))
        a.bytes[pec] = (uint8_t)divide(a.bytes, pec);
    put_line(&a);
    if (any(3) == 0)
        a.words[any((unsigned)a.length / 2)] = (uint16_t)(0xC00 | any(1024));
    put_slice(&a);
    if (any(8) == 0)
        a.length = any(2 * MOST);
    if (any(8) == 0)
        a.q.kind = any(8);
    if (any(8) == 0)
        a.q.alive = any(4);
    if (any(8) == 0)
        a.q.n = any(3) * 17;
    if (any(8) == 0)
        a.q.device = any(40);
    return a;
}

/* ---- The part ------------------------------------------------------------ */

void check_reasons(void)
{
    const unsigned counts[] = { 1, 2, 15, 32 };
    for (unsigned kind = 0; kind <= 4; kind++)
        for (unsigned alive = 0; alive <= 1; alive++)
            for (unsigned i = 0; i < 4; i++) {
                struct answer a = right(kind, counts[i], alive);
                spoil_one(a);
                check_length(a);
                for (unsigned run = 0; run < 50; run++)
                    spoil_two(right(kind, counts[i], alive));
                for (unsigned figure = 0; figure < 256; figure++)
                    check_field(a, figure);
            }
    for (unsigned run = 0; run < 1000; run++) {
        struct answer a = damaged();
        try_all(&a);
    }
}
