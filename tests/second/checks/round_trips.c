/*
 * round_trips.c: commands through a chain of twins and back: the answer is
 * accepted, with the chain's own values, and its registers are as written.
 */
#include "checks.h"

#include "second/part.h"
#include "second/reader.h"

#include <string.h>

static int covers_device(struct s_question q, unsigned device)
{
    return q.kind == 2 || q.kind == 4 ? q.device == device : device < q.n;
}

/* Each register after the command: written where covered, 0x00 never. */
static void check_registers(struct s_question q, const uint16_t *before)
{
    for (unsigned i = 0; i < 256 * q.n; i++) {
        int hit = (q.kind == 1 || q.kind == 2) && i % 256 == q.reg
               && q.reg != 0x00 && covers_device(q, i / 256);
        check(chain[i] == (hit ? q.value : before[i]), "registers after a command");
    }
}

/* The second call's four characters carry the device's register. */
static void check_part(struct s_question q, unsigned device,
                       const uint16_t *line, size_t words)
{
    size_t start = 99, length = 99;
    int due = (q.kind == 3 || q.kind == 4) && covers_device(q, device);
    uint16_t value = due ? chain[256 * device + q.reg] : 0;
    s_part(q, device, line, words, &start, &length);
    check(length == (due ? 4u : 0u) && (due || start == 0), "length of the part");
    for (unsigned i = 0; due && i < 4; i++)
        check(line[start + i] == spell_nibble(value >> (4 * i) & 15u), "the part");
}

static void check_values(struct s_question q, struct s_answer a, const uint16_t *out)
{
    size_t due = q.kind == 3 ? q.n : q.kind == 4 ? 1 : 0;
    check(a.values == due, "how many values");
    for (size_t i = 0; i < due; i++) {
        size_t device = q.kind == 3 ? i : q.device;
        check(out[i] == chain[256 * device + q.reg], "values in address order");
    }
    check(are_marked(out + due, 40 - due), "the rest stays");
}

static void round_trip(struct s_question q)
{
    uint16_t line[MOST], before[CHAIN], out[40];
    size_t words = send_command(q, line);
    memcpy(before, chain, sizeof before);
    steps(q.n, line, words);
    check_registers(q, before);
    fill_words(out, 40);
    struct s_answer a = s_read(q, line, words, out, 40);
    check(a.number == 0 && a.place == 0 && a.byte == 0, "answer accepted");
    check(a.count == (q.kind == 0 ? q.n : 0), "HELLOALL's count");
    check_values(q, a, out);
    for (unsigned device = 0; device < 40; device++)
        check_part(q, device, line, words);
}

void check_round_trips(void)
{
    for (unsigned kind = 0; kind <= 4; kind++)
        for (unsigned n = 1; n <= 32; n++)
            for (unsigned alive = 0; alive <= 1; alive++) {
                any_chain(n);
                struct s_question q = any_question(kind, n, alive);
                round_trip(q);
                q.reg = 0x00;
                round_trip(q);
                q.seed = 0xFF;
                q.device = n - 1;
                round_trip(q);
            }
}
