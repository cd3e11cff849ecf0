/*
 * explain.c: tells why a line was turned away, second version.
 *
 * Reads from standard input one byte, the question's size, which is 8; the
 * question: kind, n, alive, register, value low, value high, device, seed; and
 * the line. Prints 'accepted', or the reason in three or four lines; 'R 14' for
 * another size, less than a question or too many bytes. Document 02, M-101, asks
 * for the program and gives no form: that stands in docs/DECISIONS.md, 'What does
 * `explain` read and print?'. See second.h.
 */
#include "standard.h"

#include "second/jobs.h"
#include "second/reasons.h"

enum { SIZE = 8, FRONT = 1 + SIZE };

static struct s_question asked(const uint8_t *f)
{
    struct s_question q = {
        .kind = f[0], .n = f[1], .alive = f[2], .reg = f[3],
        .value = s_two_bytes(f + 4), .device = f[6], .seed = f[7]
    };
    return q;
}

static const char *name_of(int number)
{
    static const char *const names[] = {
        "", "QUESTION", "ROOM", "LENGTH", "CHARACTER", "FRAME", "MANCHESTER",
        "ECHO", "PEC", "ALIVE", "CHECK", "COUNT"
    };
    return names[number];
}

/* ---- The lines ----------------------------------------------------------- */

static char text[256];
static size_t written;

#define PUT(...) (written += (size_t)snprintf(text + written, sizeof text - written, __VA_ARGS__))

static void put_place(struct s_reason r)
{
    static const char *const fields[] = {
        [S_FIELD_KIND] = "kind", [S_FIELD_N] = "n", [S_FIELD_ALIVE] = "alive",
        [S_FIELD_DEVICE] = "device"
    };
    if (r.how == S_AT_WORD)
        PUT("at word %zu\n", r.place);
    else if (r.how == S_AT_BYTE)
        PUT("at byte %zu (words %zu and %zu)\n", r.place, 1 + 2 * r.place, 2 + 2 * r.place);
    else if (r.how == S_AT_LINE)
        PUT("at the line\n");
    else
        PUT("at %s\n", fields[r.place]);
}

/* A thing as it is counted at its place. */
static void put_thing(int how, size_t thing)
{
    if (how == S_AT_WORD)
        PUT("%04zXh", thing);
    else if (how == S_AT_BYTE)
        PUT("%02zXh", thing);
    else if (how == S_AT_LINE)
        PUT("%zu bytes", thing);
    else
        PUT("%zu", thing);
}

static void put_reason(struct s_reason r)
{
    if (r.number == S_ACCEPTED) {
        PUT("accepted\n");
        return;
    }
    PUT("turned away: %d %s\n", r.number, name_of(r.number));
    put_place(r);
    PUT("stood ");
    put_thing(r.how, r.stood);
    PUT("\n");
    if (r.one) {
        PUT("only ");
        put_thing(r.how, r.right);
        PUT(" would have passed\n");
    }
}

int main(void)
{
    size_t bytes;
    if (!take_in(&bytes) || bytes < FRONT || bytes > S_MOST_FILE_BYTES || file[0] != SIZE)
        return put_out(S_FILE, text, 0);
    put_reason(s_explain(asked(file + 1), file + FRONT, bytes - FRONT));
    return put_out(S_ACCEPTED, text, written);
}
