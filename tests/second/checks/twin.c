/*
 * twin.c: document 01, 'The twin': which lines a device acts on, and which pass
 * it unchanged.
 */
#include "checks.h"

#include "second/pec.h"
#include "second/twin.h"

#include <string.h>

/* 1 when the device changes the line or a register. */
static int acts(unsigned n, unsigned device, const uint16_t *line, size_t words)
{
    uint16_t out[MOST + 4], before[CHAIN];
    memcpy(before, chain, sizeof before);
    check(s_step(n, device, chain, 256 * n, line, words, out, MOST + 4) == 0, "stepped");
    int changed = !same_words(line, out, words) || !same_words(before, chain, 256 * n);
    memcpy(chain, before, sizeof before);
    return changed;
}

/* Any single turned line bit, any word cut off or added: passes. */
static void spoiled_words(struct s_question q, unsigned device,
                          const uint16_t *line, size_t words)
{
    uint16_t other[MOST + 1];
    memcpy(other, line, words * sizeof *line);
    for (size_t i = 0; i < words; i++)
        for (unsigned bit = 0; bit < 16; bit++) {
            other[i] ^= (uint16_t)(1u << bit);
            check(!acts(q.n, device, other, words), "a turned line bit");
            other[i] ^= (uint16_t)(1u << bit);
        }
    other[words] = 0xEA8;
    check(!acts(q.n, device, other, words + 1), "a word more");
    check(!acts(q.n, device, other, words - 1), "a word less");
    check(!acts(q.n, device, other, 0), "an empty line");
}

/* Any single turned data bit: only the alive byte may have it and be acted on. */
static void spoiled_bytes(struct s_question q, unsigned device,
                          const uint16_t *line, size_t words, size_t alive_at)
{
    uint16_t other[MOST];
    memcpy(other, line, words * sizeof *line);
    for (size_t i = 0; i < (words - 2) / 2; i++)
        for (unsigned bit = 0; bit < 8; bit++) {
            turn(other, i, bit);
            check(acts(q.n, device, other, words) == (i == alive_at), "a turned data bit");
            turn(other, i, bit);
        }
}

/* The line in front of a device, and spoiled. A step that acts shows itself
 * here because each device's registers differ from what stands on the line. */
static void check_spoiled(struct s_question q, unsigned device)
{
    uint8_t bytes[80];
    uint16_t line[MOST];
    size_t n = column(q, chain, device, bytes), words = wire(bytes, n, line);
    size_t values = q.kind == 3 ? device : 0;
    size_t alive_at = q.kind == 0 || !q.alive ? 999 : q.kind <= 2 ? 5 : 4 + 2 * values;
    int own = q.kind != 2 && q.kind != 4 ? 1 : q.device == device;
    check(acts(q.n, device, line, words) == own, "acts when it is due");
    spoiled_words(q, device, line, words);
    if (own)
        spoiled_bytes(q, device, line, words, alive_at);
}

static void check_twin_spoiled(void)
{
    for (unsigned kind = 0; kind <= 4; kind++)
        for (unsigned n = 1; n <= 32; n += 1 + any(4))
            for (unsigned alive = 0; alive <= 1; alive++) {
                any_chain(n);
                struct s_question q = any_question(kind, n, alive);
                q.reg = 1 + any(255);
                check_spoiled(q, any(n));
                if (kind == 2 || kind == 4)
                    check_spoiled(q, q.device);
            }
}

/* A READALL line of a chain of n with 'on' values, PEC right throughout. */
static size_t read_all_line(unsigned n, unsigned alive, unsigned on,
                            unsigned check_byte, uint16_t *line)
{
    uint8_t bytes[80];
    size_t length = 2 + 2 * on;
    bytes[0] = 0x03;
    bytes[1] = 0x12;
    for (size_t i = 2; i < length; i++)
        bytes[i] = (uint8_t)any(256);
    bytes[length++] = (uint8_t)check_byte;
    length = close_bytes(bytes, length, alive, any(256));
    for (unsigned i = on; i < n; i++) {
        bytes[length++] = 0xC2;
        bytes[length++] = 0xD3;
    }
    return wire(bytes, length, line);
}

/* Device k of n acts on exactly k values, n-k pairs, check 00h. */
static void check_twin_read_all(void)
{
    uint16_t line[MOST + 8];
    for (unsigned n = 1; n <= 32; n++) {
        any_chain(n);
        for (unsigned k = 0; k < n; k++)
            for (unsigned on = 0; on <= n; on++) {
                size_t words = read_all_line(n, on % 2, on, 0x00, line);
                check(acts(n, k, line, words) == (on == k), "k values at device k");
            }
        for (unsigned k = 0; k < n; k++) {
            size_t words = read_all_line(n, k % 2, k, 0x20, line);
            check(!acts(n, k, line, words), "check byte 20h passes");
            if (n < 32) {
                words = read_all_line(n + 1, 0, k, 0x00, line);
                check(!acts(n, k, line, words), "a line for n + 1 passes");
            }
        }
    }
}

/* HELLOALL at device k: last byte k only. ROLLCALL: no command of 01. */
static void check_twin_hello(void)
{
    uint16_t line[MOST];
    for (unsigned k = 0; k < 32; k++)
        for (unsigned byte = 0; byte < 256; byte++) {
            uint8_t bytes[] = { 0x57, 0x00, (uint8_t)byte };
            size_t words = wire(bytes, 3, line);
            check(acts(32, k, line, words) == (byte == k), "HELLOALL at device k");
        }
    /* 004's two commands that 01 has not: ROLLCALL with its right PEC, and the
     * HELLOALL of another device. */
    uint8_t rollcall[] = { 0x01, 0x00, 0x00, 0x00, 0xC2, 0xD3 };
    rollcall[3] = (uint8_t)s_pec(rollcall, 3);
    check(!acts(1, 0, line, wire(rollcall, sizeof rollcall, line)), "ROLLCALL passes");
    uint8_t hello[] = { 0xA7, 0x00, 0x00 };
    check(!acts(32, 0, line, wire(hello, sizeof hello, line)), "HELLOALL A7h passes");
}

/* A line of more than 140 words is any other line. */
static void check_twin_long(void)
{
    struct s_question q = { .kind = 3, .n = 32, .alive = 1, .reg = 0x12 };
    uint16_t line[MOST + 4];
    any_chain(32);
    check(send_command(q, line) == MOST, "the longest command");
    check(acts(32, 0, line, MOST), "140 words are acted on");
    for (size_t words = MOST + 1; words <= MOST + 4; words++) {
        line[words - 1] = 0xEA8;
        check(!acts(32, 0, line, words), "more than 140 words pass");
    }
}

/* TWIN, then ROOM; nothing changes. */
static void check_twin_refusals(void)
{
    struct s_question q = { .kind = 1, .n = 2, .reg = 0x12, .value = 15 };
    uint16_t line[MOST], out[MOST], before[CHAIN];
    size_t words = send_command(q, line);
    any_chain(32);
    memcpy(before, chain, sizeof before);
    fill_words(out, MOST);
    check(s_step(0, 0, chain, 0, line, words, out, 0) == 15, "n 0");
    check(s_step(33, 0, chain, 256 * 33, line, words, out, 0) == 15, "n 33");
    check(s_step(2, 0, chain, 511, line, words, out, 0) == 15, "memory a word short");
    check(s_step(2, 0, chain, 513, line, words, out, 0) == 15, "memory a word over");
    check(s_step(2, 2, chain, 512, line, words, out, 0) == 15, "device 2 of 2");
    check(s_step(2, 1, chain, 512, line, words, out, words - 1) == 2, "ROOM");
    check(are_marked(out, MOST), "no word of the output changed");
    check(same_words(before, chain, CHAIN), "no register changed");
    check(s_step(2, 1, chain, 512, line, words, out, MOST) == 0, "good");
    check(chain[256 + 0x12] == 15 && chain[0x12] == before[0x12], "its register only");
    check(are_marked(out + words, MOST - words), "the rest stays");
}

void check_twin(void)
{
    check_twin_spoiled();
    check_twin_read_all();
    check_twin_hello();
    check_twin_long();
    check_twin_refusals();
}
