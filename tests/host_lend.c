/*
 * host_lend.c: memory lent to the library, at its exact size.
 *
 * Each lent memory lies between two pages that nothing may touch. What is
 * lent stands in one of three ways: flush with the upper page, so that one
 * byte too far up stops the program; flush with the lower page; or between.
 * Wherever no page adjoins, sixteen random guard bytes do, and they are
 * looked at after every call.
 */
#define _DEFAULT_SOURCE
#include "host.h"

#include <signal.h>
#include <stdio.h>
#include <stdlib.h>
#include <string.h>
#include <sys/mman.h>
#include <unistd.h>

static void *pages(size_t bytes)
{
    void *at = mmap(NULL, bytes, PROT_NONE, MAP_PRIVATE | MAP_ANONYMOUS, -1, 0);
    must(at != MAP_FAILED, "no memory to lend");
    return at;
}

void make_lent(struct lent *m, size_t most)
{
    size_t page = (size_t)sysconf(_SC_PAGESIZE);
    size_t inner = (most + 2 * GUARD + page - 1) / page * page;
    m->low = (uint8_t *)pages(inner + 2 * page) + page;
    m->high = m->low + inner;
    must(mprotect(m->low, inner, PROT_READ | PROT_WRITE) == 0, "no memory to lend");
}

static uint8_t *place(const struct lent *m, size_t bytes)
{
    switch (any(4)) {
    case 0:
        return m->low;
    case 1:
        return m->low + GUARD;
    default:
        return m->high - bytes;
    }
}

static int has_guard_below(const struct lent *m)
{
    return m->at - m->low >= GUARD;
}

static int has_guard_above(const struct lent *m)
{
    return m->high - (m->at + m->bytes) >= GUARD;
}

/* The place and the guards; the content is still what it was. */
static void lay(struct lent *m, size_t bytes)
{
    must(bytes + 2 * GUARD <= (size_t)(m->high - m->low), "too much to lend");
    m->bytes = bytes;
    m->at = place(m, bytes);
    any_bytes(m->guard, GUARD);
    if (has_guard_below(m))
        memcpy(m->at - GUARD, m->guard, GUARD);
    if (has_guard_above(m))
        memcpy(m->at + bytes, m->guard, GUARD);
}

uint8_t *lend(struct lent *m, size_t bytes)
{
    lay(m, bytes);
    any_bytes(m->at, bytes);
    return m->at;
}

uint8_t *lend_copy(struct lent *m, const uint8_t *from, size_t bytes)
{
    lay(m, bytes);
    memcpy(m->at, from, bytes);
    return m->at;
}

void check_guards(const struct lent *m)
{
    if (has_guard_below(m))
        must(memcmp(m->at - GUARD, m->guard, GUARD) == 0, "guard below changed");
    if (has_guard_above(m))
        must(memcmp(m->at + m->bytes, m->guard, GUARD) == 0, "guard above changed");
}

void check_input(const struct lent *m, const uint8_t *from)
{
    must(memcmp(m->at, from, m->bytes) == 0, "an input was changed");
    check_guards(m);
}

/* The report is printed from where the access happened: the run ends there. */
static void stray(int sig)
{
    (void)sig;
    must(0, "memory that was not lent was touched");
}

void report_stray_access(void)
{
    signal(SIGSEGV, stray);
    signal(SIGBUS, stray);
}
