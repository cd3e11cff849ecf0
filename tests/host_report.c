/*
 * host_report.c: what is being tried, the report of a difference, and counts.
 */
#include "host.h"

#include <inttypes.h>
#include <stdio.h>
#include <stdlib.h>
#include <string.h>

/* ---- What is being tried ------------------------------------------------ */

struct trial trial;

void set_trial(const char *call, const char *names, const unsigned long *figures,
               size_t count)
{
    memset(&trial, 0, sizeof trial);
    trial.call = call;
    trial.names = names;
    memcpy(trial.figures, figures, count * sizeof *figures);
    trial.figure_count = count;
}

void set_question(const char *call, const char *names, struct s_question q,
                  unsigned long last)
{
    const unsigned long figures[8] = {
        q.kind, q.n, q.alive, q.reg, q.value, q.device, q.seed, last
    };
    set_trial(call, names, figures, 8);
}

/* ---- The report --------------------------------------------------------- */

static void print_bytes(const char *name, const uint8_t *bytes, size_t count)
{
    printf("  %s, %zu bytes:", name, count);
    for (size_t i = 0; i < count; i++)
        printf("%s%02X", i % 32 == 0 ? "\n    " : " ", (unsigned)bytes[i]);
    printf("\n");
}

static void print_trial(void)
{
    printf("  %s: %s =", trial.call, trial.names);
    for (size_t i = 0; i < trial.figure_count; i++)
        printf(" %lu", trial.figures[i]);
    printf("\n");
    for (size_t i = 0; i < MOST_GIVEN; i++)
        if (trial.given[i].name != NULL)
            print_bytes(trial.given[i].name, trial.given[i].at, trial.given[i].bytes);
}

static void print_side(const char *who, const char *memory, struct side side)
{
    printf("  %s: result %08" PRIX64 "h\n", who, side.result);
    if (side.bytes > 0)
        print_bytes(memory, side.memory, side.bytes);
}

static void end_run(void)
{
    printf("host: 1 difference, after %lu inputs; seed %" PRIu64 "\n",
           inputs_compared(), random_seed());
    fflush(stdout);
    exit(1);
}

void settle(const char *memory, struct side library, struct side reference)
{
    if (library.result == reference.result
        && memcmp(library.memory, reference.memory, reference.bytes) == 0)
        return;
    printf("host: library and reference differ\n");
    print_trial();
    print_side("library", memory, library);
    print_side("reference", memory, reference);
    end_run();
}

void must(int holds, const char *what)
{
    if (holds)
        return;
    printf("host: %s\n", what);
    print_trial();
    end_run();
}

/* ---- Counts ------------------------------------------------------------- */

/* 01's numbers in their order, then bmc_part's two sorts of answer. */
static const char *const names[] = {
    "accepted", "QUESTION", "ROOM", "LENGTH", "CHARACTER", "FRAME",
    "MANCHESTER", "ECHO", "PEC", "ALIVE", "CHECK", "COUNT", "CHANNEL",
    "LOW BITS", "FILE", "TWIN", "(empty part)", "(part)"
};

#define ONE(name, run) + 1
enum {
    NUMBERS = sizeof names / sizeof names[0],
    EMPTY_PART = NUMBERS - 2,
    FULL_PART = NUMBERS - 1,
    ALL_PARTS = 0 PARTS(ONE)
};

static struct part {
    const char *name;
    unsigned long numbers[NUMBERS];
} parts[ALL_PARTS];
static size_t part_count;

void start_part(const char *name)
{
    parts[part_count++].name = name;
}

void count_input(unsigned number)
{
    parts[part_count - 1].numbers[number % EMPTY_PART]++;
}

void count_part(unsigned words)
{
    parts[part_count - 1].numbers[words == 0 ? EMPTY_PART : FULL_PART]++;
}

/* A number that never came would mean that its row was not tried at all. */
void need_numbers(unsigned lowest, unsigned highest)
{
    for (unsigned number = lowest; number <= highest; number++)
        must(parts[part_count - 1].numbers[number] > 0, "a number was never given");
}

static unsigned long inputs_of(const struct part *part)
{
    unsigned long sum = 0;
    for (unsigned number = 0; number < NUMBERS; number++)
        sum += part->numbers[number];
    return sum;
}

unsigned long inputs_compared(void)
{
    unsigned long sum = 0;
    for (size_t i = 0; i < part_count; i++)
        sum += inputs_of(&parts[i]);
    return sum;
}

static void print_part(const struct part *part)
{
    printf("%s: %lu inputs;", part->name, inputs_of(part));
    for (unsigned number = 0; number < NUMBERS; number++)
        if (part->numbers[number] > 0)
            printf(" %s %lu", names[number], part->numbers[number]);
    printf("\n");
}

void print_counts(void)
{
    for (size_t i = 0; i < part_count; i++)
        print_part(&parts[i]);
}
