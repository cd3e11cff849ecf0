/*
 * host.c: compares the library with the reference, call by call.
 *
 *     host [seed] [--share N] [-v]
 *
 * The seed determines every trial; without one a fixed seed is taken. --share N
 * tries about one in N. -v prints how long each part took. The run ends at the
 * first difference with the input, both answers, the seed and status 1; else
 * with the line 'host: N inputs compared, 0 differences' and status 0.
 */
#define _DEFAULT_SOURCE
#include "host.h"

#include <inttypes.h>
#include <stdio.h>
#include <stdlib.h>
#include <string.h>
#include <time.h>

static const struct {
    const char *name;
    void (*run)(void);
} parts[] = {
#define ROW(name, run) { name, run },
    PARTS(ROW)
};

static int verbose;

static double seconds(void)
{
    struct timespec now;
    clock_gettime(CLOCK_MONOTONIC, &now);
    return (double)now.tv_sec + 1e-9 * (double)now.tv_nsec;
}

static void run_part(size_t i)
{
    double started = seconds();
    start_part(parts[i].name);
    parts[i].run();
    if (verbose)
        printf("%s: %.1f s\n", parts[i].name, seconds() - started);
    fflush(stdout);
}

static void usage(void)
{
    fprintf(stderr, "usage: host [seed] [--share N] [-v]\n");
    exit(2);
}

static uint64_t take_number(const char *text)
{
    char *end;
    if (text == NULL)
        usage();
    uint64_t number = strtoull(text, &end, 0);
    if (*text == '\0' || *text == '-' || *end != '\0')
        usage();
    return number;
}

static unsigned take_share(const char *text)
{
    uint64_t number = take_number(text);
    if (number < 1 || number > 1000)
        usage();
    return (unsigned)number;
}

static uint64_t take_arguments(int count, char **arguments)
{
    uint64_t seed = 17823;
    for (int i = 1; i < count; i++)
        if (strcmp(arguments[i], "--share") == 0)
            share = take_share(arguments[++i]);
        else if (strcmp(arguments[i], "-v") == 0)
            verbose = 1;
        else
            seed = take_number(arguments[i]);
    return seed;
}

int main(int count, char **arguments)
{
    uint64_t seed = take_arguments(count, arguments);
    printf("host: seed %" PRIu64 ", one in %u\n", seed, share);
    fflush(stdout);
    seed_random(seed);
    report_stray_access();
    for (size_t i = 0; i < sizeof parts / sizeof parts[0]; i++)
        run_part(i);
    print_counts();
    printf("host: %lu inputs compared, 0 differences\n", inputs_compared());
    return 0;
}
