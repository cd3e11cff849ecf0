/*
 * bench.c: how long the library's calls take, beside the same in plain C.
 *
 * Both are called in turn in the same run, on the same input, with warm memory
 * and outputs not cleared between calls; each figure is the median of 15
 * samples of the processor's time, so that other programs disturb it little.
 * 'times the wire' says how much faster than the line itself a call is: at
 * 2 Mb/s a character of 12 bits takes 6 us, a line of 140 words 840 us.
 *
 * Before anything is timed, both sides must agree on every input, output bytes
 * included. The figures are printed and never judged: no time is a failure.
 */
#define _DEFAULT_SOURCE
#include "bmc.h"
#include "plain.h"

#include <stdio.h>
#include <stdlib.h>
#include <string.h>
#include <time.h>

/* ---- The inputs --------------------------------------------------------- */

enum { DEVICES = 32, REGISTER = 0x12, SEED = 0xF0, VALUE = 0x000F };

static uint8_t good[BMC_LINE_MOST_BYTES];       /* accepted */
static uint8_t bad_pec[BMC_LINE_MOST_BYTES];    /* a value turned: row PEC */
static uint8_t bad_word[BMC_LINE_MOST_BYTES];   /* place 70: row CHARACTER */
static uint8_t file[BMC_FILE_MOST_BYTES];
static size_t file_bytes, file_words;

static uint8_t out[2][BMC_LINE_MOST_BYTES];
static uint8_t text[2][BMC_CERTIFICATE_MOST];

/* The right answer comes from the library's own twin. */
static void make_answer(uint8_t kind, uint16_t value, uint8_t *memory, uint8_t *line)
{
    uint8_t command[BMC_LINE_MOST_BYTES];
    uint32_t result = bmc_command(kind, DEVICES, 1, REGISTER, value, 0, SEED,
                                  command, sizeof command);
    bmc_twin_run(DEVICES, memory, BMC_TWIN_BYTES(DEVICES), command,
                 2 * (size_t)BMC_WRITTEN(result), line, BMC_LINE_MOST_BYTES);
}

static void add_entry(uint8_t kind, uint16_t value, const uint8_t *line, size_t words)
{
    const uint8_t head[8] = {
        kind, REGISTER, (uint8_t)value, (uint8_t)(value >> 8), 0, SEED,
        (uint8_t)words, (uint8_t)(words >> 8)
    };
    memcpy(file + file_bytes, head, sizeof head);
    memcpy(file + file_bytes + sizeof head, line, 2 * words);
    file_bytes += sizeof head + 2 * words;
    file_words += words;
}

/* A WRITEALL and as many READALL answers as the file can hold. */
static void make_file(const uint8_t *write)
{
    static const uint8_t header[7] = { 'B', 'M', 'C', 1, 0, DEVICES, 1 };
    memcpy(file, header, sizeof header);
    file_bytes = sizeof header;
    add_entry(BMC_WRITEALL, VALUE, write, 14);
    while (file_bytes + 8 + BMC_LINE_MOST_BYTES <= BMC_FILE_MOST_BYTES)
        add_entry(BMC_READALL, 0, good, BMC_LINE_MOST_WORDS);
}

/* Different registers in each device, so that the line carries all nibbles. */
static void make_inputs(void)
{
    static uint8_t memory[512 * DEVICES], write[BMC_LINE_MOST_BYTES];
    bmc_twin_power_on(DEVICES, memory, sizeof memory);
    make_answer(BMC_WRITEALL, VALUE, memory, write);
    for (size_t i = 0; i < sizeof memory; i++)
        memory[i] = (uint8_t)(i / 512 * 83 + i * 29 + 7);
    make_answer(BMC_READALL, 0, memory, good);
    memcpy(bad_pec, good, sizeof good);
    memcpy(bad_pec + 2 * 5, good[2 * 5] == 0x54 ? "\x52\x0D" : "\x54\x0D", 2);
    memcpy(bad_word, good, sizeof good);
    bad_word[2 * 70] ^= 0x02;
    make_file(write);
}

/* ---- The cases ---------------------------------------------------------- */

static uint32_t our_read(const uint8_t *line)
{
    return bmc_read(BMC_READALL, DEVICES, 1, REGISTER, 0, 0, SEED,
                    line, BMC_LINE_MOST_BYTES, out[0], BMC_VALUES_MOST_BYTES);
}

static uint32_t plain_read_of(const uint8_t *line)
{
    return plain_read(BMC_READALL, DEVICES, 1, REGISTER, 0, 0, SEED,
                      line, BMC_LINE_MOST_BYTES, out[1], BMC_VALUES_MOST_BYTES);
}

static uint32_t our_good(void)
{
    return our_read(good);
}

static uint32_t plain_good(void)
{
    return plain_read_of(good);
}

static uint32_t our_bad_pec(void)
{
    return our_read(bad_pec);
}

static uint32_t plain_bad_pec(void)
{
    return plain_read_of(bad_pec);
}

static uint32_t our_bad_word(void)
{
    return our_read(bad_word);
}

static uint32_t plain_bad_word(void)
{
    return plain_read_of(bad_word);
}

static uint32_t our_command(void)
{
    return bmc_command(BMC_READALL, DEVICES, 1, REGISTER, 0, 0, SEED,
                       out[0], BMC_LINE_MOST_BYTES);
}

static uint32_t plain_command_of(void)
{
    return plain_command(BMC_READALL, DEVICES, 1, REGISTER, 0, 0, SEED,
                         out[1], BMC_LINE_MOST_BYTES);
}

static uint32_t our_certificate(void)
{
    return bmc_certificate(file, file_bytes, text[0], BMC_CERTIFICATE_MOST);
}

static uint32_t plain_certificate_of(void)
{
    return plain_certificate(file, file_bytes, text[1], BMC_CERTIFICATE_MOST);
}

static uint32_t our_pec(void)
{
    return bmc_pec(good, 64);
}

static uint32_t plain_pec_of(void)
{
    return plain_pec(good, 64);
}

/* A call on both sides, the number it must give, and the words it stands for
 * on the line (0: the file's). */
static const struct bench {
    const char *name;
    uint32_t (*ours)(void);
    uint32_t (*plain)(void);
    int number;
    size_t words;
} benches[] = {
    { "read 140 words, accepted", our_good, plain_good, BMC_ACCEPTED, 140 },
    { "read 140 words, PEC", our_bad_pec, plain_bad_pec, BMC_PEC, 140 },
    { "read 140 words, CHARACTER at 70", our_bad_word, plain_bad_word,
      BMC_CHARACTER, 140 },
    { "write READALL of 32 devices", our_command, plain_command_of, BMC_ACCEPTED, 140 },
    { "PEC of 64 bytes", our_pec, plain_pec_of, -1, 128 },
    { "certificate of a 64 KiB file", our_certificate, plain_certificate_of,
      BMC_ACCEPTED, 0 }
};

enum { BENCHES = sizeof benches / sizeof benches[0] };

/* ---- Agreement ---------------------------------------------------------- */

static void disagree(const struct bench *b, uint32_t ours, uint32_t plain)
{
    printf("bench: %s: library %08lXh, plain C %08lXh, or other bytes written\n",
           b->name, (unsigned long)ours, (unsigned long)plain);
    exit(1);
}

static void check_agreement(const struct bench *b)
{
    memset(out, 0x5A, sizeof out);
    memset(text, 0x5A, sizeof text);
    uint32_t ours = b->ours(), plain = b->plain();
    if (ours != plain || memcmp(out[0], out[1], sizeof out[0]) != 0
        || memcmp(text[0], text[1], sizeof text[0]) != 0)
        disagree(b, ours, plain);
    if (b->number >= 0 && BMC_NUMBER(ours) != b->number)
        disagree(b, ours, plain);
}

/* ---- Time --------------------------------------------------------------- */

enum { SAMPLES = 15 };

static const double SAMPLE_NS = 8e6;

static volatile uint32_t sink;

static double now_ns(void)
{
    struct timespec now;
    clock_gettime(CLOCK_PROCESS_CPUTIME_ID, &now);
    return 1e9 * (double)now.tv_sec + (double)now.tv_nsec;
}

static double time_calls(uint32_t (*call)(void), unsigned long count)
{
    uint32_t sum = 0;
    double started = now_ns();
    for (unsigned long i = 0; i < count; i++)
        sum += call();
    double taken = now_ns() - started;
    sink = sum;
    return taken;
}

/* How many calls make a sample long enough for the clock. */
static unsigned long calls_per_sample(uint32_t (*call)(void))
{
    unsigned long count = 1;
    while (time_calls(call, count) < SAMPLE_NS)
        count *= 2;
    return count;
}

static int compare_times(const void *a, const void *b)
{
    double first = *(const double *)a, second = *(const double *)b;
    return (first > second) - (first < second);
}

static double median(double *times)
{
    qsort(times, SAMPLES, sizeof *times, compare_times);
    return times[SAMPLES / 2];
}

static void print_bench(const struct bench *b, double ours, double plain)
{
    size_t words = b->words == 0 ? file_words : b->words;
    printf("%-34s %12.1f %12.1f %7.2f %14.0f\n", b->name, ours, plain, ours / plain,
           6000.0 * (double)words / ours);
}

static void run_bench(const struct bench *b)
{
    double ours[SAMPLES], plain[SAMPLES];
    unsigned long our_count = calls_per_sample(b->ours);
    unsigned long plain_count = calls_per_sample(b->plain);
    for (int i = 0; i < SAMPLES; i++) {
        ours[i] = time_calls(b->ours, our_count) / (double)our_count;
        plain[i] = time_calls(b->plain, plain_count) / (double)plain_count;
    }
    print_bench(b, median(ours), median(plain));
}

/* Some calls of one side and nothing else, for a counter of instructions. */
static int only_calls(const struct bench *b, int plain, long times)
{
    uint32_t sum = 0;
    for (long i = 0; i < times; i++)
        sum += plain ? b->plain() : b->ours();
    sink = sum;
    return 0;
}

/* bench: the times. bench ROW SIDE TIMES: that row's call (from 0), ours (0) or
 * plain (1), so many times. */
int main(int argc, char **argv)
{
    make_inputs();
    if (argc == 4 && atoi(argv[1]) >= 0 && atoi(argv[1]) < BENCHES)
        return only_calls(&benches[atoi(argv[1])], atoi(argv[2]), atol(argv[3]));
    for (int i = 0; i < BENCHES; i++)
        check_agreement(&benches[i]);
    printf("library and plain C agree on all %d inputs; the file has %zu bytes\n",
           (int)BENCHES, file_bytes);
    printf("%-34s %12s %12s %7s %14s\n", "", "library, ns", "plain C, ns", "ratio",
           "times the wire");
    for (int i = 0; i < BENCHES; i++)
        run_bench(&benches[i]);
    return 0;
}
