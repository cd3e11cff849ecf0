/*
 * host.h: what the files of the host program share.
 *
 * The host program calls the library through bmc.h and holds every result and
 * every lent byte beside what the reference in second/ says. It stops at the
 * first difference. Its parts share random figures that a seed determines,
 * memory lent between guards, and answers and job files built from document 01
 * for the library to read.
 */
#ifndef HOST_H
#define HOST_H

#include "bmc.h"
#include "second/question.h"

/* ---- host_random.c: random figures -------------------------------------- */

void seed_random(uint64_t seed);
uint64_t random_seed(void);
uint64_t any64(void);
unsigned any(unsigned below);                       /* 0 .. below - 1 */
unsigned between(unsigned low, unsigned high);      /* both included */
uint8_t other_byte(uint8_t than);
void any_bytes(uint8_t *to, size_t count);

/* One in so many is tried; and what that leaves of a count of trials, which is
 * never none. */
extern unsigned share;
unsigned long rounds(unsigned long full);

/* ---- host_report.c: what is tried, the report, counts ------------------- */

/* What is being tried, for the report of a difference. */
struct given {
    const char *name;
    const uint8_t *at;
    size_t bytes;
};
enum { MOST_FIGURES = 16, MOST_GIVEN = 4 };
struct trial {
    const char *call;
    const char *names;              /* of the figures, in order */
    unsigned long figures[MOST_FIGURES];
    size_t figure_count;
    struct given given[MOST_GIVEN];
};
extern struct trial trial;
#define QUESTION_NAMES "kind n alive reg value device seed "
void set_trial(const char *call, const char *names, const unsigned long *figures,
               size_t count);
void set_question(const char *call, const char *names, struct s_question q,
                  unsigned long last);

/* One side's answer: the result and the memory it wrote into. */
struct side {
    uint64_t result;
    const uint8_t *memory;
    size_t bytes;
};

/* Ends the run with a report unless both sides are the same. */
void settle(const char *memory, struct side library, struct side reference);

/* Ends the run with a report unless what the document says holds. */
void must(int holds, const char *what);

/* Counts one input of the part that runs, by its number. */
void start_part(const char *name);
void count_input(unsigned number);
void count_part(unsigned words);
void need_numbers(unsigned lowest, unsigned highest);
void print_counts(void);
unsigned long inputs_compared(void);

/* ---- host_lend.c: lent memory ------------------------------------------- */

enum { GUARD = 16 };

struct lent {
    uint8_t *low, *high;            /* what may be touched at all */
    uint8_t *at;
    size_t bytes;
    uint8_t guard[GUARD];
};

void make_lent(struct lent *m, size_t most);
uint8_t *lend(struct lent *m, size_t bytes);                /* random content */
uint8_t *lend_copy(struct lent *m, const uint8_t *from, size_t bytes);
void check_guards(const struct lent *m);
void check_input(const struct lent *m, const uint8_t *from);
void report_stray_access(void);

/* ---- host_expect.c: what the reference says, in the library's form ------ */

/* From the reference's form to the library's and back (see also put_slice). */
void to_words(const uint8_t *bytes, size_t words, uint16_t *to);
size_t room_words(size_t bytes, size_t most);
uint32_t packed(unsigned number, unsigned byte, size_t high);

uint32_t expect_read(struct s_question q, const uint8_t *line, size_t line_bytes,
                     uint8_t *out, size_t out_bytes);
uint32_t expect_command(struct s_question q, uint8_t *out, size_t out_bytes);
uint32_t expect_part(struct s_question q, unsigned named,
                     const uint8_t *line, size_t line_bytes);
uint64_t expect_explain(struct s_question q, const uint8_t *line, size_t line_bytes);
uint32_t expect_cell(unsigned cell, unsigned enabled, unsigned reg,
                     unsigned bipolar, int32_t *microvolts, float *volts);
/* The three outputs of bmc_cells, and how many numbers each has room for. */
struct cell_outputs {
    int32_t *microvolts;
    float *volts;
    uint32_t *answers;
    size_t counts[3];
};
uint32_t expect_cells(unsigned enabled, unsigned bipolar,
                      const uint8_t *registers, size_t register_bytes,
                      struct cell_outputs outputs);
uint32_t expect_certificate(const uint8_t *file, size_t file_bytes,
                            uint8_t *text, size_t text_bytes);
uint32_t expect_power_on(unsigned n, uint8_t *memory, size_t memory_bytes);
/* The device that is stepped, or this for all of them in one call. */
enum { WHOLE_CHAIN = 256 };
uint32_t expect_step(unsigned n, unsigned device,
                     uint8_t *memory, size_t memory_bytes,
                     const uint8_t *line, size_t line_bytes,
                     uint8_t *out, size_t out_bytes);

/* ---- host_answers.c: questions and their right answers ------------------ */

enum { REPLY_WORDS = 160, REPLY_BYTES = 2 * REPLY_WORDS + 1 };

/* An answer under way: its bytes, its words, the line as lent, and the room
 * lent for its values. */
struct reply {
    struct s_question q;
    uint16_t values[BMC_MOST_DEVICES];      /* lowest address first */
    uint8_t bytes[BMC_LINE_MOST_WORDS / 2];
    size_t byte_count;
    uint16_t words[REPLY_WORDS];
    size_t word_count;
    uint8_t line[REPLY_BYTES];
    size_t line_bytes;
    size_t room;
};

int is_read(unsigned kind);
int is_write(unsigned kind);
size_t values_of(struct s_question q);
size_t words_of(struct s_question q);               /* of command and answer */
struct s_question any_question(unsigned kind);      /* a good one */
struct s_question bad_question(void);
uint16_t character_of(unsigned data);
uint16_t nibble_word(unsigned nibble);
void put_slice(const uint16_t *words, size_t count, uint8_t *to);
size_t any_room(size_t words);                      /* enough, in bytes */

/* An answer step by step ... */
void set_question_of(struct reply *r, struct s_question q);
void put_right_bytes(struct reply *r);
size_t pec_place(const struct reply *r);
void put_pec(struct reply *r);
void put_words(struct reply *r);
void put_line(struct reply *r);

/* ... or at once, with random values. */
void put_right_answer(struct reply *r, struct s_question q);

/* ---- host_spoil.c: answers damaged row by row --------------------------- */

/* A damage that makes a right answer meet one row of 'Turned away'. */
struct damage {
    const char *rule;
    unsigned number;
    unsigned kinds;                         /* bit k: it fits kind k */
    void (*bytes)(struct reply *);
    void (*words)(struct reply *);
    void (*slice)(struct reply *);
};

extern const struct damage damages[];
extern const size_t damage_count;
int fits(const struct damage *d, unsigned kind);
struct s_question fitting_question(const struct damage *d);
void put_damaged(struct reply *r, struct s_question q,
                 const struct damage *const *chosen, size_t count);

/* ---- host_jobs.c: job files --------------------------------------------- */

enum { JOB_MOST = 66000, JOB_ENTRIES = 8192 };

struct job {
    uint8_t bytes[JOB_MOST];
    size_t count;
    size_t entries[JOB_ENTRIES];            /* where each entry starts */
    size_t entry_count;
};

enum { MASK_NONE = 0, MASK_ALL = 0xFFFF };
unsigned some_version(void);                        /* 1 or 2 */
unsigned some_mask(unsigned kind);                  /* one that the kind may have */
struct s_question clear_unused(struct s_question q);
size_t field_bytes(const struct job *j);            /* of an entry before its words */
void put_header(struct job *j, unsigned version, unsigned n, unsigned alive);
/* Only a file of version 2 has a place for the mask. */
void put_entry(struct job *j, struct s_question q, unsigned mask,
               const uint16_t *words, size_t count);
void put_any_job(struct job *j, unsigned version);
void put_empty_entries(struct job *j, size_t up_to);
void put_full_job(struct job *j, unsigned version, unsigned alive);

/* ---- The calls, each compared with the reference ------------------------ */

uint32_t compare_read(const struct reply *r);       /* values: see read_values */
const uint8_t *read_values(void);                   /* the last compared read's */
uint32_t compare_part(const struct reply *r, unsigned named);
uint32_t compare_command(struct s_question q, size_t room);
const uint8_t *command_words(void);                 /* the last compared one's */
uint32_t compare_cell(unsigned cell, unsigned enabled, unsigned reg,
                      unsigned bipolar, int32_t *microvolts, float *volts);
uint32_t compare_power_on(unsigned n, size_t memory_bytes);
const uint8_t *power_on_memory(void);               /* the last compared one's */
uint32_t compare_certificate(const uint8_t *file, size_t file_bytes, size_t room);
const uint8_t *certificate_text(void);              /* the last compared one's */

/* ---- host_twin.c, host_rough.c and host_runs.c: twin chains ------------- */

enum { MEMORY_MOST = 512 * 42, LINE_MOST = 320 };

struct chain {
    unsigned n;
    uint8_t memory[MEMORY_MOST];
    size_t memory_bytes;
    uint8_t line[LINE_MOST];
    size_t line_bytes;
};

void set_chain(struct chain *c, unsigned n);
unsigned some_chain(void);                          /* a number of devices */
struct s_question chain_question(unsigned n);
void put_command(struct chain *c, struct s_question q);
void put_some_line(struct chain *c);
uint32_t compare_step(struct chain *c, unsigned device, size_t room);
void try_rough(struct chain *c);
void try_nearly_right_chains(struct chain *c);

/* ---- The parts, each in its own file: a new one is a line here ---------- */

#define PARTS(part)                            \
    part("worked numbers", try_worked_numbers) \
    part("lines", try_reads)                   \
    part("turned bits", try_distance)          \
    part("commands", try_commands)             \
    part("cells", try_cells)                   \
    part("twin", try_twin)                     \
    part("certificates", try_certificates)     \
    part("masked bits", try_masked)            \
    part("whole chains", try_runs)             \
    part("reasons", try_reasons)

#define DECLARE(name, run) void run(void);
PARTS(DECLARE)

#endif
