/*
 * checks.h: the parts of the second program's own checks, and what they share.
 *
 * A file of checks has one part, check_NAME, and calls the program under test
 * through its headers. What is due is said in the documents' figures, and
 * never by the program's own names for them.
 */
#ifndef SECOND_CHECKS_H
#define SECOND_CHECKS_H

#include "second/question.h"

/* The parts, in the order in which they draw their figures: a new one is a line
 * here, the last, and its file. */
#define PARTS(part)   \
    part(line)        \
    part(pec)         \
    part(worked)      \
    part(cells)       \
    part(power_on)    \
    part(tables)      \
    part(round_trips) \
    part(refusals)    \
    part(rows)        \
    part(distance)    \
    part(twin)        \
    part(certificate) \
    part(job_files)   \
    part(rehearsals)  \
    part(runs)        \
    part(masks)       \
    part(reasons)

#define DECLARE(name) void check_##name(void);
PARTS(DECLARE)

/* Counts one check, and says what failed. */
void check(int good, const char *what);

/* ---- figures.c: figures to draw, memory that shows what was written ------ */

enum { MARK = 0xBEEF };

unsigned any(unsigned below);
void fill_words(uint16_t *words, size_t n);
int are_marked(const uint16_t *words, size_t n);
int same_words(const uint16_t *a, const uint16_t *b, size_t n);

/* ---- line.c and pec.c: lines, apart from the program under test ---------- */

enum { MOST = 140 };

uint16_t spell_nibble(unsigned nibble);
size_t wire(const uint8_t *bytes, size_t n, uint16_t *line);
int is_wire(const uint16_t *line, size_t words, const uint8_t *bytes, size_t n);
void turn(uint16_t *line, size_t i, unsigned bit);
unsigned divide(const uint8_t *bytes, size_t n);
size_t close_bytes(uint8_t *bytes, size_t n, unsigned alive, unsigned count);

/* ---- chain.c: a chain of twins, and what is sent through it -------------- */

enum { CHAIN = 32 * 256 };

extern uint16_t chain[CHAIN];
void any_chain(unsigned n);
struct s_question any_question(unsigned kind, unsigned n, unsigned alive);
size_t send_command(struct s_question q, uint16_t *line);
void step(unsigned n, unsigned device, uint16_t *line, size_t words);
void steps(unsigned n, uint16_t *line, size_t words);
int read_number(struct s_question q, const uint16_t *line, size_t words);

/* ---- tables.c: the line in front of a device, by 004's tables ------------ */

size_t column(struct s_question q, const uint16_t *registers,
              unsigned below, uint8_t *bytes);

/* ---- jobs.c: a job file under way, and its certificate ------------------- */

enum { JOB_ROOM = 70000, TEXT_ROOM = 200000 };

extern uint8_t job[JOB_ROOM];
extern size_t job_bytes;
extern uint8_t rehearsed[JOB_ROOM];
extern char text[TEXT_ROOM];
void begin(unsigned n, unsigned alive);             /* of version 1 */
void begin_version(unsigned version, unsigned n, unsigned alive);
void add(struct s_question q, const uint16_t *line, size_t words);
void add_masked(struct s_question q, unsigned mask, const uint16_t *line, size_t words);
struct s_question job_question(unsigned n, unsigned alive);
void add_bare(unsigned kind, unsigned reg, unsigned value, unsigned device,
              unsigned seed);
void add_bytes(struct s_question q, const uint8_t *bytes, size_t n);
int is_text(const char *due);
int is_refused(int number);
void example(void);
int rehearse_job(void);

#endif
