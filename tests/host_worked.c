/*
 * host_worked.c: document 01's worked numbers, through the library's calls.
 *
 * These are figures printed in the document. The reference is asked as well,
 * but it is the document that decides here.
 */
#include "host.h"
#include "second/pec.h"

#include <string.h>

/* ---- The PEC ------------------------------------------------------------ */

static uint32_t compare_pec(const uint8_t *bytes, size_t count)
{
    const unsigned long figures[1] = { count };
    set_trial("bmc_pec", "bytes", figures, 1);
    trial.given[0] = (struct given){ "bytes", bytes, count };
    uint32_t result = bmc_pec(bytes, count);
    settle("bytes", (struct side){ result, bytes, count },
           (struct side){ s_pec(bytes, count), bytes, count });
    count_input(0);
    return result;
}

/* The document's six, and bytes of every length up to some hundred: the library
 * takes four at a time. */
static void try_pecs(void)
{
    static const uint8_t read[] = { 0x03, 0x12, 0x00, 0x00, 0x00 };
    uint8_t bytes[300] = { 0x01 };
    must(compare_pec(bytes, 0) == 0x00, "the PEC of nothing");
    must(compare_pec(bytes, 1) == 0x3E, "the PEC of 01");
    bytes[0] = 0x02;
    must(compare_pec(bytes, 1) == 0x7C, "the PEC of 02");
    must(compare_pec(read, 1) == 0x42, "the PEC of 03");
    must(compare_pec(read, 3) == 0xCB, "the PEC of 03 12 00");
    must(compare_pec(read, 5) == 0xBC, "the PEC of 03 12 00 00 00");
    for (unsigned long i = 0; i < rounds(100000); i++) {
        size_t count = any(sizeof bytes + 1);
        any_bytes(bytes, count);
        compare_pec(bytes, count);
    }
}

/* ---- Lines -------------------------------------------------------------- */

static void set_bytes(struct reply *r, const uint8_t *bytes, size_t count)
{
    memcpy(r->bytes, bytes, count);
    r->byte_count = count;
    put_words(r);
    put_line(r);
}

static void check_command(struct s_question q, const uint8_t *bytes, size_t count)
{
    struct reply r;
    set_bytes(&r, bytes, count);
    uint32_t result = compare_command(q, r.line_bytes);
    must(result == (uint32_t)r.word_count << 16, "not the worked command");
    must(memcmp(command_words(), r.line, r.line_bytes) == 0, "not the worked command");
}

static uint32_t read_bytes(struct s_question q, const uint8_t *bytes, size_t count)
{
    struct reply r;
    set_question_of(&r, q);
    set_bytes(&r, bytes, count);
    return compare_read(&r);
}

static void try_worked_readall(void)
{
    static const uint8_t command[] = { 0x03, 0x12, 0x00, 0xCB, 0xC2, 0xD3 };
    static const uint8_t answer[] = { 0x03, 0x12, 0x00, 0x00, 0x00, 0xBC };
    struct s_question q = { .kind = BMC_READALL, .n = 1, .reg = 0x12 };
    check_command(q, command, sizeof command);
    must(read_bytes(q, answer, sizeof answer) == 0x10000, "the worked answer");
    must(read_values()[0] == 0 && read_values()[1] == 0, "the worked answer");
}

static void try_hello(void)
{
    static const uint8_t command[] = { 0x57, 0x00, 0x00 };
    uint8_t answer[] = { 0x57, 0x00, 0x00 };
    struct s_question q = { .kind = BMC_HELLOALL, .n = 33 };
    check_command(q, command, sizeof command);
    for (unsigned count = 0; count <= 255; count++) {
        unsigned number = count == 0 || count > 32 ? BMC_COUNT : BMC_ACCEPTED;
        answer[2] = (uint8_t)count;
        must(read_bytes(q, answer, 3) == (number | count << 8), "the count on the line");
    }
}

/* The alive byte of an answer to this seed. */
static void check_alive(unsigned n, unsigned seed, unsigned alive)
{
    struct s_question q = { .kind = BMC_WRITEALL, .n = n, .alive = 1, .seed = seed };
    uint8_t answer[] = { 0x02, 0x00, 0x00, 0x00, 0x00, (uint8_t)alive };
    answer[4] = (uint8_t)s_pec(answer, 4);
    must(read_bytes(q, answer, sizeof answer) == BMC_ACCEPTED, "the worked alive byte");
}

static void try_lengths(void)
{
    static struct reply r;
    struct s_question q = { .kind = BMC_READALL, .n = 32, .alive = 1 };
    put_right_answer(&r, q);
    must(r.word_count == 140 && BMC_NUMBER(compare_read(&r)) == 0, "140 words are good");
    r.line_bytes = 282;
    must(BMC_NUMBER(compare_read(&r)) == BMC_LENGTH, "141 words are LENGTH");
    r.line_bytes = 0;
    must(BMC_NUMBER(compare_read(&r)) == BMC_LENGTH, "an empty line is LENGTH");
    r.q.n = 33;
    must(BMC_NUMBER(compare_read(&r)) == BMC_QUESTION, "33 devices are QUESTION");
}

/* ---- Cells -------------------------------------------------------------- */

static void check_cell(unsigned m, unsigned bipolar, int32_t microvolts)
{
    int32_t whole;
    float single;
    uint32_t result = compare_cell(1, 1, 4 * m, bipolar, &whole, &single);
    double exact = ((double)m - (bipolar ? 8192 : 0)) * 5 / 16384;
    must(result == 0x100 && whole == microvolts, "not the worked microvolts");
    must((double)single == exact, "not the exact voltage");
}

static void try_worked_cells(void)
{
    int32_t whole;
    float single;
    check_cell(128, 0, 39063);
    check_cell(8064, 1, -39063);
    check_cell(0, 1, -2500000);
    check_cell(16383, 0, 4999695);
    check_cell(8192, 0, 2500000);
    check_cell(8192, 1, 0);
    check_cell(11796, 0, 3599854);
    must(compare_cell(12, 0x0800, 1, 0, &whole, &single) == BMC_LOW_BITS, "LOW BITS");
    must(compare_cell(12, 0xF7FF, 1, 0, &whole, &single) == 0, "not measured");
    must(compare_cell(13, 0, 0, 0, &whole, &single) == BMC_CHANNEL, "CHANNEL");
}

/* ---- Power-on ----------------------------------------------------------- */

static unsigned power_on_word(size_t word)
{
    const uint8_t *at = power_on_memory() + 2 * word;
    return at[0] | (unsigned)at[1] << 8;
}

static void try_worked_power_on(void)
{
    must(compare_power_on(32, 512 * 32) == 0, "power-on of 32 devices");
    for (size_t device = 0; device < 32; device++) {
        must(power_on_word(256 * device) == 0x8236, "register 00h after power-on");
        must(power_on_word(256 * device + 1) == 0, "register 01h after power-on");
        must(power_on_word(256 * device + 2) == 0x8000, "register 02h after power-on");
    }
}

/* ---- The certificate ---------------------------------------------------- */

/* n 2, a WRITEALL of 000Fh to 12h, a READALL of 12h with 000Fh and 0000h. */
static void try_worked_certificate(void)
{
    static struct job j;
    static struct reply r;
    static const char text[] = "BMC 1 2\nE 1 0\nE 2 0\nD 0 S\nD 1 O\n";
    struct s_question write = { .kind = BMC_WRITEALL, .n = 2, .reg = 0x12,
                                .value = 0x000F };
    struct s_question read = { .kind = BMC_READALL, .n = 2, .reg = 0x12 };
    put_header(&j, 1, 2, 0);
    put_right_answer(&r, write);
    put_entry(&j, write, MASK_ALL, r.words, r.word_count);
    set_question_of(&r, read);
    r.values[0] = 0x000F;
    r.values[1] = 0x0000;
    put_right_bytes(&r);
    put_words(&r);
    put_entry(&j, read, MASK_NONE, r.words, r.word_count);
    uint32_t result = compare_certificate(j.bytes, j.count, sizeof text - 1);
    must(result == (sizeof text - 1) << 8, "not the worked certificate");
    must(memcmp(certificate_text(), text, sizeof text - 1) == 0,
         "not the worked certificate");
}

/* ---- The part ----------------------------------------------------------- */

void try_worked_numbers(void)
{
    try_pecs();
    try_worked_readall();
    try_hello();
    check_alive(1, 0xFF, 0x00);
    check_alive(32, 0xF0, 0x10);
    try_lengths();
    try_worked_cells();
    try_worked_power_on();
    try_worked_certificate();
}
