/*
 * bmc.h: the battery bench's wire software, as C sees it.
 *
 * Commands written, answers read and refusals explained, cell registers turned
 * into volts, a twin of a chain of monitors, and the certificate of a job file.
 * The library keeps no memory of its own between calls, allocates nothing and
 * prints nothing.
 *
 * Built for x86-64, aarch64, riscv64, riscv32imac, cortex-m4 and cortex-m0, each
 * by its C calling convention. This header is the same for all of them, in C
 * from C89 on (with <stdint.h>) and in C++.
 *
 * WORDS AND BYTES. A word of a line, a register's value and a register of the
 * twin's memory are two bytes each, low byte first, at any alignment. Lengths
 * count bytes, but for bmc_cells' outputs (see there); places count words from
 * 0, but for those of bmc_explain (see BMC_WHY_HOW). An output of an odd number
 * of bytes has room for the whole words in it: its last byte counts for no room
 * and stays as it is.
 *
 * REFUSALS. Every call that can refuse carries a number in the lowest byte of
 * its result: 0 when it was accepted, else the number of the first check that
 * failed, in the order given at each call. Two calls refuse nothing and carry no
 * number: bmc_part, whose lowest byte is a count of words, and bmc_pec, whose
 * lowest byte is the PEC. bmc_explain carries the number of bmc_read. A refused
 * call changes no byte of lent memory. What an accepted call does not write stays
 * as it is. Bits of a result that are not mentioned are 0.
 *
 * THREADS AND INTERRUPTS. There is no state: any number of calls may run at once,
 * on any threads and in interrupts, each on memory of its own; memory that a call
 * only reads may be shared. Every call ends by itself and calls nothing but
 * memcpy, memset and the helpers of the compiler that links it.
 *
 * STACK. No call takes more than this, on any of these processors, beside what
 * memcpy, memset and the helpers take:
 *   bmc_cell                                                   100 bytes
 *   bmc_command                                                200 bytes
 *   bmc_cells                                                  500 bytes
 *   bmc_pec                                                   1500 bytes
 *   bmc_read, bmc_part                                        2400 bytes
 *   bmc_explain                                               2500 bytes
 *   bmc_twin_power_on, bmc_twin_step, bmc_twin_run            3000 bytes
 *   bmc_certificate                                          10700 bytes
 * Beside it stands the memory that is lent: a twin of n devices has 512 * n
 * bytes, a job file up to 65,536 and its text up to 82,143. So bmc_certificate,
 * and the twin of a long chain, are for processors with that much memory; the
 * others ask for a line, 280 bytes, and its values, 64.
 *
 * CODE. All calls together are 13 to 22 KB; the reader, the writer and the cells 6
 * to 9. A program that is linked with --gc-sections takes in what it calls.
 *
 * WHAT THE CALLER OWES, in every call:
 *  - each pointer is valid for the length beside it, for reading where it is
 *    const, else for reading and writing, and is not null, not even beside a
 *    length of 0 (nothing is read or written through it then);
 *  - memory that a call writes overlaps no other memory lent to that call;
 *  - no one else changes lent memory while the call runs.
 * Nothing else is owed, but for the outputs of bmc_cell and bmc_cells (see there):
 * every value of every number has its answer below.
 */
#ifndef BMC_H
#define BMC_H

#include <stddef.h>
#include <stdint.h>

/* The version of this header and its archive. The second number rises with new
 * calls and with what an old call takes that it refused before; the first would,
 * should an old call ever lose its meaning. */
#define BMC_VERSION_MAJOR 1
#define BMC_VERSION_MINOR 3
#define BMC_VERSION_PATCH 0
#define BMC_VERSION \
    (10000 * BMC_VERSION_MAJOR + 100 * BMC_VERSION_MINOR + BMC_VERSION_PATCH)
#define BMC_VERSION_TEXT "1.3.0"

/* What C89, later C and C++ say differently. */
#ifdef __cplusplus
#define BMC_INLINE static inline
#define BMC_AS(type, value) (static_cast<type>(value))
#elif defined(__STDC_VERSION__) && __STDC_VERSION__ >= 199901L
#define BMC_INLINE static inline
#define BMC_AS(type, value) ((type)(value))
#else
#define BMC_INLINE static __inline__
#define BMC_AS(type, value) ((type)(value))
#endif

/*
 * LENGTHS. The library counts lengths in 64 bits on every processor. Where size_t
 * has 64 bits, each call below is the archive's own. Where it has 32, the archive
 * has each call under another name, with lengths of 64 bits, and each call below is
 * inline and hands its lengths on widened (at the end of this header). A
 * declaration written by hand, with size_t, does not link there; it would have got
 * wrong answers.
 */
#if defined(__SIZEOF_SIZE_T__)
#define BMC_LENGTH_BYTES __SIZEOF_SIZE_T__
#elif SIZE_MAX > 0xFFFFFFFFu
#define BMC_LENGTH_BYTES 8
#else
#define BMC_LENGTH_BYTES 4
#endif
#if BMC_LENGTH_BYTES == 8
#define BMC_CALL
#else
#define BMC_CALL BMC_INLINE
#endif

#ifdef __cplusplus
extern "C" {
#endif

/* The kinds of question. */
enum {
    BMC_HELLOALL = 0,
    BMC_WRITEALL = 1,
    BMC_WRITEDEVICE = 2,
    BMC_READALL = 3,
    BMC_READDEVICE = 4
};

/* The numbers: why a call was turned away. */
enum {
    BMC_ACCEPTED = 0,
    BMC_QUESTION = 1,
    BMC_ROOM = 2,
    BMC_LENGTH = 3,
    BMC_CHARACTER = 4,
    BMC_FRAME = 5,
    BMC_MANCHESTER = 6,
    BMC_ECHO = 7,
    BMC_PEC = 8,
    BMC_ALIVE = 9,
    BMC_CHECK = 10,
    BMC_COUNT = 11,
    BMC_CHANNEL = 12,
    BMC_LOW_BITS = 13,
    BMC_FILE = 14,
    BMC_TWIN = 15
};

/* The longest line: a READALL of 32 devices with the alive byte. */
#define BMC_LINE_MOST_WORDS 140
#define BMC_LINE_MOST_BYTES (2 * BMC_LINE_MOST_WORDS)

/* The most devices of a chain, and room for every read's values. */
#define BMC_MOST_DEVICES 32
#define BMC_VALUES_MOST_BYTES (2 * BMC_MOST_DEVICES)

/* The cells of a device, and the bytes of their registers. */
#define BMC_CELLS 12
#define BMC_CELLS_BYTES (2 * BMC_CELLS)

/* Where the data sheet has the cells: the register of cell c, 1 to 12; the
 * register whose bits 0 to 11 enable cells 1 to 12 (what bmc_cell and bmc_cells
 * take as enabled); and the register with the bit that is 1 in the bipolar range
 * (what they take as bipolar). */
#define BMC_REGISTER_CELL(c) BMC_AS(uint8_t, 0x1F + (c))
#define BMC_REGISTER_MEASUREEN 0x12
#define BMC_REGISTER_SCANCTRL 0x13
#define BMC_SCANCTRL_POLARITY 0x0080

/* The twin's memory for a chain of n devices. */
#define BMC_TWIN_BYTES(n) (BMC_AS(size_t, 512) * (n))

/* The longest job file, and memory that holds the text of every certificate. */
#define BMC_FILE_MOST_BYTES 65536
#define BMC_CERTIFICATE_MOST 82143

/* Every result but bmc_part's and bmc_pec's, and each answer of bmc_cells: the
 * number. */
#define BMC_NUMBER(result) BMC_AS(uint8_t, (result) & 0xFFu)

/* bmc_read: the byte of CHECK and COUNT, the count of an accepted HELLOALL. */
#define BMC_BYTE(result) BMC_AS(uint8_t, (result) >> 8 & 0xFFu)

/* bmc_read: the place of CHARACTER and MANCHESTER. bmc_explain: the place of every
 * number, counted as BMC_WHY_HOW says. */
#define BMC_PLACE(result) BMC_AS(uint16_t, (result) >> 16 & 0xFFFFu)

/* bmc_read, bmc_command, when accepted: the values or words written. */
#define BMC_WRITTEN(result) BMC_AS(uint16_t, (result) >> 16 & 0xFFFFu)

/* bmc_part: how many words the part has, and the place of its first. */
#define BMC_PART_WORDS(result) BMC_AS(uint8_t, (result) & 0xFFu)
#define BMC_PART_PLACE(result) BMC_AS(uint16_t, (result) >> 16 & 0xFFFFu)

/* bmc_explain: how the place is counted; 1 when one thing alone would have passed;
 * nothing as yet, always 0; what stood at the place; and the one thing, else 0. */
#define BMC_WHY_HOW(result) BMC_AS(uint8_t, (result) >> 8 & 0x7u)
#define BMC_WHY_ONE(result) BMC_AS(uint8_t, (result) >> 11 & 0x1u)
#define BMC_WHY_FAULT(result) BMC_AS(uint8_t, (result) >> 12 & 0xFu)
#define BMC_WHY_STOOD(result) \
    BMC_AS(uint16_t, BMC_AS(uint64_t, result) >> 32 & 0xFFFFu)
#define BMC_WHY_RIGHT(result) \
    BMC_AS(uint16_t, BMC_AS(uint64_t, result) >> 48 & 0xFFFFu)

/* BMC_WHY_HOW: how the place of bmc_explain is counted. Byte i of a line is its
 * words 1 + 2 * i and 2 + 2 * i. */
enum {
    BMC_AT_WORD = 1,    /* a word of the line, from 0 */
    BMC_AT_BYTE = 2,    /* a byte of the answer, from 0 */
    BMC_AT_LINE = 3,    /* the whole line; the place is 0 */
    BMC_AT_FIELD = 4    /* a field of the question, as below */
};

/* The fields that QUESTION can name: their places among the call's arguments. */
enum {
    BMC_FIELD_KIND = 0,
    BMC_FIELD_N = 1,
    BMC_FIELD_ALIVE = 2,
    BMC_FIELD_DEVICE = 5
};

/* bmc_cell, and each answer of bmc_cells: 1 when the cell was measured and its
 * microvolts and volts were written. */
#define BMC_MEASURED(result) BMC_AS(uint8_t, (result) >> 8 & 0xFFu)

/* bmc_certificate: the bytes of text written. */
#define BMC_TEXT_BYTES(result) (BMC_AS(uint32_t, result) >> 8)

/*
 * A QUESTION is seven numbers: the kind, the number n of devices in the chain,
 * alive (1 when the alive byte is on), the register, the value of a write, the
 * device of WRITEDEVICE and READDEVICE, and the seed (the alive byte sent). A
 * field that the kind does not use may hold anything. HELLOALL looks at kind
 * and alive only. A question is bad (QUESTION) exactly when
 *  - kind is above 4, or alive is neither 0 nor 1;
 *  - for kinds 1 to 4, n is not 1..32;
 *  - for kinds 2 and 4, device is n or more.
 *
 * Command and answer are lines of equal length: preamble, two characters a byte,
 * stop. Their bytes, a standing for device, s for seed, [..] only with alive 1:
 *   HELLOALL     57 00 00                        57 00 count
 *   WRITEALL     02 reg lo hi PEC [s]            02 reg lo hi PEC [s+n]
 *   WRITEDEVICE  8a+4 reg lo hi PEC [s]          8a+4 reg lo hi PEC [s+1]
 *   READALL      03 reg 00 PEC [s] n x (C2 D3)   03 reg n x (lo hi) check PEC [s+n]
 *   READDEVICE   8a+5 reg 00 PEC [s] C2 D3       8a+5 reg lo hi check PEC [s+1]
 * READALL's values come from address n-1 down to 0. The PEC covers every byte
 * before it.
 */

/*
 * Reads the answer to a question. In this order:
 *   QUESTION    the question is bad;
 *   ROOM        out is shorter than the values: n words for READALL, one for
 *               READDEVICE, none for the other kinds;
 *   LENGTH      line_bytes is odd, or is not the answer's length: 8 words for
 *               HELLOALL, 12 + 2 * alive for writes, 14 + 2 * alive for
 *               READDEVICE, 10 + 4 * n + 2 * alive for READALL; so every line
 *               of more than 140 words is LENGTH here;
 *   CHARACTER   a word has one of bits 12..15 set, start bit 1, a stop bit 0 or
 *               odd parity; BMC_PLACE is the lowest such place;
 *   FRAME       the first word is no preamble or the last no stop character;
 *   MANCHESTER  a word between is no nibble; BMC_PLACE is the lowest such place;
 *   ECHO        the first or second byte, or a write's value, is not as asked;
 *   PEC         the PEC is wrong (not for HELLOALL);
 *   ALIVE       alive is 1 and the alive byte is not the seed plus the devices
 *               that act, modulo 256 (not for HELLOALL);
 *   CHECK       a read's check byte is not 00h; BMC_BYTE is that byte;
 *   COUNT       HELLOALL's last byte is 0 or above 32; BMC_BYTE is that byte.
 * Accepted: a read's values stand at the front of out in address order, lowest
 * first, and BMC_WRITTEN is how many (n, or 1). For HELLOALL BMC_BYTE is the
 * count on the line, whatever n is. HELLOALL and writes write nothing and
 * BMC_WRITTEN is 0.
 */
BMC_CALL uint32_t bmc_read(uint8_t kind, uint8_t n, uint8_t alive, uint8_t reg,
                           uint16_t value, uint8_t device, uint8_t seed,
                           const uint8_t *line, size_t line_bytes,
                           uint8_t *out, size_t out_bytes);

/*
 * Writes the command of a question. In this order:
 *   QUESTION  the question is bad;
 *   ROOM      out is shorter than the command: as many words as its answer has
 *             (see LENGTH above).
 * Accepted: the command's words stand at the front of out and BMC_WRITTEN is
 * how many.
 */
BMC_CALL uint32_t bmc_command(uint8_t kind, uint8_t n, uint8_t alive, uint8_t reg,
                              uint16_t value, uint8_t device, uint8_t seed,
                              uint8_t *out, size_t out_bytes);

/*
 * Where a named device's register stands in an answer. Never refuses. When
 * bmc_read with room enough accepts this line for this question, the question
 * is a READALL or READDEVICE, and it covers the named device (READALL: named
 * below n; READDEVICE: named equal to device), BMC_PART_WORDS is 4 and
 * BMC_PART_PLACE the place of the first of the four words that carry the
 * register: low byte's low nibble, its high nibble, then the high byte's. In
 * every other case, an odd line_bytes among them, the part is empty and the
 * result is 0.
 */
BMC_CALL uint32_t bmc_part(uint8_t kind, uint8_t n, uint8_t alive, uint8_t reg,
                           uint16_t value, uint8_t device, uint8_t seed, uint8_t named,
                           const uint8_t *line, size_t line_bytes);

/*
 * Why an answer is turned away, for whoever has to mend it. It is lent no output
 * and writes nothing. The result has 64 bits, and is 0 exactly when bmc_read with
 * room for 32 values accepts this line for this question. Else BMC_NUMBER is the
 * number that bmc_read gives (never ROOM), and the other macros say where its check
 * fails, at the lowest such place; what stood there; and, where BMC_WHY_ONE is 1,
 * BMC_WHY_RIGHT: this and nothing else there would have passed that check, with
 * everything else as it stands. Where BMC_WHY_ONE is 0 several things would have
 * passed, and BMC_WHY_RIGHT is 0.
 *   number      place        what stood           the one thing
 *   QUESTION    a field      the field            0 for device where n is 1
 *   LENGTH      the line     its bytes            the answer's bytes
 *   CHARACTER   a word       the word             -
 *   FRAME       first word   the word             0E2Ah
 *               last word    the word             0EA8h
 *   MANCHESTER  a word       the word             -
 *   ECHO        a byte       the byte             the byte as asked
 *   PEC         its byte     the byte             the PEC of the bytes before it
 *   ALIVE       its byte     the byte             as in the table above
 *   CHECK       its byte     the byte             00h
 *   COUNT       its byte     the byte             -
 * QUESTION names the first of kind, alive, n and device that breaks its own rule;
 * FRAME the last word only where the first is the preamble; ECHO the lowest byte
 * that is not as asked. LENGTH counts bytes, and 65,535 stands for that many and
 * more. Bits 12..15, BMC_WHY_FAULT, are 0.
 */
BMC_CALL uint64_t bmc_explain(uint8_t kind, uint8_t n, uint8_t alive, uint8_t reg,
                              uint16_t value, uint8_t device, uint8_t seed,
                              const uint8_t *line, size_t line_bytes);

/*
 * A cell's voltage from its register. The measurement m is the register divided
 * by 4; the voltage is m * 5/16384 V where bipolar is 0, (m - 8192) * 5/16384 V
 * where it is 1. Bit c-1 of enabled stands for cell c; bits 12 to 15 mean
 * nothing. In this order:
 *   QUESTION  bipolar is neither 0 nor 1;
 *   CHANNEL   cell is not 1..12;
 *   (the cell is not enabled: accepted, not measured, whatever reg holds)
 *   LOW BITS  either of the register's two lowest bits is 1.
 * BMC_MEASURED is 1 exactly when the call is accepted and the cell is enabled.
 * Only then are the outputs written: whole microvolts, nearest, a half going
 * away from zero, and the exact voltage in volts, zero being plus zero.
 * The caller owes microvolts and volts valid, aligned for their types and
 * apart from each other, also where they will not be written.
 */
BMC_CALL uint32_t bmc_cell(uint8_t cell, uint16_t enabled, uint16_t reg,
                           uint8_t bipolar, int32_t *microvolts, float *volts);

/*
 * The twelve cells of one measurement, from their registers: two bytes each, low
 * first, cell 1's first. The counts of the three outputs count their numbers. In
 * this order:
 *   QUESTION  bipolar is neither 0 nor 1;
 *   ROOM      microvolts, volts or answers has room for fewer than 12;
 *   LENGTH    register_bytes is not 24.
 * Accepted: answers[k] is what bmc_cell answers for cell k + 1 by its register,
 * for k from 0 to 11, and microvolts[k] and volts[k] are written as bmc_cell
 * writes them, so
 *   the cell is not enabled: BMC_NUMBER(answers[k]) and BMC_MEASURED(answers[k])
 *                            are 0;
 *   LOW BITS:                BMC_NUMBER(answers[k]) is 13, BMC_MEASURED 0;
 *   else:                    BMC_NUMBER(answers[k]) is 0, BMC_MEASURED 1.
 * Only in the last case are microvolts[k] and volts[k] written. One cell's LOW
 * BITS does not refuse the call: its result is 0. Beyond the twelfth nothing is
 * written.
 * The caller owes microvolts, volts and answers aligned for their types.
 */
BMC_CALL uint32_t bmc_cells(uint16_t enabled, uint8_t bipolar,
                            const uint8_t *registers, size_t register_bytes,
                            int32_t *microvolts, size_t microvolts_count,
                            float *volts, size_t volts_count,
                            uint32_t *answers, size_t answers_count);

/*
 * The certificate of a job file, as text; no zero byte closes it. A job file is
 * a header (the bytes 'B' 'M' 'C', version 1 or 2 in two bytes, n, alive) and
 * entries (kind, register, value in two bytes, in version 2 a mask in two bytes,
 * device, seed, number of words in two bytes, the answer's words), low bytes
 * first. In this order:
 *   FILE  the file is longer than 65,536 bytes; the header is cut short or wrong
 *         or its n not 1..32; an entry has a kind above 4, is cut short, has more
 *         than 140 words, or has a field not 0 that its kind does not use (the
 *         seed too where alive is 0, and for HELLOALL; the mask where it is no
 *         write); or a write's mask is 0, whatever its device;
 *   ROOM  text is shorter than the certificate.
 * Accepted: the certificate stands at the front of text and BMC_TEXT_BYTES is
 * its length. With text_bytes of BMC_CERTIFICATE_MOST or more it is never ROOM.
 * Its lines, each with its line feed: 'BMC f n', f the file's version; for each
 * entry 'E i r', i from 1, r the number that bmc_read gives with room for 32
 * values; and for each device that the last write with a good question covers, in
 * address order, 'D a v', where v is S or O as the latest accepted read of that
 * register after the write that covers the device gave the value written or
 * another, and U where there is no such read. Values are compared in the bits of
 * that write's mask, in a version 1 file in all sixteen. For FILE nothing is
 * written.
 */
BMC_CALL uint32_t bmc_certificate(const uint8_t *file, size_t file_bytes,
                                  uint8_t *text, size_t text_bytes);

/*
 * Fills a twin's memory with the registers after power-on. Device k's register
 * r is word 256 * k + r.
 *   TWIN  n is not 1..32, or memory_bytes is not exactly 512 * n.
 * Accepted: the whole memory is written. In each device 00h is 8236h, 02h 8000h,
 * 0Ah 0F0Fh, 10h 0002h, 1Eh 000Ch, 40h, 42h and 48h FFFCh, 4Ah FFF0h; every
 * other register is 0000h.
 */
BMC_CALL uint32_t bmc_twin_power_on(uint8_t n,
                                    uint8_t *memory, size_t memory_bytes);

/*
 * One device of the twin takes a line and hands on a line of equal length. In
 * this order:
 *   TWIN    n is not 1..32, or memory_bytes is not exactly 512 * n, or device
 *           is n or more;
 *   ROOM    out has fewer whole words than the line;
 *   LENGTH  line_bytes is odd.
 * Accepted: the line handed on stands at the front of out. The device acts only
 * on a line that is a command to this chain of n, for this device, as the devices
 * before it would have left it: HELLOALL with the last byte equal to device;
 * READALL with the values of as many devices as stand before it, check 00h, and
 * the fill pairs that are left; always with the right PEC. It then adds one to
 * HELLOALL's last byte; or takes a write's value into its register (00h keeps its
 * own); or puts its register directly behind the register byte, drops one fill
 * pair and works the PEC afresh; and adds one to the alive byte, after FFh 00h.
 * Every other line, of whatever length, is handed on as it came and memory
 * stays. For a READALL, check byte and PEC stand behind the values already on
 * the line.
 * line, out and memory lie apart.
 */
BMC_CALL uint32_t bmc_twin_step(uint8_t n, uint8_t device,
                                uint8_t *memory, size_t memory_bytes,
                                const uint8_t *line, size_t line_bytes,
                                uint8_t *out, size_t out_bytes);

/*
 * The whole chain in one call: bmc_twin_step of device 0, 1, .. n-1, each on the
 * line that the one before handed on. In this order:
 *   TWIN    n is not 1..32, or memory_bytes is not exactly 512 * n;
 *   ROOM    out has fewer whole words than the line;
 *   LENGTH  line_bytes is odd.
 * Accepted: the line as the last device hands it on stands at the front of out,
 * and memory is as the devices have left it. For a command of bmc_command to this
 * chain that line is its right answer. Refused, no device was stepped.
 * line, out and memory lie apart.
 */
BMC_CALL uint32_t bmc_twin_run(uint8_t n, uint8_t *memory, size_t memory_bytes,
                               const uint8_t *line, size_t line_bytes,
                               uint8_t *out, size_t out_bytes);

/*
 * The PEC of some bytes, 0..255, every byte in its turn from 0; of no bytes 0.
 * It refuses nothing and writes nothing.
 */
BMC_CALL uint32_t bmc_pec(const uint8_t *bytes, size_t byte_count);

/*
 * A question as a struct, with its fields by name, so that no two of them can be
 * exchanged unseen:
 *     bmc_question q = { 0 };
 *     q.kind = BMC_READALL; q.n = 3; q.reg = BMC_REGISTER_CELL(1);
 * and the four calls that take one: bmc_command, bmc_read, bmc_part and bmc_explain
 * with the question's fields in their places.
 */
typedef struct bmc_question {
    uint8_t kind;
    uint8_t n;
    uint8_t alive;
    uint8_t reg;
    uint16_t value;
    uint8_t device;
    uint8_t seed;
} bmc_question;

BMC_INLINE uint32_t bmc_question_command(const bmc_question *q,
                                         uint8_t *out, size_t out_bytes)
{
    return bmc_command(q->kind, q->n, q->alive, q->reg, q->value, q->device,
                       q->seed, out, out_bytes);
}

BMC_INLINE uint32_t bmc_question_read(const bmc_question *q,
                                      const uint8_t *line, size_t line_bytes,
                                      uint8_t *out, size_t out_bytes)
{
    return bmc_read(q->kind, q->n, q->alive, q->reg, q->value, q->device,
                    q->seed, line, line_bytes, out, out_bytes);
}

BMC_INLINE uint32_t bmc_question_part(const bmc_question *q, uint8_t named,
                                      const uint8_t *line, size_t line_bytes)
{
    return bmc_part(q->kind, q->n, q->alive, q->reg, q->value, q->device,
                    q->seed, named, line, line_bytes);
}

BMC_INLINE uint64_t bmc_question_explain(const bmc_question *q,
                                         const uint8_t *line, size_t line_bytes)
{
    return bmc_explain(q->kind, q->n, q->alive, q->reg, q->value, q->device,
                       q->seed, line, line_bytes);
}

/* Word k of some bytes, and word k put among them: a line's word at place k, the
 * value of device k of a READALL, register r of the twin's device d with k
 * 256 * d + r. */
BMC_INLINE uint16_t bmc_word_get(const uint8_t *bytes, size_t k)
{
    return BMC_AS(uint16_t, bytes[2 * k] | bytes[2 * k + 1] << 8);
}

BMC_INLINE void bmc_word_put(uint8_t *bytes, size_t k, uint16_t word)
{
    bytes[2 * k] = BMC_AS(uint8_t, word & 0xFFu);
    bytes[2 * k + 1] = BMC_AS(uint8_t, word >> 8);
}

/* The name of a number of "Turned away", and of a kind; "?" for any other. */
BMC_INLINE const char *bmc_number_name(uint8_t number)
{
    switch (number) {
    case BMC_ACCEPTED: return "ACCEPTED";
    case BMC_QUESTION: return "QUESTION";
    case BMC_ROOM: return "ROOM";
    case BMC_LENGTH: return "LENGTH";
    case BMC_CHARACTER: return "CHARACTER";
    case BMC_FRAME: return "FRAME";
    case BMC_MANCHESTER: return "MANCHESTER";
    case BMC_ECHO: return "ECHO";
    case BMC_PEC: return "PEC";
    case BMC_ALIVE: return "ALIVE";
    case BMC_CHECK: return "CHECK";
    case BMC_COUNT: return "COUNT";
    case BMC_CHANNEL: return "CHANNEL";
    case BMC_LOW_BITS: return "LOW BITS";
    case BMC_FILE: return "FILE";
    case BMC_TWIN: return "TWIN";
    default: return "?";
    }
}

BMC_INLINE const char *bmc_kind_name(uint8_t kind)
{
    switch (kind) {
    case BMC_HELLOALL: return "HELLOALL";
    case BMC_WRITEALL: return "WRITEALL";
    case BMC_WRITEDEVICE: return "WRITEDEVICE";
    case BMC_READALL: return "READALL";
    case BMC_READDEVICE: return "READDEVICE";
    default: return "?";
    }
}

/* Where size_t has 32 bits: the archive's own calls, and each call above by them. */
#if BMC_LENGTH_BYTES != 8

uint32_t bmc64_read(uint8_t kind, uint8_t n, uint8_t alive, uint8_t reg,
                    uint16_t value, uint8_t device, uint8_t seed,
                    const uint8_t *line, uint64_t line_bytes, uint8_t *out,
                    uint64_t out_bytes);

BMC_INLINE uint32_t bmc_read(uint8_t kind, uint8_t n, uint8_t alive,
                             uint8_t reg, uint16_t value, uint8_t device,
                             uint8_t seed, const uint8_t *line,
                             size_t line_bytes, uint8_t *out, size_t out_bytes)
{
    return bmc64_read(kind, n, alive, reg, value, device, seed, line,
                      line_bytes, out, out_bytes);
}

uint32_t bmc64_command(uint8_t kind, uint8_t n, uint8_t alive, uint8_t reg,
                       uint16_t value, uint8_t device, uint8_t seed,
                       uint8_t *out, uint64_t out_bytes);

BMC_INLINE uint32_t bmc_command(uint8_t kind, uint8_t n, uint8_t alive,
                                uint8_t reg, uint16_t value, uint8_t device,
                                uint8_t seed, uint8_t *out, size_t out_bytes)
{
    return bmc64_command(kind, n, alive, reg, value, device, seed, out,
                         out_bytes);
}

uint32_t bmc64_part(uint8_t kind, uint8_t n, uint8_t alive, uint8_t reg,
                    uint16_t value, uint8_t device, uint8_t seed,
                    uint8_t named, const uint8_t *line, uint64_t line_bytes);

BMC_INLINE uint32_t bmc_part(uint8_t kind, uint8_t n, uint8_t alive,
                             uint8_t reg, uint16_t value, uint8_t device,
                             uint8_t seed, uint8_t named, const uint8_t *line,
                             size_t line_bytes)
{
    return bmc64_part(kind, n, alive, reg, value, device, seed, named, line,
                      line_bytes);
}

uint64_t bmc64_explain(uint8_t kind, uint8_t n, uint8_t alive, uint8_t reg,
                       uint16_t value, uint8_t device, uint8_t seed,
                       const uint8_t *line, uint64_t line_bytes);

BMC_INLINE uint64_t bmc_explain(uint8_t kind, uint8_t n, uint8_t alive,
                                uint8_t reg, uint16_t value, uint8_t device,
                                uint8_t seed, const uint8_t *line,
                                size_t line_bytes)
{
    return bmc64_explain(kind, n, alive, reg, value, device, seed, line,
                         line_bytes);
}

uint32_t bmc64_cell(uint8_t cell, uint16_t enabled, uint16_t reg,
                    uint8_t bipolar, int32_t *microvolts, float *volts);

BMC_INLINE uint32_t bmc_cell(uint8_t cell, uint16_t enabled, uint16_t reg,
                             uint8_t bipolar, int32_t *microvolts,
                             float *volts)
{
    return bmc64_cell(cell, enabled, reg, bipolar, microvolts, volts);
}

uint32_t bmc64_cells(uint16_t enabled, uint8_t bipolar,
                     const uint8_t *registers, uint64_t register_bytes,
                     int32_t *microvolts, uint64_t microvolts_count,
                     float *volts, uint64_t volts_count, uint32_t *answers,
                     uint64_t answers_count);

BMC_INLINE uint32_t bmc_cells(uint16_t enabled, uint8_t bipolar,
                              const uint8_t *registers, size_t register_bytes,
                              int32_t *microvolts, size_t microvolts_count,
                              float *volts, size_t volts_count,
                              uint32_t *answers, size_t answers_count)
{
    return bmc64_cells(enabled, bipolar, registers, register_bytes, microvolts,
                       microvolts_count, volts, volts_count, answers,
                       answers_count);
}

uint32_t bmc64_certificate(const uint8_t *file, uint64_t file_bytes,
                           uint8_t *text, uint64_t text_bytes);

BMC_INLINE uint32_t bmc_certificate(const uint8_t *file, size_t file_bytes,
                                    uint8_t *text, size_t text_bytes)
{
    return bmc64_certificate(file, file_bytes, text, text_bytes);
}

uint32_t bmc64_twin_power_on(uint8_t n, uint8_t *memory,
                             uint64_t memory_bytes);

BMC_INLINE uint32_t bmc_twin_power_on(uint8_t n, uint8_t *memory,
                                      size_t memory_bytes)
{
    return bmc64_twin_power_on(n, memory, memory_bytes);
}

uint32_t bmc64_twin_step(uint8_t n, uint8_t device, uint8_t *memory,
                         uint64_t memory_bytes, const uint8_t *line,
                         uint64_t line_bytes, uint8_t *out,
                         uint64_t out_bytes);

BMC_INLINE uint32_t bmc_twin_step(uint8_t n, uint8_t device, uint8_t *memory,
                                  size_t memory_bytes, const uint8_t *line,
                                  size_t line_bytes, uint8_t *out,
                                  size_t out_bytes)
{
    return bmc64_twin_step(n, device, memory, memory_bytes, line, line_bytes,
                           out, out_bytes);
}

uint32_t bmc64_twin_run(uint8_t n, uint8_t *memory, uint64_t memory_bytes,
                        const uint8_t *line, uint64_t line_bytes, uint8_t *out,
                        uint64_t out_bytes);

BMC_INLINE uint32_t bmc_twin_run(uint8_t n, uint8_t *memory,
                                 size_t memory_bytes, const uint8_t *line,
                                 size_t line_bytes, uint8_t *out,
                                 size_t out_bytes)
{
    return bmc64_twin_run(n, memory, memory_bytes, line, line_bytes, out,
                          out_bytes);
}

uint32_t bmc64_pec(const uint8_t *bytes, uint64_t byte_count);

BMC_INLINE uint32_t bmc_pec(const uint8_t *bytes, size_t byte_count)
{
    return bmc64_pec(bytes, byte_count);
}

#endif

#ifdef __cplusplus
}
#endif

#endif
