/*
 * host_expect.c: what the reference says, in the library's form.
 *
 * The reference speaks of words and of structs, bmc.h of bytes and packed
 * results. To the reader, a line that it cannot be given (an odd number of bytes,
 * or too many) is handed over as an empty one, whose length is as wrong; to the
 * twin's step, the whole words of any line.
 */
#include "host.h"
#include "second/cells.h"
#include "second/certificate.h"
#include "second/chain.h"
#include "second/command.h"
#include "second/part.h"
#include "second/reader.h"
#include "second/reasons.h"
#include "second/registers.h"
#include "second/twin.h"

static const uint16_t no_words[1];

void to_words(const uint8_t *bytes, size_t words, uint16_t *to)
{
    for (size_t i = 0; i < words; i++)
        to[i] = (uint16_t)(bytes[2 * i] | bytes[2 * i + 1] << 8);
}

static int is_line(size_t line_bytes)
{
    return line_bytes % 2 == 0 && line_bytes <= BMC_LINE_MOST_BYTES;
}

static size_t line_words(const uint8_t *line, size_t line_bytes, uint16_t *words)
{
    if (!is_line(line_bytes))
        return 0;
    to_words(line, line_bytes / 2, words);
    return line_bytes / 2;
}

/* Whole words of room, and no more than the memory here has. */
size_t room_words(size_t bytes, size_t most)
{
    return bytes / 2 < most ? bytes / 2 : most;
}

uint32_t packed(unsigned number, unsigned byte, size_t high)
{
    return number | byte << 8 | (uint32_t)high << 16;
}

uint32_t expect_read(struct s_question q, const uint8_t *line, size_t line_bytes,
                     uint8_t *out, size_t out_bytes)
{
    uint16_t words[BMC_LINE_MOST_WORDS], values[BMC_MOST_DEVICES];
    size_t count = line_words(line, line_bytes, words);
    struct s_answer a = s_read(q, words, count, values,
                               room_words(out_bytes, BMC_MOST_DEVICES));
    if (a.number != S_ACCEPTED)
        return packed((unsigned)a.number, a.byte, a.place);
    put_slice(values, a.values, out);
    return packed(0, a.count, a.values);
}

uint32_t expect_command(struct s_question q, uint8_t *out, size_t out_bytes)
{
    uint16_t words[BMC_LINE_MOST_WORDS];
    size_t written;
    int number = s_command(q, words, room_words(out_bytes, BMC_LINE_MOST_WORDS),
                           &written);
    put_slice(words, written, out);
    return packed((unsigned)number, 0, written);
}

uint32_t expect_part(struct s_question q, unsigned named,
                     const uint8_t *line, size_t line_bytes)
{
    uint16_t words[BMC_LINE_MOST_WORDS];
    size_t start, length, count = line_words(line, line_bytes, words);
    s_part(q, named, words, count, &start, &length);
    return packed((unsigned)length, 0, start);
}

/* Sixteen bits of what stood and of what is right: a longer line is 65,535. */
uint64_t expect_explain(struct s_question q, const uint8_t *line, size_t line_bytes)
{
    struct s_reason r = s_explain(q, line, line_bytes);
    uint64_t stood = r.stood < 65535 ? r.stood : 65535;
    return (uint64_t)r.number | (uint64_t)r.how << 8 | (uint64_t)r.one << 11
        | (uint64_t)r.place << 16 | stood << 32 | (uint64_t)r.right << 48;
}

uint32_t expect_cell(unsigned cell, unsigned enabled, unsigned reg,
                     unsigned bipolar, int32_t *microvolts, float *volts)
{
    int measured = 0;
    int32_t whole;
    float single;
    if (bipolar > 1)
        return packed(S_QUESTION, 0, 0);
    int number = s_cell(cell, enabled, reg, (int)bipolar, &measured, &whole, &single);
    if (number == S_ACCEPTED && measured) {
        *microvolts = whole;
        *volts = single;
    }
    return packed((unsigned)number, (unsigned)measured, 0);
}

/* Range and registers' length are the header's; the twelve cells are 01's. */
uint32_t expect_cells(unsigned enabled, unsigned bipolar,
                      const uint8_t *registers, size_t register_bytes,
                      struct cell_outputs outputs)
{
    uint16_t words[12];
    struct s_measured cells[12];
    if (bipolar > 1)
        return packed(S_QUESTION, 0, 0);
    for (size_t i = 0; i < 3; i++)
        if (outputs.counts[i] < 12)
            return packed(S_ROOM, 0, 0);
    if (register_bytes != 24)
        return packed(S_LENGTH, 0, 0);
    to_words(registers, 12, words);
    s_cells(enabled, (int)bipolar, words, cells);
    for (size_t k = 0; k < 12; k++) {
        outputs.answers[k] = packed((unsigned)cells[k].number,
                                    (unsigned)cells[k].measured, 0);
        if (cells[k].measured) {
            outputs.microvolts[k] = cells[k].microvolts;
            outputs.volts[k] = cells[k].volts;
        }
    }
    return packed(S_ACCEPTED, 0, 0);
}

uint32_t expect_certificate(const uint8_t *file, size_t file_bytes,
                            uint8_t *text, size_t text_bytes)
{
    size_t written;
    int number = s_certificate(file, file_bytes, (char *)text, text_bytes, &written);
    return (uint32_t)number | (uint32_t)written << 8;
}

/* An odd number of bytes is no number of words: no chain has 3 of them. */
static size_t memory_words(size_t memory_bytes)
{
    return memory_bytes % 2 == 0 ? memory_bytes / 2 : 3;
}

uint32_t expect_power_on(unsigned n, uint8_t *memory, size_t memory_bytes)
{
    uint16_t registers[256 * BMC_MOST_DEVICES];
    size_t count = memory_words(memory_bytes);
    int number = s_power_on(n, registers, count);
    if (number == S_ACCEPTED)
        put_slice(registers, count, memory);
    return (uint32_t)number;
}

/* An empty line passes every device unchanged: only TWIN can refuse it. */
static int is_twin(unsigned n, unsigned device, size_t memory_bytes)
{
    uint16_t registers[256 * BMC_MOST_DEVICES], none[1];
    return s_step(n, device, registers, memory_words(memory_bytes),
                  no_words, 0, none, 0) != S_TWIN;
}

uint32_t expect_step(unsigned n, unsigned device,
                     uint8_t *memory, size_t memory_bytes,
                     const uint8_t *line, size_t line_bytes,
                     uint8_t *out, size_t out_bytes)
{
    uint16_t registers[256 * BMC_MOST_DEVICES];
    uint16_t words[LINE_MOST / 2], next[LINE_MOST / 2];
    size_t count = line_bytes / 2;
    size_t room = room_words(out_bytes, LINE_MOST / 2);
    int number;
    if (!is_twin(n, device == WHOLE_CHAIN ? 0 : device, memory_bytes))
        return S_TWIN;
    to_words(line, count, words);
    to_words(memory, memory_bytes / 2, registers);
    if (device == WHOLE_CHAIN)
        number = s_run(n, registers, memory_bytes / 2, words, count, next, room);
    else
        number = s_step(n, device, registers, memory_bytes / 2, words, count, next, room);
    if (number != S_ACCEPTED)
        return (uint32_t)number;
    if (line_bytes % 2 != 0)
        return S_LENGTH;
    put_slice(registers, memory_bytes / 2, memory);
    put_slice(next, count, out);
    return S_ACCEPTED;
}
