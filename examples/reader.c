/*
 * reader.c: a bench's reading from question to volts, and a refusal.
 *
 * Two monitors; the first cell of each is read with READALL, and turned into
 * volts. Then the same answer comes back with one bit turned over, and is
 * refused. Here the library's own twin of the chain stands for the wire; firmware
 * sends the command and takes the answer in exchange().
 *
 * On a machine with the Rattle kit:
 *     ./firmware x86-64
 *     cc -Itarget/firmware/x86-64/include examples/reader.c \
 *        target/firmware/x86-64/lib/libbmc.a -o reader && ./reader
 */
#include <stdio.h>

#include "bmc.h"

enum { DEVICES = 2 };

/* ---- The wire ----------------------------------------------------------- */

static uint8_t registers[512 * DEVICES];    /* the twin's */

/* Sends the words of a command and takes as many words back. */
static size_t exchange(const uint8_t *command, size_t bytes, uint8_t *answer)
{
    uint32_t result = bmc_twin_run(DEVICES, registers, sizeof registers,
                                   command, bytes, answer, bytes);
    return BMC_NUMBER(result) == BMC_ACCEPTED ? bytes : 0;
}

/* ---- Asking ------------------------------------------------------------- */

/* Writes the command of a question, sends it, and leaves the answer's words in
 * line; how many bytes came. */
static size_t ask(const bmc_question *q, uint8_t line[BMC_LINE_MOST_BYTES])
{
    uint8_t command[BMC_LINE_MOST_BYTES];
    uint32_t result = bmc_question_command(q, command, sizeof command);
    if (BMC_NUMBER(result) != BMC_ACCEPTED) {
        printf("no command: %s\n", bmc_number_name(BMC_NUMBER(result)));
        return 0;
    }
    return exchange(command, 2u * BMC_WRITTEN(result), line);
}

/* Says what became of an answer; 1 where it was accepted. */
static int said(const bmc_question *q, uint32_t result)
{
    uint8_t number = BMC_NUMBER(result);
    printf("%s of %02Xh: %s", bmc_kind_name(q->kind), (unsigned)q->reg,
           bmc_number_name(number));
    if (number == BMC_CHARACTER || number == BMC_MANCHESTER)
        printf(" at word %u", (unsigned)BMC_PLACE(result));
    if (number == BMC_CHECK || number == BMC_COUNT)
        printf(", the byte is %02Xh", (unsigned)BMC_BYTE(result));
    printf("\n");
    return number == BMC_ACCEPTED;
}

/* A write's answer is its echo: it shows that the command went round, and not yet
 * what a device holds. */
static int write_register(const bmc_question *q)
{
    uint8_t line[BMC_LINE_MOST_BYTES], nothing[1];
    size_t bytes = ask(q, line);
    return said(q, bmc_question_read(q, line, bytes, nothing, 0));
}

/* ---- Volts -------------------------------------------------------------- */

static void show_cell(unsigned device, uint16_t enabled, uint16_t reg)
{
    int32_t microvolts;
    float volts;
    uint32_t result = bmc_cell(1, enabled, reg, 0, &microvolts, &volts);
    if (BMC_NUMBER(result) != BMC_ACCEPTED)
        printf("  device %u: %s\n", device, bmc_number_name(BMC_NUMBER(result)));
    else if (!BMC_MEASURED(result))
        printf("  device %u: not measured\n", device);
    else
        printf("  device %u: register %04Xh, %lu microvolts\n", device,
               (unsigned)reg, (unsigned long)microvolts);
}

int main(void)
{
    uint8_t line[BMC_LINE_MOST_BYTES], values[BMC_VALUES_MOST_BYTES];
    bmc_question q = { 0, 0, 0, 0, 0, 0, 0 };
    size_t bytes;
    unsigned device;

    /* A chain after power-on; cells 1 to 12 are to be measured. */
    bmc_twin_power_on(DEVICES, registers, sizeof registers);
    q.n = DEVICES;
    q.alive = 1;
    q.seed = 0x10;
    q.kind = BMC_WRITEALL;
    q.reg = BMC_REGISTER_MEASUREEN;
    q.value = 0x0FFF;
    if (!write_register(&q))
        return 1;

    /* What the monitors would have measured, put into the twin's registers:
     * register r of device d is word 256 * d + r. */
    bmc_word_put(registers, BMC_REGISTER_CELL(1), 0xB850);
    bmc_word_put(registers, 256 + BMC_REGISTER_CELL(1), 0xB83D);

    /* The first cell of every device, in one answer. */
    q.kind = BMC_READALL;
    q.reg = BMC_REGISTER_CELL(1);
    bytes = ask(&q, line);
    if (!said(&q, bmc_question_read(&q, line, bytes, values, sizeof values)))
        return 1;
    for (device = 0; device < DEVICES; device++)
        show_cell(device, 0x0FFF, bmc_word_get(values, device));

    /* One bit turned over on the way back: refused, and the values stay. */
    bmc_word_put(line, 5, bmc_word_get(line, 5) ^ 0x0008);
    return said(&q, bmc_question_read(&q, line, bytes, values, sizeof values));
}
