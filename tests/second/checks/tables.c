/*
 * tables.c: document 004's packet sizes (Table 22) and its packets (Tables 25
 * to 29), as far as they are definite: every column, device by device.
 */
#include "checks.h"

#include <string.h>

/* Table 25, column 'Device (n) RXL' at n = below + 1; first address 0. */
static size_t column_25(unsigned below, uint8_t *bytes)
{
    bytes[0] = 0x57;
    bytes[1] = 0x00;
    bytes[2] = (uint8_t)below;
    return 3;
}

/* Tables 26 and 27: every column, after so many counts of the alive byte. */
static size_t column_write(struct s_question q, unsigned counts, uint8_t *bytes)
{
    bytes[0] = (uint8_t)(q.kind == 1 ? 0x02 : q.device << 3 | 4);
    bytes[1] = (uint8_t)q.reg;
    bytes[2] = (uint8_t)(q.value & 0xFF);
    bytes[3] = (uint8_t)(q.value >> 8);
    return close_bytes(bytes, 4, q.alive, q.seed + counts);
}

/* Tables 28 and 29 with so many values on the line, highest device first;
 * 01's count of the fill pairs (Table 28's last lines are one short). */
static size_t column_read(struct s_question q, const uint16_t *values,
                          unsigned on, uint8_t *bytes)
{
    unsigned pairs = q.kind == 3 ? q.n - on : 1 - on;
    size_t n = 0;
    bytes[n++] = (uint8_t)(q.kind == 3 ? 0x03 : q.device << 3 | 5);
    bytes[n++] = (uint8_t)q.reg;
    for (unsigned i = on; i-- > 0;) {
        bytes[n++] = (uint8_t)(values[i] & 0xFF);
        bytes[n++] = (uint8_t)(values[i] >> 8);
    }
    bytes[n++] = 0x00;
    n = close_bytes(bytes, n, q.alive, q.seed + on);
    for (unsigned i = 0; i < pairs; i++) {
        bytes[n++] = 0xC2;
        bytes[n++] = 0xD3;
    }
    return n;
}

/* The line in front of device 'below' (host's own line at 0, host RX at n). */
size_t column(struct s_question q, const uint16_t *registers,
                     unsigned below, uint8_t *bytes)
{
    uint16_t values[32];
    unsigned acted = q.kind == 2 || q.kind == 4 ? below > q.device : below;
    for (unsigned i = 0; i < 32 && i < q.n; i++)
        values[i] = registers[256 * (q.kind == 4 ? q.device : i) + q.reg];
    if (q.kind == 0)
        return column_25(below, bytes);
    if (q.kind == 1 || q.kind == 2)
        return column_write(q, acted, bytes);
    return column_read(q, values, acted, bytes);
}

static void check_columns(struct s_question q)
{
    uint8_t bytes[80];
    uint16_t line[MOST], before[CHAIN];
    size_t words = send_command(q, line);
    memcpy(before, chain, sizeof before);
    for (unsigned device = 0; device < q.n; device++) {
        check(is_wire(line, words, bytes, column(q, before, device, bytes)), "device RXL");
        step(q.n, device, line, words);
    }
    check(is_wire(line, words, bytes, column(q, before, q.n, bytes)), "host RX");
}

static void check_tables_25_to_29(void)
{
    for (unsigned kind = 0; kind <= 4; kind++)
        for (unsigned n = 1; n <= 32; n++)
            for (unsigned alive = 0; alive <= 1; alive++) {
                any_chain(n);
                check_columns(any_question(kind, n, alive));
            }
}

/* Table 22 counts with alive on; 01 has two words less without. */
static void check_table_22(void)
{
    const size_t sizes[] = { 8, 14, 14, 12, 16 };
    uint16_t line[MOST];
    for (unsigned kind = 0; kind <= 4; kind++)
        for (unsigned z = 1; z <= 32; z++) {
            size_t size = sizes[kind] + (kind == 3 ? 4 * z : 0);
            size_t less = kind == 0 ? 0 : 2;
            check(send_command(any_question(kind, z, 1), line) == size, "Table 22");
            check(send_command(any_question(kind, z, 0), line) == size - less, "alive off");
        }
}

void check_tables(void)
{
    check_table_22();
    check_tables_25_to_29();
}
