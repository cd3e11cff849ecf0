/*
 * plain.h: the same calls in ordinary C, as a baseline for the benchmark.
 *
 * Same arguments, same checks in the same order and same results as the calls
 * of bmc.h, but nothing proved. plain_pec is the PEC alone.
 */
#ifndef PLAIN_H
#define PLAIN_H

#include <stddef.h>
#include <stdint.h>

uint32_t plain_pec(const uint8_t *bytes, size_t n);

uint32_t plain_read(uint8_t kind, uint8_t n, uint8_t alive, uint8_t reg,
                    uint16_t value, uint8_t device, uint8_t seed,
                    const uint8_t *line, size_t line_bytes,
                    uint8_t *out, size_t out_bytes);

uint32_t plain_command(uint8_t kind, uint8_t n, uint8_t alive, uint8_t reg,
                       uint16_t value, uint8_t device, uint8_t seed,
                       uint8_t *out, size_t out_bytes);

uint32_t plain_certificate(const uint8_t *file, size_t file_bytes,
                           uint8_t *text, size_t text_bytes);

#endif
